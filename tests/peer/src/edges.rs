//! Lines that are wrong or close to it, and numbers at the edges.

use crate::chance::Chance;

pub const NUMBERS: &[u64] = &[
    0, 1, 2, 3, 9, 10, 62, 63, 64, 65, 99, 100, 127, 128, 254, 255, 256, 257, 319, 320, 511, 512, 999_999, 1_000_000, 1_000_001, 1_048_576,
    8_388_608, 9_999_998, 9_999_999,
];

const FIRSTS: &[&[u8]] = &[
    b"bits ",
    b" bits",
    b"BITS",
    b"Bits",
    b"bit",
    b"bitss",
    b"lists",
    b"lis",
    b"list ",
    b"list\r",
    b"bits\r",
    b"bits\t",
    b"bits\0",
    b"",
    b" ",
    b"e 0",
    b"r",
    b"b 0",
    b"list bits",
    b"bits 64",
    b"\xffits",
    b"bitz",
    b"lisp",
];

const WRONGS: &[&[u8]] = &[
    b"",
    b" ",
    b"  ",
    b"e",
    b"e ",
    b"e  1",
    b"e 1 ",
    b" e 1",
    b"e 01",
    b"e 00",
    b"e -1",
    b"e +1",
    b"e 1.0",
    b"e 12345678",
    b"e 99999999",
    b"e 4294967296",
    b"e 18446744073709551616",
    b"e 0x1",
    b"e 1 2",
    b"e\t1",
    b"e,1",
    b"e1",
    b"E 1",
    b"e 1\r",
    b"e 1\0",
    b"e a",
    b"ee 1",
    b"m",
    b"m 1",
    b"m 1 ",
    b"m 1  2",
    b"m 1 2 ",
    b"m 1 2 3",
    b"m 01 2",
    b"m 1 02",
    b"m -1 2",
    b"m 1 -2",
    b"m 12345678 1",
    b"m 1 12345678",
    b"m  1 2",
    b"M 1 2",
    b"s",
    b"s 1",
    b"s 1 2 3",
    b"s 1 00",
    b"a",
    b"a ",
    b"a 1 2",
    b"a 001",
    b"b",
    b"b 1 2",
    b"b -0",
    b"g",
    b"g 1",
    b"g 1 ",
    b"g 1 1 1",
    b"g 01 1",
    b"g 1 01",
    b"g 1 10000000",
    b"g -1 1",
    b"h",
    b"h 1",
    b"h 1 2 3",
    b"h 1 1\t",
    b"h 1 00000000",
    b"o ",
    b"o 1",
    b"o 1 0",
    b"oo",
    b"O",
    b"r ",
    b"r 1",
    b"rr",
    b"R",
    b"x",
    b"x 1",
    b"bits",
    b"list",
    b"ok",
    b"no 17",
    b"\xff",
    b"\x80\x80",
    b"e \xff",
    b"\xc3\xa9 1",
    b"e \xd9\xa1",
    b"q",
    b"#",
    b"e 1#",
    b"e 1\x0b",
    b"\x0ce 1",
];

pub fn number(chance: &mut Chance) -> u64 {
    chance.pick(NUMBERS)
}

/// A first line that names no make.
pub fn first(chance: &mut Chance) -> Vec<u8> {
    match chance.below(10) {
        0 => vec![b'x'; chance.pick(&[79, 80, 81, 300])],
        1 => mangled(chance, b"bits"),
        2 => mangled(chance, b"list"),
        _ => chance.pick(FIRSTS).to_vec(),
    }
}

/// A line that is mostly wrong: from the list, too long, or a right one with one byte changed. It has no byte 10.
pub fn line(chance: &mut Chance, right: &[u8]) -> Vec<u8> {
    match chance.below(10) {
        0..4 => chance.pick(WRONGS).to_vec(),
        4 => long(chance),
        _ => mangled(chance, right),
    }
}

/// Lines about as long as a line may be, with room for something that looks like a call.
fn long(chance: &mut Chance) -> Vec<u8> {
    let length = chance.pick(&[17, 18, 79, 80, 81, 82, 160, 4096]);
    let mut line = chance.pick(&[&b"e 1"[..], b"e ", b"r", b"g 1 1", b""]).to_vec();
    line.resize(length, chance.pick(b" 0123x"));
    line
}

/// The line with one byte put in, taken out, changed or doubled.
fn mangled(chance: &mut Chance, line: &[u8]) -> Vec<u8> {
    let mut bytes = line.to_vec();
    let at = chance.below(line.len() as u64 + 1) as usize;
    let byte = if chance.percent(70) { chance.pick(b" 0123456789emsabghorx-+.\t\r") } else { chance.byte() };
    let byte = if byte == b'\n' { b' ' } else { byte };
    match chance.below(4) {
        0 => bytes.insert(at, byte),
        1 if at < bytes.len() => drop(bytes.remove(at)),
        2 if at < bytes.len() => bytes[at] = byte,
        _ if at < bytes.len() => bytes.insert(at, line[at]),
        _ => bytes.push(byte),
    }
    bytes
}
