//! Scripts at random: small folders and wide ones, orders with few hops, full lists, wrong lines, wrong first lines, and bytes of no meaning.

use crate::chance::Chance;
use crate::edges;
use crate::writer::Writer;

/// Scripts of one line or none, each of which is always tried.
pub const SHORTEST: &[&[u8]] =
    &[b"", b"\n", b"\n\n", b"bits", b"list", b"bits\n", b"list\n", b"bits\n\n", b"list\n\n\n", b"\nbits\n", b"\0", b"bits\ng 1 1"];

/// The script of a seed and a place.
pub fn script(seed: u64, place: u64) -> Vec<u8> {
    let mut chance = Chance::new(seed, place);
    match chance.below(100) {
        0..40 => small(&mut chance, 5),
        40..52 => small(&mut chance, 40),
        52..72 => order(&mut chance),
        72..80 => wide(&mut chance),
        80..83 => full(&mut chance),
        83..90 => edgy(&mut chance),
        90..96 => wrong_first(&mut chance),
        _ => no_meaning(&mut chance),
    }
}

/// A few records, many calls of every kind, and so many wrong lines of a hundred.
fn small(chance: &mut Chance, wrong: u64) -> Vec<u8> {
    let count = chance.within(1, 9) as usize;
    let upward = chance.pick(&[50, 80, 95, 100]);
    let length = chance.within(3, 120);
    let mut writer = Writer::any(chance, count);
    for _ in 0..length {
        if writer.chance.percent(wrong) {
            let (u, v) = writer.pair(upward);
            let letter = writer.chance.pick(b"msgheab") as char;
            let right = if "eab".contains(letter) { format!("{letter} {u}") } else { format!("{letter} {u} {v}") };
            let line = edges::line(writer.chance, right.as_bytes());
            writer.line(line);
        } else if writer.chance.percent(35) {
            writer.question();
        } else {
            writer.change(upward);
        }
    }
    writer.done()
}

/// Marks that go up an order, few or nearly all, and questions before and after records are set aside and brought back.
fn order(chance: &mut Chance) -> Vec<u8> {
    let share = chance.pick(&[15, 40, 70, 90, 97]);
    let count = chance.within(4, if share < 50 { 30 } else { 22 }) as usize;
    let mut writer = Writer::any(chance, count);
    writer.mark_order(share);
    for _ in 0..writer.chance.within(1, 4) {
        writer.question();
        writer.line("r");
        for _ in 0..writer.chance.within(1, 6) {
            let line = match writer.chance.below(4) {
                0 | 1 => format!("a {}", writer.record()),
                2 => format!("b {}", writer.record()),
                _ => {
                    let (u, v) = writer.some_mark(90);
                    format!("s {u} {v}")
                }
            };
            writer.line(line);
        }
        writer.question();
        writer.question();
    }
    writer.done()
}

/// Many records: a chain, or marks at random, up to the longest walks that can be.
fn wide(chance: &mut Chance) -> Vec<u8> {
    let count = chance.pick(&[32, 48, 60, 63, 64, 64]);
    let mut writer = Writer::any(chance, count);
    // A solver that lowers values in place takes longest where the chain goes through the records in their order.
    if writer.chance.percent(50) {
        writer.records.sort();
    }
    if writer.chance.percent(50) {
        for place in 1..writer.records.len() {
            writer.line(format!("m {} {}", writer.records[place - 1], writer.records[place]));
        }
    }
    let upward = writer.chance.pick(&[90, 100, 100, 100]);
    for _ in 0..writer.chance.within(0, 200) {
        writer.change(upward);
    }
    for _ in 0..writer.chance.within(1, 4) {
        writer.question();
    }
    writer.line("r");
    writer.done()
}

/// More marks than a list sheet holds, and strikes that make room again. The bit sheet takes them all.
fn full(chance: &mut Chance) -> Vec<u8> {
    let make = chance.pick(&["list", "list", "list", "bits"]);
    let mut writer = Writer::new(chance, make, 64);
    let upward = writer.chance.pick(&[50, 100]);
    for _ in 0..writer.chance.within(640, 700) {
        let (u, v) = writer.pair(upward);
        writer.line(format!("m {u} {v}"));
    }
    for _ in 0..writer.chance.within(5, 60) {
        writer.change(upward);
    }
    writer.question();
    writer.line("r");
    writer.done()
}

/// Calls with numbers at the edges.
fn edgy(chance: &mut Chance) -> Vec<u8> {
    let length = chance.within(5, 60);
    let mut writer = Writer::any(chance, 0);
    for u in [0, 1, 2, 63] {
        writer.line(format!("e {u}"));
    }
    for _ in 0..length {
        let letter = writer.chance.pick(b"eemmmsssaabbggghhh") as char;
        let mut number = || {
            if writer.chance.percent(40) { writer.chance.pick(&[0, 1, 2, 63]) } else { edges::number(writer.chance) }
        };
        let line = if "eab".contains(letter) { format!("{letter} {}", number()) } else { format!("{letter} {} {}", number(), number()) };
        writer.line(line);
    }
    writer.done()
}

/// A first line that is wrong, or nearly.
fn wrong_first(chance: &mut Chance) -> Vec<u8> {
    [&edges::first(chance)[..], b"\ne 0\ne 1\nm 0 1\nr\n"].concat()
}

/// Bytes at random, from all 256 or from those that scripts are written with, mostly after a first line.
fn no_meaning(chance: &mut Chance) -> Vec<u8> {
    let mut bytes = chance.pick(&[&b"bits\n"[..], b"list\n", b"bits\ne 1\ne 2\n", b""]).to_vec();
    let of_scripts = chance.percent(70);
    for _ in 0..chance.within(0, 400) {
        bytes.push(if of_scripts { chance.pick(b"emsabghor 001122 \n\n\n") } else { chance.byte() });
    }
    bytes
}

/// So many scripts, in which together every folder of the records 0 to 3 is asked every kind of question.
pub fn every_small_folder(parts: u64) -> Vec<Vec<u8>> {
    let pairs: Vec<(u8, u8)> = (0..4).flat_map(|u| (0..4).filter(move |&v| u != v).map(move |v| (u, v))).collect();
    let size = (1 << pairs.len()) / parts;
    (0..parts)
        .map(|part| {
            let mut text = format!("{}\ne 0\ne 1\ne 2\ne 3\n", if part % 2 == 0 { "bits" } else { "list" });
            // One mark changes from each folder to the next: the counting of Gray.
            let gray = |place: u64| place ^ (place >> 1);
            let mut marked = 0;
            for place in part * size..(part + 1) * size {
                for (bit, (u, v)) in pairs.iter().enumerate().filter(|(bit, _)| (marked ^ gray(place)) >> bit & 1 == 1) {
                    text += &format!("{} {u} {v}\n", if gray(place) >> bit & 1 == 1 { 'm' } else { 's' });
                }
                marked = gray(place);
                text += "r\no\n";
                for (t1, t2) in [(1, 0), (1, 1), (2, 1), (1, 2), (1, 3), (3, 1)] {
                    text += &format!("g {t1} {t2}\nh {t1} {t2}\n");
                }
            }
            text.into_bytes()
        })
        .collect()
}
