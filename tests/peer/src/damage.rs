//! Releases at random, true and damaged: single bytes changed, cut off or added, contents that no longer hold, and long ones.

use crate::chance::Chance;
use crate::every;
use crate::release::{self, Release};
use crate::view::View;

/// The example of docs/RELEASE.md.
pub const EXAMPLE: [u8; 19] = [3, 0, 1, 2, 1, 0, 0, 2, 3, 2, 0, 1, 0, 0, 0, 3, 0, 2, 1];

/// Damage that docs/RELEASE.md works out, and the number of each.
pub const WORKED: &[(&[u8], u8)] = &[
    (&[3, 0, 1, 2, 1, 0, 0, 2, 3, 2, 0, 1, 0, 0, 0, 3, 0, 2], 14),
    (&[1, 64], 15),
    (&[2, 1, 0], 15),
    (&[2, 0, 1, 1, 0, 0, 2], 15),
    (&[2, 0, 1, 0, 0, 3], 15),
    (&[3, 0, 1, 2, 1, 0, 0, 2, 3, 2, 0, 1, 0, 0, 0, 3, 0, 2, 1, 0], 15),
    (&[3, 0, 1, 2, 1, 0, 0, 2, 3, 2, 0, 1, 0, 1, 0, 3, 0, 2, 1], 16),
    (&[3, 0, 1, 2, 1, 0, 0, 2, 3, 2, 0, 1, 0, 0, 0, 3, 0, 1, 2], 16),
    (&[3, 0, 1, 2, 1, 0, 0, 2, 3, 2, 0, 1, 0, 0, 0, 0], 16),
];

/// The bytes, each single-byte change of them, each beginning of them, also with another last byte, and each way to add one byte at the end.
pub fn each(bytes: &[u8]) -> Vec<Vec<u8>> {
    let changed = |place: usize| (1..=255).map(move |by| bytes.iter().enumerate().map(|(at, &b)| if at == place { b ^ by } else { b }).collect());
    let mut all: Vec<Vec<u8>> = (0..bytes.len()).flat_map(changed).collect();
    all.extend((0..=bytes.len()).map(|length| bytes[..length].to_vec()));
    let ends = |length: usize| [0, 1, 2, 3, 63, 64, 255].map(|last| [&bytes[..length], &[last]].concat());
    all.extend((0..bytes.len()).flat_map(ends));
    all.extend((0..=255).map(|last| [bytes, &[last]].concat()));
    all
}

/// The bytes of a seed and a place.
pub fn by_chance(seed: u64, place: u64) -> Vec<u8> {
    let mut chance = Chance::new(seed ^ 0xda3a6e, place);
    match chance.below(20) {
        0 => (0..chance.below(40)).map(|_| chance.byte()).collect(),
        1 => (0..chance.below(30)).map(|_| chance.pick(&[0, 0, 0, 1, 1, 2, 3, 63, 64, 255])).collect(),
        2 | 3 => long(&mut chance).bytes(),
        4 | 5 => valid(&mut chance).bytes(),
        6..10 => {
            let mut bytes = valid(&mut chance).bytes();
            bytes_damaged(&mut chance, &mut bytes);
            bytes
        }
        _ => {
            let mut release = valid(&mut chance);
            for _ in 0..chance.pick(&[1, 1, 1, 2]) {
                contents_damaged(&mut chance, &mut release);
            }
            release.bytes()
        }
    }
}

/// A folder without circles: small ones, and sometimes an order of up to 64 records with few hops.
pub fn view(chance: &mut Chance) -> View {
    if chance.percent(85) {
        let mut view = every::view(chance, 12);
        // Marks only from lower numbers to higher ones, so that no circle stands.
        view.marks = view.marks.into_iter().map(|(u, v)| (u.min(v), u.max(v))).collect();
        return view;
    }
    let share = chance.pick(&[3, 50, 98]);
    let count = chance.within(20, 64) as usize;
    let records = chance.records(count);
    let pairs = (0..count).flat_map(|high| (0..high).map(move |low| (low, high)));
    let marks = pairs.filter(|_| chance.percent(share)).map(|(low, high)| (records[low], records[high])).collect();
    View { standing: records.iter().copied().collect(), marks }
}

fn valid(chance: &mut Chance) -> Release {
    release::of(&view(chance)).expect("no circle stands")
}

fn bytes_damaged(chance: &mut Chance, bytes: &mut Vec<u8>) {
    for _ in 0..chance.within(1, 2) {
        let at = chance.below(bytes.len() as u64) as usize;
        match chance.below(6) {
            0 => bytes.truncate(at.max(1)),
            1 => bytes.push(chance.pick(&[0, 1, 255])),
            2 => bytes.insert(at, chance.pick(&[0, 1, 2, 63, 64])),
            3 if bytes.len() > 1 => drop(bytes.remove(at)),
            4 => bytes[at] = bytes[at].wrapping_add(chance.pick(&[1, 255])),
            _ => bytes[at] = chance.byte(),
        }
    }
}

/// One thing changed in the contents. The form mostly stays good, and now and then the release still holds.
fn contents_damaged(chance: &mut Chance, release: &mut Release) {
    let record = chance.below(64) as u8;
    let place = |chance: &mut Chance, length: usize| {
        if length == 0 { None } else { Some(chance.below(length as u64) as usize) }
    };
    let depth = place(chance, release.depths.len());
    let mark = place(chance, release.marks.len());
    let on_ring = place(chance, release.ring.len());
    match (chance.below(16), depth, mark, on_ring) {
        (0, Some(at), ..) => release.depths[at] = release.depths[at].wrapping_add(chance.pick(&[1, 65535, 256, 65280])),
        (1, Some(at), ..) => release.depths[at] = chance.below(65536) as u16,
        // All grades lowered alike still are a loose grading.
        (2, Some(_), ..) => release.depths.iter_mut().for_each(|depth| *depth = depth.saturating_add(1000)),
        (3, Some(at), ..) => release.depths.swap(0, at),
        (4, _, Some(at), _) => drop(release.marks.remove(at)),
        (5, _, Some(at), _) => release.marks[at] = (release.marks[at].1, release.marks[at].0),
        (6, _, Some(at), _) => release.marks.swap(0, at),
        (7, _, Some(at), _) => release.marks[at].0 = record,
        (8, Some(at), ..) => {
            release.marks.push((release.records[at], record));
            release.marks.sort();
        }
        (9, _, _, Some(at)) => release.ring.rotate_left(at),
        (10, _, _, Some(_)) => release.ring[1..].reverse(),
        (11, _, _, Some(at)) => release.ring[at] = record,
        (12, _, _, Some(at)) => drop(release.ring.remove(at)),
        (13, ..) => release.ring.clear(),
        (14, _, _, Some(_)) => release.ring.extend_from_within(..),
        _ => release.ring = other_ring(chance, release),
    }
}

/// A ring of hops, a ring of marks there and back, or records at random.
fn other_ring(chance: &mut Chance, release: &Release) -> Vec<u8> {
    let length = chance.within(1, 5) as usize;
    let mut ring: Vec<u8> = (0..length).filter_map(|_| (!release.records.is_empty()).then(|| chance.pick(&release.records))).collect();
    if chance.percent(70) {
        ring.sort();
        ring.dedup();
    }
    ring
}

/// Up to 64 records and 4,032 marks, any depths, and a ring section of up to 255 numbers.
fn long(chance: &mut Chance) -> Release {
    let mut records = chance.records(64);
    records.truncate(chance.pick(&[40, 63, 64]));
    records.sort();
    let share = chance.pick(&[30, 90, 100]);
    let pairs: Vec<(u8, u8)> = records.iter().flat_map(|&u| records.iter().map(move |&v| (u, v))).filter(|(u, v)| u != v).collect();
    let marks = pairs.into_iter().filter(|_| chance.percent(share)).collect();
    let depths = records.iter().map(|_| chance.below(65536) as u16).collect();
    let ring = (0..chance.pick(&[0, 1, 64, 65, 128, 254, 255])).map(|_| chance.below(64) as u8).collect();
    let mut release = Release { records, marks, depths, ring };
    if chance.percent(30) {
        release.ring.push(chance.pick(&[63, 64, 255]));
        release.ring.truncate(255);
    }
    release
}
