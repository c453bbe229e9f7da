//! The folders that are measured: 64 standing records each, from a fixed seed.

use peer::chance::Chance;
use peer::view::View;
use std::collections::BTreeSet;

pub struct Folder {
    pub records: Vec<u8>,
    pub pairs: Vec<[u8; 2]>,
}

const SEED: u64 = 64_512;

/// So many folders. Each has 64 to 512 marks, nearly all up an order of its own; every tenth has one mark more, against another, and so a circle.
pub fn all(count: u64) -> Vec<Folder> {
    (0..count).map(|place| folder(&mut Chance::new(SEED, place), place % 10 == 9)).collect()
}

fn folder(chance: &mut Chance, with_circle: bool) -> Folder {
    let order = chance.records(64);
    let wanted = chance.within(64, 511) as usize;
    let mut pairs = BTreeSet::new();
    while pairs.len() < wanted {
        let (a, b) = (chance.below(64) as usize, chance.below(64) as usize);
        if a != b {
            pairs.insert([order[a.min(b)], order[a.max(b)]]);
        }
    }
    let mut pairs: Vec<[u8; 2]> = pairs.into_iter().collect();
    if with_circle {
        let [from, to] = chance.pick(&pairs);
        pairs.push([to, from]);
    }
    chance.shuffle(&mut pairs);
    Folder { records: (0..64).collect(), pairs }
}

impl Folder {
    pub fn view(&self) -> View {
        View { standing: self.records.iter().copied().collect(), marks: self.pairs.iter().map(|&[from, to]| (from, to)).collect() }
    }
}
