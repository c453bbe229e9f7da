//! The same questions in plain Rust, written to be quick: a table of 64 times 64 weights, passes of Bellman and Ford over it in place, an early
//! end, and a look for a ring among the steps that lowered after each pass. Nothing of it is proved.

use crate::folders::Folder;
use crate::questions::{Question, Told};

/// Far above every sum of 64 steps.
const NO_STEP: i64 = i64::MAX / 2;

pub struct Bits {
    present: u64,
    rows: [u64; 64],
}

pub struct List {
    present: u64,
    pairs: Vec<[u8; 2]>,
}

/// What both makes are read into: which records stand, and where marks lead.
pub trait Sheet {
    fn read(&self) -> Bits;
}

impl Sheet for Bits {
    fn read(&self) -> Bits {
        Bits { present: self.present, rows: self.rows }
    }
}

impl Sheet for List {
    fn read(&self) -> Bits {
        let mut rows = [0; 64];
        for &[from, to] in &self.pairs {
            rows[from as usize] |= 1 << to;
        }
        Bits { present: self.present, rows }
    }
}

impl Bits {
    pub fn of(folder: &Folder) -> Bits {
        List::of(folder).read()
    }

    fn marked(&self, u: usize, v: usize) -> bool {
        self.rows[u] >> v & 1 == 1
    }
}

impl List {
    pub fn of(folder: &Folder) -> List {
        List { present: folder.records.iter().fold(0, |set, &u| set | 1 << u), pairs: folder.pairs.clone() }
    }
}

pub fn ask(sheet: &impl Sheet, question: Question) -> Told {
    let read = sheet.read();
    match question {
        Question::Loose { t1, t2 } => told(settle(&weights(&read, -i64::from(t1), t2.into()))),
        Question::Strict { t1, t2 } => told(settle(&weights(&read, packed(-i64::from(t1), -1), packed(t2.into(), 0)))),
        Question::Ratio => ratio(&read),
    }
}

/// The pair a, b of a strict grading as one number. The search is exact on whatever whole numbers the steps have, and what it answers are sums
/// of at most 64 steps: grades, and a ring below 0. There a sum has b from -64 to 0, so that a difference of one in a outweighs every b,
/// and 128*a + b is less than another, or than 0, just where the pair is.
fn packed(a: i64, b: i64) -> i64 {
    128 * a + b
}

fn told(settled: Result<[i64; 64], Vec<u8>>) -> Told {
    settled.map_or(Told::Refused, |grades| Told::Grades(Box::new(grades)))
}

fn weights(read: &Bits, mark: i64, hop: i64) -> [[i64; 64]; 64] {
    let mut table = [[NO_STEP; 64]; 64];
    for u in places(read.present) {
        for v in places(read.present & !(1 << u)) {
            table[u][v] = hop;
        }
    }
    for u in places(read.present) {
        for v in places(read.rows[u] & read.present) {
            table[u][v] = mark;
            if !read.marked(v, u) {
                table[v][u] = NO_STEP;
            }
        }
    }
    table
}

fn places(word: u64) -> impl Iterator<Item = usize> {
    (0..64).filter(move |place| word >> place & 1 == 1)
}

/// The grades, or a ring below 0.
fn settle(table: &[[i64; 64]; 64]) -> Result<[i64; 64], Vec<u8>> {
    let mut grades = [0i64; 64];
    let mut next = [None; 64];
    loop {
        let mut settled = true;
        for u in 0..64 {
            let sums = table[u].iter().zip(&grades).map(|(step, grade)| step + grade);
            let least = sums.clone().fold(i64::MAX, i64::min);
            if least < grades[u] {
                next[u] = sums.clone().position(|sum| sum == least);
                grades[u] = least;
                settled = false;
            }
        }
        if settled {
            return Ok(grades);
        }
        if let Some(ring) = round(&next) {
            return Err(ring);
        }
    }
}

/// The steps that lowered go round only along a ring that sums to less than nothing.
fn round(next: &[Option<usize>; 64]) -> Option<Vec<u8>> {
    let mut seen = [64; 64];
    for start in 0..64 {
        let mut at = start;
        while seen[at] == 64 {
            seen[at] = start;
            let Some(to) = next[at] else { break };
            at = to;
            if seen[at] == start {
                return Some(ring_from(next, at));
            }
        }
    }
    None
}

fn ring_from(next: &[Option<usize>; 64], first: usize) -> Vec<u8> {
    let mut ring = vec![first as u8];
    let mut at = first;
    while let Some(to) = next[at].filter(|&to| to != first) {
        ring.push(to as u8);
        at = to;
    }
    ring
}

/// Each ring that forbids raises the ratio to its own, until none does.
fn ratio(read: &Bits) -> Told {
    let (mut marks, mut hops) = (0, 1);
    while let Err(ring) = settle(&weights(read, -hops, marks)) {
        let steps = (0..ring.len()).map(|k| (ring[k] as usize, ring[(k + 1) % ring.len()] as usize));
        marks = steps.filter(|&(u, v)| read.marked(u, v)).count() as i64;
        hops = ring.len() as i64 - marks;
        if hops == 0 {
            return Told::Refused;
        }
    }
    Told::ratio(marks, hops)
}
