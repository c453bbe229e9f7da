//! How often each kind of answer was compared, so that a run which never met one of them fails.

use std::collections::BTreeMap;

#[derive(Clone, Default)]
pub struct Tally {
    pub scripts: u64,
    pub lines: u64,
    pub rings: u64,
    pub releases: u64,
    pub kinds: BTreeMap<String, u64>,
}

/// A line's letter and its outcome, for every row of the tables of docs/JUDGE.md.
pub const OF_SCRIPTS: &[&str] = &[
    "first 17", "bits ok", "list ok", "wrong 17", "e ok", "e 2", "e 6", "e 5", "m ok", "m 2", "m 3", "m 4", "m 5", "m 7", "m 8", "s ok", "s 2",
    "s 3", "s 4", "s 5", "s 9", "a ok", "a 2", "a 4", "a 5", "b ok", "b 2", "b 4", "b 10", "g ok", "g 11", "g 13", "h ok", "h 11", "h 13", "o ok",
    "o 13", "r ok", "r 0/1", "r 12",
];

/// What reading a release comes to.
pub const OF_RELEASES: &[&str] = &["read ok", "read 14", "read 15", "read 16"];

impl Tally {
    pub fn met(&mut self, letter: &str, outcome: &str) {
        let kind = if outcome.is_empty() { letter.to_string() } else { format!("{letter} {outcome}") };
        *self.kinds.entry(kind).or_default() += 1;
    }

    pub fn add(&mut self, other: Tally) {
        self.scripts += other.scripts;
        self.lines += other.lines;
        self.rings += other.rings;
        self.releases += other.releases;
        for (kind, times) in other.kinds {
            *self.kinds.entry(kind).or_default() += times;
        }
    }

    /// Fails where one of the wanted kinds was met fewer than so many times.
    pub fn enough(&self, wanted: &[&str], least: u64) -> Result<(), String> {
        let rare: Vec<&str> = wanted.iter().copied().filter(|&kind| self.kinds.get(kind).copied().unwrap_or(0) < least).collect();
        if rare.is_empty() { Ok(()) } else { Err(format!("met fewer than {least} times: {}", rare.join(", "))) }
    }
}
