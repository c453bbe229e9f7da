//! A script as it is written, line by line, each chosen by what stands after the lines before it.

use crate::chance::Chance;
use crate::edges;
use crate::folder::Folder;
use crate::judge;
use crate::ratio;
use crate::script::{self, Call};

/// A script as it is written, and the folder as it is after it, by which later lines are chosen.
pub struct Writer<'a> {
    pub chance: &'a mut Chance,
    bytes: Vec<u8>,
    folder: Folder,
    /// The records that lines are mostly about, in the order that most marks go up by.
    pub records: Vec<u8>,
}

impl<'a> Writer<'a> {
    pub fn new(chance: &'a mut Chance, make: &str, count: usize) -> Writer<'a> {
        let folder = judge::open(make.as_bytes()).expect("bits or list");
        let records = chance.records(count);
        let mut writer = Writer { chance, bytes: format!("{make}\n").into_bytes(), folder, records };
        let mut entered = writer.records.clone();
        writer.chance.shuffle(&mut entered);
        for u in entered {
            writer.line(format!("e {u}"));
        }
        writer
    }

    pub fn any(chance: &'a mut Chance, count: usize) -> Writer<'a> {
        let make = chance.pick(&["bits", "list"]);
        Writer::new(chance, make, count)
    }

    pub fn line(&mut self, line: impl AsRef<[u8]>) {
        let line = line.as_ref();
        if !script::call(line).is_some_and(Call::asks) {
            judge::answer(&mut self.folder, line);
        }
        self.bytes.extend_from_slice(line);
        self.bytes.push(b'\n');
    }

    /// Mostly with byte 10 at the end of the last line.
    pub fn done(mut self) -> Vec<u8> {
        if self.chance.percent(10) {
            self.bytes.pop();
        }
        self.bytes
    }

    pub fn record(&mut self) -> u64 {
        if self.chance.percent(97) { self.chance.pick(&self.records).into() } else { edges::number(self.chance) }
    }

    /// Two records, mostly in the order of the records.
    pub fn pair(&mut self, upward: u64) -> (u64, u64) {
        let (low, high) = (self.chance.below(self.records.len() as u64) as usize, self.chance.below(self.records.len() as u64) as usize);
        let (low, high) = if self.chance.percent(upward) { (low.min(high), low.max(high)) } else { (low, high) };
        if self.chance.percent(3) { (self.record(), self.record()) } else { (self.records[low].into(), self.records[high].into()) }
    }

    /// Marks each pair of the order with the given chance.
    pub fn mark_order(&mut self, percent: u64) {
        let mut pairs: Vec<(usize, usize)> = (0..self.records.len()).flat_map(|high| (0..high).map(move |low| (low, high))).collect();
        self.chance.shuffle(&mut pairs);
        for (low, high) in pairs {
            if self.chance.percent(percent) {
                self.line(format!("m {} {}", self.records[low], self.records[high]));
            }
        }
    }

    /// Thresholds at the least ratio and one off it, or small ones, or ones at the edges.
    fn thresholds(&mut self) -> (u64, u64) {
        match self.chance.below(10) {
            0 => (edges::number(self.chance), edges::number(self.chance)),
            1..3 => (self.chance.within(1, 6), self.chance.below(7)),
            _ => {
                let Some((hops, marks)) = ratio::least(&self.folder.view()).thresholds() else {
                    return (self.chance.within(1, 1000), self.chance.below(1_000_000));
                };
                let most = 1_000_000 / hops.max(marks) as u64;
                let times = if self.chance.percent(70) { self.chance.within(1, 4) } else { self.chance.within(1, most) };
                let near = |value: i128, off: u64| (value as u64 * times + off).saturating_sub(1);
                (near(hops, self.chance.pick(&[0, 1, 1, 1, 2])).max(1), near(marks, self.chance.pick(&[0, 1, 1, 1, 2])))
            }
        }
    }

    pub fn question(&mut self) {
        let letter = self.chance.pick(b"ggghhhorr") as char;
        match letter {
            'g' | 'h' => {
                let (t1, t2) = self.thresholds();
                self.line(format!("{letter} {t1} {t2}"));
            }
            _ => self.line(letter.to_string()),
        }
    }

    /// A call that may change the folder.
    pub fn change(&mut self, upward: u64) {
        match self.chance.below(20) {
            0 => {
                let u = if self.chance.percent(50) { self.record() } else { self.chance.below(66) };
                self.line(format!("e {u}"));
            }
            1..11 => {
                let (u, v) = self.pair(upward);
                self.line(format!("m {u} {v}"));
            }
            11..14 => {
                let (u, v) = self.some_mark(upward);
                self.line(format!("s {u} {v}"));
            }
            14..17 => {
                let u = self.record();
                self.line(format!("a {u}"));
            }
            _ => {
                let u = self.record();
                self.line(format!("b {u}"));
            }
        }
    }

    /// Mostly one that can be struck.
    pub fn some_mark(&mut self, upward: u64) -> (u64, u64) {
        let marks: Vec<(u8, u8)> = self.folder.view().marks.into_iter().collect();
        if marks.is_empty() || self.chance.percent(20) {
            return self.pair(upward);
        }
        let (u, v) = self.chance.pick(&marks);
        (u.into(), v.into())
    }
}
