//! A folder over a new sheet: its calls, with their checks from left to right (docs/SHEETS.md).

use crate::view::View;
use std::collections::BTreeSet;

#[derive(Clone, Debug)]
pub struct Folder {
    capacity: usize,
    entered: BTreeSet<u8>,
    marks: BTreeSet<(u8, u8)>,
    aside: BTreeSet<u8>,
}

/// The number of a refusal (docs/REFUSALS.md).
pub type Number = u8;

fn check(fails: bool, number: Number) -> Result<(), Number> {
    if fails { Err(number) } else { Ok(()) }
}

impl Folder {
    pub fn over_bits() -> Folder {
        Folder::with(4032)
    }

    pub fn over_list() -> Folder {
        Folder::with(512)
    }

    fn with(capacity: usize) -> Folder {
        Folder { capacity, entered: BTreeSet::new(), marks: BTreeSet::new(), aside: BTreeSet::new() }
    }

    pub fn view(&self) -> View {
        let standing: BTreeSet<u8> = self.entered.difference(&self.aside).copied().collect();
        let marks = self.marks.iter().copied().filter(|(u, v)| standing.contains(u) && standing.contains(v)).collect();
        View { standing, marks }
    }

    pub fn enter(&mut self, u: u8) -> Result<(), Number> {
        check(u > 63, 2)?;
        check(self.entered.contains(&u) && !self.aside.contains(&u), 6)?;
        check(self.aside.contains(&u), 5)?;
        self.entered.insert(u);
        Ok(())
    }

    pub fn mark(&mut self, u: u8, v: u8) -> Result<(), Number> {
        self.check_pair(u, v)?;
        check(self.marks.contains(&(u, v)), 7)?;
        check(self.marks.len() >= self.capacity, 8)?;
        self.marks.insert((u, v));
        Ok(())
    }

    pub fn strike(&mut self, u: u8, v: u8) -> Result<(), Number> {
        self.check_pair(u, v)?;
        check(!self.marks.contains(&(u, v)), 9)?;
        self.marks.remove(&(u, v));
        Ok(())
    }

    pub fn set_aside(&mut self, u: u8) -> Result<(), Number> {
        check(u > 63, 2)?;
        check(!self.entered.contains(&u), 4)?;
        check(self.aside.contains(&u), 5)?;
        self.aside.insert(u);
        Ok(())
    }

    pub fn bring_back(&mut self, u: u8) -> Result<(), Number> {
        check(u > 63, 2)?;
        check(!self.entered.contains(&u), 4)?;
        check(!self.aside.contains(&u), 10)?;
        self.aside.remove(&u);
        Ok(())
    }

    fn check_pair(&self, u: u8, v: u8) -> Result<(), Number> {
        check(u > 63 || v > 63, 2)?;
        check(u == v, 3)?;
        check(!self.entered.contains(&u) || !self.entered.contains(&v), 4)?;
        check(self.aside.contains(&u) || self.aside.contains(&v), 5)
    }
}
