//! What a grading goes by: the records that stand, and the pairs that are marked (docs/MODEL.md).

use std::collections::BTreeSet;

#[derive(Clone, Copy, PartialEq, Eq, Debug)]
pub enum Step {
    Mark,
    Hop,
}

#[derive(Clone, Default, PartialEq, Eq, Debug)]
pub struct View {
    pub standing: BTreeSet<u8>,
    pub marks: BTreeSet<(u8, u8)>,
}

impl View {
    /// The step from u to v, if there is one.
    pub fn step(&self, u: u8, v: u8) -> Option<Step> {
        if u == v || !self.standing.contains(&u) || !self.standing.contains(&v) {
            return None;
        }
        match (self.marks.contains(&(u, v)), self.marks.contains(&(v, u))) {
            (true, _) => Some(Step::Mark),
            (false, true) => None,
            (false, false) => Some(Step::Hop),
        }
    }

    pub fn steps(&self) -> Vec<(u8, u8, Step)> {
        let from = |&u: &u8| self.standing.iter().filter_map(move |&v| self.step(u, v).map(|step| (u, v, step)));
        self.standing.iter().flat_map(from).collect()
    }
}
