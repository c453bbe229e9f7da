//! The greatest values that meet every step and are nowhere above nothing, by the rounds of Bellman and Ford over all steps (docs/GRADING.md).
//! One exact pair of whole numbers serves every scale: whole and unit grades leave the second number at 0.

use crate::ring;
use crate::view::{Step, View};
use std::collections::BTreeMap;
use std::ops::Add;

#[derive(Clone, Copy, PartialEq, Eq, PartialOrd, Ord, Default, Debug)]
pub struct Value {
    pub whole: i128,
    pub part: i128,
}

impl Add for Value {
    type Output = Value;
    fn add(self, other: Value) -> Value {
        Value { whole: self.whole + other.whole, part: self.part + other.part }
    }
}

#[derive(Clone, Copy, Debug)]
pub struct Weights {
    pub mark: Value,
    pub hop: Value,
}

impl Weights {
    pub fn loose(t1: i128, t2: i128) -> Weights {
        Weights { mark: Value { whole: -t1, part: 0 }, hop: Value { whole: t2, part: 0 } }
    }

    pub fn strict(t1: i128, t2: i128) -> Weights {
        Weights { mark: Value { whole: -t1, part: -1 }, hop: Value { whole: t2, part: 0 } }
    }

    pub fn unit() -> Weights {
        Weights::loose(1, 0)
    }

    pub fn of(&self, step: Step) -> Value {
        match step {
            Step::Mark => self.mark,
            Step::Hop => self.hop,
        }
    }

    /// Whether a ring with these marks and hops sums to less than nothing.
    pub fn forbidden_by(&self, count: ring::Count) -> bool {
        let sum = Value {
            whole: count.marks * self.mark.whole + count.hops * self.hop.whole,
            part: count.marks * self.mark.part + count.hops * self.hop.part,
        };
        sum < Value::default()
    }
}

pub type Grades = BTreeMap<u8, Value>;

/// The grades, or a ring that forbids them.
pub fn solve(view: &View, weights: Weights) -> Result<Grades, Vec<u8>> {
    by_steps(view, &view.steps(), weights)
}

/// The same over the steps of the view, listed once for many weights.
pub fn by_steps(view: &View, steps: &[(u8, u8, Step)], weights: Weights) -> Result<Grades, Vec<u8>> {
    let mut grades = [Value::default(); 64];
    let mut next = [0; 64];
    let mut lowered = None;
    for _ in 0..=view.standing.len() {
        lowered = None;
        for &(u, v, step) in steps {
            let by_this_step = weights.of(step) + grades[v as usize];
            if by_this_step < grades[u as usize] {
                grades[u as usize] = by_this_step;
                next[u as usize] = v;
                lowered = Some(u);
            }
        }
        if lowered.is_none() {
            return Ok(view.standing.iter().map(|&u| (u, grades[u as usize])).collect());
        }
    }
    // A walk of more steps than records still lowered this record, so behind it the steps that lowered go round.
    let start = lowered.expect("a round that lowered nothing has returned");
    let first = (0..view.standing.len()).fold(start, |at, _| next[at as usize]);
    let mut round = vec![first];
    let mut at = next[first as usize];
    while at != first {
        round.push(at);
        at = next[at as usize];
    }
    Err(ring::from_smallest(round))
}
