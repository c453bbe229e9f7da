//! The least ratio, by halving the list of all fractions that a ring could have (docs/MODEL.md).

use crate::circle;
use crate::ring::{self, Count};
use crate::solve::{Grades, Weights, by_steps};
use crate::view::{Step, View};
use std::cmp::Ordering;

#[derive(Clone, PartialEq, Eq, Debug)]
pub enum Ratio {
    Circle(Vec<u8>),
    NoMark,
    Shown { count: Count, ring: Vec<u8> },
}

impl Ratio {
    /// The thresholds of the grades at this ratio. A circle has none.
    pub fn thresholds(&self) -> Option<(i128, i128)> {
        match self {
            Ratio::Circle(_) => None,
            Ratio::NoMark => Some((1, 0)),
            Ratio::Shown { count, .. } => Some((count.hops, count.marks)),
        }
    }
}

pub fn least(view: &View) -> Ratio {
    if let Some(circle) = circle::find(view) {
        return Ratio::Circle(circle);
    }
    // No ring has a greater ratio than marks/hops just when it can be graded at t1 = hops, t2 = marks.
    let fractions = fractions(view.standing.len() as i128);
    let steps = view.steps();
    let gradable = |count: &Count| by_steps(view, &steps, Weights::loose(count.hops, count.marks)).is_ok();
    let place = fractions.partition_point(|count| !gradable(count));
    let least = fractions[place];
    if least.marks == 0 {
        return Ratio::NoMark;
    }
    let weights = Weights::loose(least.hops, least.marks);
    let grades = by_steps(view, &steps, weights).expect("the fraction was just graded at");
    let ring = tight_ring(view, weights, &grades);
    let count = ring::counted(view, &ring).expect("tight steps that go round are a ring");
    Ratio::Shown { count, ring }
}

/// All fractions in lowest terms whose marks and hops are at most so many together, rising, 0/1 first.
fn fractions(records: i128) -> Vec<Count> {
    let of = |marks: i128| (1..=records - marks).map(move |hops| Count { marks, hops });
    let mut all: Vec<Count> = (1..records).flat_map(of).filter(|c| divisor(c.marks, c.hops) == 1).collect();
    all.push(Count { marks: 0, hops: 1 });
    all.sort_by(compare);
    all
}

fn divisor(a: i128, b: i128) -> i128 {
    if b == 0 { a } else { divisor(b, a % b) }
}

pub fn compare(a: &Count, b: &Count) -> Ordering {
    (a.marks * b.hops).cmp(&(b.marks * a.hops))
}

/// At the least ratio some ring sums to just nothing, so all its steps are tight: u's grade is v's grade and the step's value.
/// Its tight steps are taken as marks here, so that a circle of them is a ring of the view. A ring of hops alone sums to more than nothing.
fn tight_ring(view: &View, weights: Weights, grades: &Grades) -> Vec<u8> {
    let tight = |&(u, v, step): &(u8, u8, Step)| grades[&u] == weights.of(step) + grades[&v];
    let marks = view.steps().into_iter().filter(tight).map(|(u, v, _)| (u, v)).collect();
    let tight_view = View { standing: view.standing.clone(), marks };
    circle::find(&tight_view).expect("some ring has the least ratio")
}
