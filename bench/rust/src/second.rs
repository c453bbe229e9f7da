//! The second implementation of `tests/peer`, asked the same questions. It was written to be clear, and not to be quick.

use crate::questions::{Question, Told};
use peer::ratio;
use peer::solve::{Weights, solve};
use peer::view::View;

pub fn ask(view: &View, question: Question) -> Told {
    match question {
        Question::Loose { t1, t2 } => grades(view, Weights::loose(t1.into(), t2.into()), 1),
        Question::Strict { t1, t2 } => grades(view, Weights::strict(t1.into(), t2.into()), 128),
        Question::Ratio => ratio::least(view).thresholds().map_or(Told::Refused, |(t1, t2)| Told::ratio(t2 as i64, t1 as i64)),
    }
}

fn grades(view: &View, weights: Weights, parts: i128) -> Told {
    let Ok(values) = solve(view, weights) else { return Told::Refused };
    let mut grades = Box::new([0; 64]);
    for (u, value) in values {
        grades[u as usize] = (parts * value.whole + value.part) as i64;
    }
    Told::Grades(grades)
}
