//! Answers, and the line that each is written as (docs/JUDGE.md).

use crate::folder::Number;
use crate::ring::Count;
use crate::solve::Grades;
use std::fmt::Write;

#[derive(Clone, PartialEq, Eq, Debug)]
pub enum Answer {
    Taken,
    /// Grades in whole numbers, on the whole scale or the unit scale.
    Whole(Grades),
    /// Strict grades, a and b.
    Pairs(Grades),
    NoMark,
    Ratio {
        count: Count,
        ring: Vec<u8>,
    },
    Declined(Number),
    Circle(Vec<u8>),
    Forbidden(Vec<u8>),
}

impl Answer {
    /// The line without its byte 10.
    pub fn line(&self) -> String {
        match self {
            Answer::Taken => "ok".into(),
            Answer::Whole(grades) => grades.iter().fold("ok".into(), |line, (u, value)| format!("{line} {u}:{}", value.whole)),
            Answer::Pairs(grades) => grades.iter().fold("ok".into(), |line, (u, value)| format!("{line} {u}:{}/{}", value.whole, value.part)),
            Answer::NoMark => "ok 0/1".into(),
            Answer::Ratio { count, ring } => {
                format!("ok {}/{}{}", count.marks, count.hops, ring_text(ring))
            }
            Answer::Declined(number) => format!("no {number}"),
            Answer::Circle(ring) => format!("no 12{}", ring_text(ring)),
            Answer::Forbidden(ring) => format!("no 13{}", ring_text(ring)),
        }
    }
}

fn ring_text(ring: &[u8]) -> String {
    let mut text = String::from(" ring");
    for u in ring {
        write!(text, " {u}").expect("a string takes all text");
    }
    text
}
