//! What is asked of each solver, and what it answers, in one form for all of them.

#[derive(Clone, Copy, Debug)]
pub enum Question {
    Loose { t1: u32, t2: u32 },
    Strict { t1: u32, t2: u32 },
    Ratio,
}

#[derive(Clone, PartialEq, Eq, Debug)]
pub enum Told {
    /// A strict grade a, b is told as 128*a + b, from which both can be read: b lies from -64 to 0.
    Grades(Box<[i64; 64]>),
    /// In lowest terms.
    Ratio { marks: i64, hops: i64 },
    /// A ring forbids, or a circle has no ratio.
    Refused,
}

impl Told {
    pub fn ratio(marks: i64, hops: i64) -> Told {
        let shared = divisor(marks, hops);
        Told::Ratio { marks: marks / shared, hops: hops / shared }
    }
}

fn divisor(a: i64, b: i64) -> i64 {
    if b == 0 { a } else { divisor(b, a % b) }
}
