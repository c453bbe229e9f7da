//! A script from its first line to its last, with one answer to each line (docs/JUDGE.md).

use crate::answer::Answer;
use crate::folder::{Folder, Number};
use crate::ratio::{self, Ratio};
use crate::script::{self, Call};
use crate::solve::{Grades, Weights, solve};
use crate::view::View;

/// What the first line opens; none where it names no make.
pub fn open(first: &[u8]) -> Option<Folder> {
    match first {
        b"bits" => Some(Folder::over_bits()),
        b"list" => Some(Folder::over_list()),
        _ => None,
    }
}

/// The answer to a later line, which may change the folder.
pub fn answer(folder: &mut Folder, line: &[u8]) -> Answer {
    let Some(call) = script::call(line) else {
        return Answer::Declined(17);
    };
    match call {
        Call::Enter(u) => changed(folder.enter(u)),
        Call::Mark(u, v) => changed(folder.mark(u, v)),
        Call::Strike(u, v) => changed(folder.strike(u, v)),
        Call::SetAside(u) => changed(folder.set_aside(u)),
        Call::BringBack(u) => changed(folder.bring_back(u)),
        Call::Loose(t1, t2) | Call::Strict(t1, t2) if outside(t1, t2) => Answer::Declined(11),
        Call::Loose(..) | Call::Unit => graded(&folder.view(), call, Answer::Whole),
        Call::Strict(..) => graded(&folder.view(), call, Answer::Pairs),
        Call::Ratio => match ratio::least(&folder.view()) {
            Ratio::Circle(ring) => Answer::Circle(ring),
            Ratio::NoMark => Answer::NoMark,
            Ratio::Shown { count, ring } => Answer::Ratio { count, ring },
        },
    }
}

fn outside(t1: i128, t2: i128) -> bool {
    !(1..=1_000_000).contains(&t1) || t2 > 1_000_000
}

fn changed(result: Result<(), Number>) -> Answer {
    result.map_or_else(Answer::Declined, |()| Answer::Taken)
}

/// The weights of a grading.
pub fn weights(call: Call) -> Option<Weights> {
    match call {
        Call::Loose(t1, t2) => Some(Weights::loose(t1, t2)),
        Call::Strict(t1, t2) => Some(Weights::strict(t1, t2)),
        Call::Unit => Some(Weights::unit()),
        _ => None,
    }
}

fn graded(view: &View, call: Call, given: impl Fn(Grades) -> Answer) -> Answer {
    let weights = weights(call).expect("a grading has weights");
    solve(view, weights).map_or_else(Answer::Forbidden, given)
}

/// All that the judge prints for a script.
pub fn run(script: &[u8]) -> String {
    let lines = script::lines(script);
    let Some((first, later)) = lines.split_first() else {
        return String::new();
    };
    let Some(mut folder) = open(first) else {
        return "no 17\n".into();
    };
    let mut printed = String::from("ok\n");
    for line in later {
        printed += &answer(&mut folder, line).line();
        printed.push('\n');
    }
    printed
}

/// What stands after a script; none where no folder is opened.
pub fn left(script: &[u8]) -> Option<View> {
    let lines = script::lines(script);
    let (first, later) = lines.split_first()?;
    let mut folder = open(first)?;
    for line in later {
        // Questions change nothing, and so need no answer here.
        if !script::call(line).is_some_and(Call::asks) {
            answer(&mut folder, line);
        }
    }
    Some(folder.view())
}
