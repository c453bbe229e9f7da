//! Measures gradings and the least ratio on folders of 64 records: the proved library on its two makes of sheet, the second implementation of
//! `tests/peer`, and a quick solver, in one process. Prints a table of medians over the folders. Before it measures, it compares the answers.

mod folders;
mod proved;
mod questions;
mod quick;
mod second;

use folders::Folder;
use peer::view::View;
use questions::{Question, Told};
use std::hint::black_box;
use std::time::Instant;

const FOLDERS: u64 = 200;

/// Each measurement is the least of so many, since a machine in use only ever adds time.
const ROUNDS: usize = 5;

/// A folder as each solver has it, and the thresholds at its least ratio, if there is one.
struct Case {
    folder: Folder,
    view: View,
    bits: quick::Bits,
    list: quick::List,
    least: Option<(u32, u32)>,
}

impl Case {
    fn new(folder: Folder) -> Case {
        let view = folder.view();
        let least = match second::ask(&view, Question::Ratio) {
            Told::Ratio { marks, hops } => Some((hops as u32, marks as u32)),
            _ => None,
        };
        Case { bits: quick::Bits::of(&folder), list: quick::List::of(&folder), folder, view, least }
    }
}

/// A question, asked of each folder that has it, and whether it is to be given there.
struct Row {
    words: &'static str,
    question: fn(&Case) -> Option<Question>,
    given: fn(&Case) -> bool,
}

/// At the least ratio t2/t1 loose grades are just given, and strict ones just refused. One off it, it is the other way round.
const ROWS: [Row; 5] = [
    Row { words: "loose, given", question: |case| case.least.map(|(t1, t2)| Question::Loose { t1, t2 }), given: |_| true },
    Row {
        words: "loose, refused",
        question: |case| Some(case.least.map_or(Question::Loose { t1: 1, t2: 1 }, |(t1, t2)| Question::Loose { t1: t1 + 1, t2 })),
        given: |_| false,
    },
    Row { words: "strict, given", question: |case| case.least.map(|(t1, t2)| Question::Strict { t1, t2: t2 + 1 }), given: |_| true },
    Row {
        words: "strict, refused",
        question: |case| Some(case.least.map_or(Question::Strict { t1: 1, t2: 1 }, |(t1, t2)| Question::Strict { t1, t2 })),
        given: |_| false,
    },
    Row { words: "least ratio", question: |_| Some(Question::Ratio), given: |case| case.least.is_some() },
];

fn main() {
    let cases: Vec<Case> = folders::all(FOLDERS).into_iter().map(Case::new).collect();
    for row in &ROWS {
        cases.iter().for_each(|case| compare(case, row));
    }
    let circles = cases.iter().filter(|case| case.least.is_none()).count();
    let marks = median(cases.iter().map(|case| case.folder.pairs.len() as f64).collect());
    println!("{FOLDERS} folders of 64 records, {marks} marks in the median, {circles} with a circle. Times in microseconds.\n");
    println!("| Sheet | Question | Proved | Second | Quick | Proved to second | Proved to quick |\n|---|---|---|---|---|---|---|");
    for row in &ROWS {
        print("bit sheet", row, &cases, |case, question| measured(&proved::BITS, &case.bits, case, question));
    }
    for row in &ROWS {
        print("list sheet", row, &cases, |case, question| measured(&proved::LIST, &case.list, case, question));
    }
}

/// All solvers have to answer the same before they are measured.
fn compare(case: &Case, row: &Row) {
    let Some(question) = (row.question)(case) else { return };
    let told = second::ask(&case.view, question);
    assert_eq!(told != Told::Refused, (row.given)(case), "{question:?}");
    for make in [&proved::BITS, &proved::LIST] {
        assert_eq!(make.ask(&case.folder, question, 1).told(question), told, "{question:?}");
    }
    assert_eq!(quick::ask(&case.bits, question), told, "{question:?}");
    assert_eq!(quick::ask(&case.list, question), told, "{question:?}");
}

fn print(sheet: &str, row: &Row, cases: &[Case], measured: impl Fn(&Case, Question) -> [f64; 3]) {
    let times: Vec<[f64; 3]> = cases.iter().filter_map(|case| (row.question)(case).map(|question| measured(case, question))).collect();
    let [proved, second, quick] = [0, 1, 2].map(|solver| median(times.iter().map(|time| time[solver] * 1e6).collect()));
    let words = row.words;
    println!("| {sheet} | {words} | {proved:.0} | {second:.0} | {quick:.0} | {:.2} | {:.1} |", proved / second, proved / quick);
}

/// Seconds that one question takes: proved, the second implementation, the quick solver. Filling the proved sheet is measured alone and taken off.
fn measured(make: &proved::Make, sheet: &impl quick::Sheet, case: &Case, question: Question) -> [f64; 3] {
    let times = 4;
    let quickly = || {
        for _ in 0..times {
            black_box(quick::ask(black_box(sheet), question));
        }
    };
    let (mut whole, mut filling, mut second, mut quick) = (f64::MAX, f64::MAX, f64::MAX, f64::MAX);
    for _ in 0..ROUNDS {
        whole = whole.min(seconds(|| make.ask(black_box(&case.folder), question, times)));
        filling = filling.min(seconds(|| make.ask(black_box(&case.folder), question, 0)));
        second = second.min(seconds(|| second::ask(black_box(&case.view), question)));
        quick = quick.min(seconds(quickly));
    }
    [(whole - filling) / f64::from(times), second, quick / f64::from(times)]
}

fn seconds<T>(act: impl FnOnce() -> T) -> f64 {
    let start = Instant::now();
    black_box(act());
    start.elapsed().as_secs_f64()
}

fn median(mut numbers: Vec<f64>) -> f64 {
    numbers.sort_by(f64::total_cmp);
    numbers[numbers.len() / 2]
}
