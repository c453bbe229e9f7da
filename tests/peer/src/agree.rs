//! Whether what a program printed for a script agrees with the second implementation: byte for byte, but for the choice of a ring.
//! Which ring is shown is free. So a line with a ring is compared by its number or ratio, and the ring is checked for what it has to show.

use crate::answer::Answer;
use crate::judge;
use crate::ratio;
use crate::ring::{self, Count};
use crate::script;
use crate::tally::Tally;
use crate::view::View;
use std::cmp::Ordering;

pub fn judged(script: &[u8], printed: &[u8], tally: &mut Tally) -> Result<(), String> {
    tally.scripts += 1;
    let lines = script::lines(script);
    let Some((first, later)) = lines.split_first() else {
        tally.met("empty", "");
        return same("", printed, "an empty script");
    };
    let Some(mut folder) = judge::open(first) else {
        tally.met("first", "17");
        tally.lines += 1;
        return same("no 17\n", printed, "a first line that names no make");
    };
    let printed = printed.strip_suffix(b"\n").ok_or("the last answer is not ended by byte 10")?;
    let answers: Vec<&[u8]> = printed.split(|&byte| byte == b'\n').collect();
    if answers.len() != lines.len() {
        return Err(format!("{} lines have {} answers", lines.len(), answers.len()));
    }
    same("ok", answers[0], "line 1")?;
    tally.met(if *first == b"bits" { "bits" } else { "list" }, "ok");
    for (place, (line, answer)) in later.iter().zip(&answers[1..]).enumerate() {
        let wanted = judge::answer(&mut folder, line);
        let at = format!("line {}, {:?}", place + 2, String::from_utf8_lossy(line));
        match &wanted {
            Answer::Circle(_) | Answer::Forbidden(_) | Answer::Ratio { .. } => {
                shows(&folder.view(), line, &wanted, answer)
                    .map_err(|why| format!("{at}: printed {:?}, wanted such as {:?}: {why}", String::from_utf8_lossy(answer), wanted.line()))?;
                tally.rings += 1;
            }
            _ => same(&wanted.line(), answer, &at)?,
        }
        let letter = script::call(line).map_or("wrong", |_| std::str::from_utf8(&line[..1]).unwrap_or("wrong"));
        tally.met(letter, &outcome(&wanted));
    }
    tally.lines += lines.len() as u64;
    Ok(())
}

fn outcome(answer: &Answer) -> String {
    match answer {
        Answer::NoMark => "0/1".into(),
        Answer::Declined(number) => number.to_string(),
        Answer::Circle(_) => "12".into(),
        Answer::Forbidden(_) => "13".into(),
        _ => "ok".into(),
    }
}

fn same(wanted: &str, printed: &[u8], at: &str) -> Result<(), String> {
    if wanted.as_bytes() == printed { Ok(()) } else { Err(format!("{at}: printed {:?}, wanted {wanted:?}", String::from_utf8_lossy(printed))) }
}

/// Whether a printed line has the outcome that is wanted and a ring that shows it.
fn shows(view: &View, line: &[u8], wanted: &Answer, printed: &[u8]) -> Result<(), String> {
    let text = std::str::from_utf8(printed).map_err(|_| "no text")?;
    let (head, numbers) = text.split_once(" ring ").ok_or("no ring")?;
    let ring: Vec<u8> = numbers.split(' ').map(str::parse).collect::<Result<_, _>>().map_err(|_| "the ring has no numbers")?;
    let count = ring::counted(view, &ring)?;
    let read = match wanted {
        Answer::Circle(_) if count.hops > 0 => return Err("a circle has no hops".into()),
        Answer::Circle(_) => Answer::Circle(ring),
        Answer::Ratio { count: least, .. } => {
            let shown = fraction(head).ok_or("no ratio")?;
            if shown != count {
                return Err(format!("the ring has {count:?}"));
            }
            if count.marks < 1 || count.hops < 1 || ratio::compare(&shown, least) != Ordering::Equal {
                return Err("another ratio".into());
            }
            Answer::Ratio { count, ring }
        }
        _ => {
            let weights = script::call(line).and_then(judge::weights).ok_or("no grading")?;
            if !weights.forbidden_by(count) {
                return Err("the ring does not forbid".into());
            }
            Answer::Forbidden(ring)
        }
    };
    same(&read.line(), printed, "the numbers or the words")
}

fn fraction(head: &str) -> Option<Count> {
    let (marks, hops) = head.strip_prefix("ok ")?.split_once('/')?;
    Some(Count { marks: marks.parse().ok()?, hops: hops.parse().ok()? })
}
