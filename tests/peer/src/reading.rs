//! Reads a release: from left to right, each rule judged as soon as all its bytes are there, and then whether it holds (docs/RELEASE.md).

use crate::folder::Number;
use crate::release::Release;
use crate::ring::{self, Count};
use crate::view::Step;

const MISSING: Number = 14;
const BROKEN: Number = 15;
const FALSE: Number = 16;

/// What the bytes hold, and the marks and hops of the ring; for an empty ring 0 and 1.
pub fn read(bytes: &[u8]) -> Result<(Release, Count), Number> {
    let release = form(bytes)?;
    let count = holds(&release).ok_or(FALSE)?;
    Ok((release, count))
}

/// The bytes that are still to be read.
struct Rest<'a>(&'a [u8]);

impl Rest<'_> {
    fn byte(&mut self) -> Result<u8, Number> {
        let (&first, rest) = self.0.split_first().ok_or(MISSING)?;
        self.0 = rest;
        Ok(first)
    }

    fn two(&mut self) -> Result<[u8; 2], Number> {
        Ok([self.byte()?, self.byte()?])
    }
}

fn rule(kept: bool) -> Result<(), Number> {
    if kept { Ok(()) } else { Err(BROKEN) }
}

fn form(bytes: &[u8]) -> Result<Release, Number> {
    let mut rest = Rest(bytes);
    let mut release = Release::default();
    for _ in 0..rest.byte()? {
        let record = rest.byte()?;
        rule(record <= 63 && release.records.last().is_none_or(|&last| last < record))?;
        release.records.push(record);
    }
    for _ in 0..u16::from_le_bytes(rest.two()?) {
        let [from, to] = rest.two()?;
        rule(from <= 63 && to <= 63 && from != to && release.records.contains(&from) && release.records.contains(&to))?;
        rule(release.marks.last().is_none_or(|&last| last < (from, to)))?;
        release.marks.push((from, to));
    }
    let depths = rest.byte()?;
    rule(usize::from(depths) == release.records.len())?;
    for _ in 0..depths {
        release.depths.push(u16::from_le_bytes(rest.two()?));
    }
    for _ in 0..rest.byte()? {
        let record = rest.byte()?;
        rule(record <= 63)?;
        release.ring.push(record);
    }
    rule(rest.0.is_empty())?;
    Ok(release)
}

/// The ring's marks and hops, where it is one with both and the grades are a loose grading at t1 = hops, t2 = marks.
fn holds(release: &Release) -> Option<Count> {
    let view = release.view();
    let count = if release.ring.is_empty() { Count { marks: 0, hops: 1 } } else { ring::counted(&view, &release.ring).ok()? };
    if count.hops < 1 || (count.marks < 1 && !release.ring.is_empty()) {
        return None;
    }
    let grade = |u: u8| release.records.iter().position(|&record| record == u).map(|place| -i128::from(release.depths[place]));
    let met = view.steps().into_iter().all(|(u, v, step)| match (grade(u), grade(v), step) {
        (Some(of_u), Some(of_v), Step::Mark) => of_v - of_u >= count.hops,
        (Some(of_u), Some(of_v), Step::Hop) => (of_v - of_u).abs() <= count.marks,
        _ => false,
    });
    met.then_some(count)
}

/// What `releases read` is to print for these bytes.
pub fn text(bytes: &[u8]) -> String {
    let (release, count) = match read(bytes) {
        Ok(read) => read,
        Err(number) => return format!("no {number}\n"),
    };
    let joined = |words: Vec<String>| words.iter().map(|word| format!(" {word}")).collect::<String>();
    let marks = joined(release.marks.iter().map(|(from, to)| format!("{from}>{to}")).collect());
    let records = joined(release.records.iter().zip(&release.depths).map(|(u, depth)| format!("{u}:{}", -i32::from(*depth))).collect());
    let ring = joined(release.ring.iter().map(u8::to_string).collect());
    let word = if ring.is_empty() { "" } else { " ring" };
    format!("records{records}\nmarks{marks}\nratio {}/{}{word}{ring}\n", count.marks, count.hops)
}
