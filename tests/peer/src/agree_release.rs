//! Whether the program `releases` agrees with the second implementation: `write` takes a script and writes the release of what stands after it, or
//! fails with its number on standard error; `read` takes a release and prints what it tells, or its number, and then fails (docs/RELEASE.md).

use crate::folder::Number;
use crate::judge;
use crate::program::Ended;
use crate::ratio::{self, Ratio};
use crate::reading;
use crate::release::{self, Release};
use crate::tally::Tally;
use crate::view::View;
use std::cmp::Ordering;

/// The second implementation alone: what it writes it reads back, each beginning lacks a byte, and a byte more is one too many.
pub fn round_trip(view: &View) -> Result<(), String> {
    let Ok(release) = release::of(view) else {
        return Err(format!("a circle stands in {view:?}"));
    };
    let bytes = release.bytes();
    let numbers = |bytes: &[u8]| reading::read(bytes).map(|(release, _)| release);
    let right = numbers(&bytes) == Ok(release.clone())
        && (0..bytes.len()).all(|length| numbers(&bytes[..length]) == Err(14))
        && numbers(&[&bytes[..], &[0]].concat()) == Err(15);
    if right { Ok(()) } else { Err(format!("the round trip of {release:?}")) }
}

/// The second implementation alone: what it accepts is laid out as these very bytes.
pub fn outcome(bytes: &[u8], tally: &mut Tally) -> Result<(), String> {
    match reading::read(bytes) {
        Ok((release, _)) if release.bytes() != bytes => {
            return Err(format!("{} is read as {release:?}", hexadecimal(bytes)));
        }
        Ok(_) => tally.met("read", "ok"),
        Err(number) => tally.met("read", &number.to_string()),
    }
    tally.releases += 1;
    Ok(())
}

/// How `releases read` ended.
pub fn read(bytes: &[u8], ended: &Ended) -> Result<(), String> {
    let wanted = Ended { output: reading::text(bytes).into_bytes(), errors: Vec::new(), well: reading::read(bytes).is_ok() };
    if *ended == wanted {
        return Ok(());
    }
    Err(format!("reading {}: ended {}, wanted {}", hexadecimal(bytes), shown(ended), shown(&wanted)))
}

fn shown(ended: &Ended) -> String {
    format!(
        "{} with {:?} and {:?}",
        if ended.well { "well" } else { "badly" },
        String::from_utf8_lossy(&ended.output),
        String::from_utf8_lossy(&ended.errors)
    )
}

fn refused(number: Number) -> Ended {
    Ended { output: Vec::new(), errors: format!("no {number}\n").into_bytes(), well: false }
}

/// How `releases write` ended for a script. The ring is free, and with the ring its counts and the depths.
pub fn written(input: &[u8], ended: &Ended, tally: &mut Tally) -> Result<(), String> {
    tally.releases += 1;
    let Some(view) = judge::left(input) else {
        return number(17, ended);
    };
    let least = ratio::least(&view);
    if let Ratio::Circle(_) = least {
        tally.met("write", "12");
        return number(12, ended);
    }
    tally.met("write", "ok");
    if !ended.well || !ended.errors.is_empty() {
        return Err(format!("writing of {view:?}: ended {}", shown(ended)));
    }
    let printed = &ended.output;
    let (release, count) = reading::read(printed).map_err(|number: Number| format!("{} is declined by {number}", hexadecimal(printed)))?;
    let same_ratio = match &least {
        Ratio::Shown { count: wanted, .. } => ratio::compare(wanted, &count) == Ordering::Equal,
        _ => count.marks == 0,
    };
    let wanted: Release = release::with_ring(&view, (count.hops, count.marks), release.ring.clone());
    if same_ratio && release == wanted { Ok(()) } else { Err(format!("{} is no release of {view:?}", hexadecimal(printed))) }
}

fn number(number: Number, ended: &Ended) -> Result<(), String> {
    if *ended == refused(number) { Ok(()) } else { Err(format!("wanted {number}, ended {}", shown(ended))) }
}

pub fn hexadecimal(bytes: &[u8]) -> String {
    bytes.iter().map(|byte| format!("{byte:02x}")).collect::<Vec<_>>().join(" ")
}
