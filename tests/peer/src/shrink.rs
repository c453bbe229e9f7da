//! Makes a script on which something fails shorter: lines are left out as long as it still fails.

use crate::script;

/// Stops after so many tries, since a failing script of any length will do.
const TRIES: usize = 400;

pub fn shorter(input: &[u8], fails: impl Fn(&[u8]) -> bool) -> Vec<u8> {
    let mut lines: Vec<&[u8]> = script::lines(input);
    let mut size = lines.len() / 2;
    let mut tries = 0;
    let ended = input.ends_with(b"\n");
    while size > 0 {
        let mut at = 0;
        while at < lines.len() && tries < TRIES {
            let mut fewer = lines.clone();
            fewer.drain(at..(at + size).min(lines.len()));
            tries += 1;
            if fails(&joined(&fewer, ended)) { lines = fewer } else { at += size }
        }
        size /= 2;
    }
    let short = joined(&lines, ended);
    if fails(&short) { short } else { input.to_vec() }
}

fn joined(lines: &[&[u8]], ended: bool) -> Vec<u8> {
    let mut all = lines.join(&b'\n');
    if ended && !lines.is_empty() {
        all.push(b'\n');
    }
    all
}
