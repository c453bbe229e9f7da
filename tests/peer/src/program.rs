//! Runs a program on given bytes of standard input.

use std::io::{Read, Write};
use std::path::Path;
use std::process::{Command, Stdio};
use std::thread;

/// What a program wrote to standard output and to standard error, and whether it ended with status 0.
#[derive(Debug, PartialEq)]
pub struct Ended {
    pub output: Vec<u8>,
    pub errors: Vec<u8>,
    pub well: bool,
}

/// What it writes to standard output, where it ends with status 0 and writes nothing to standard error.
pub fn run(program: &Path, args: &[&str], input: &[u8]) -> Result<Vec<u8>, String> {
    let ended = ended(program, args, input)?;
    if !ended.well || !ended.errors.is_empty() {
        return Err(format!("{} ended with a failure and said {:?}", program.display(), String::from_utf8_lossy(&ended.errors)));
    }
    Ok(ended.output)
}

pub fn ended(program: &Path, args: &[&str], input: &[u8]) -> Result<Ended, String> {
    let failed = |error: std::io::Error| format!("{}: {error}", program.display());
    let mut child = Command::new(program).args(args).stdin(Stdio::piped()).stdout(Stdio::piped()).stderr(Stdio::piped()).spawn().map_err(failed)?;
    let mut to_child = child.stdin.take().ok_or("no standard input")?;
    let mut from_child = child.stdout.take().ok_or("no standard output")?;
    let mut output = Vec::new();
    thread::scope(|scope| {
        // In a thread of its own, so that neither side waits for the other with a full pipe. A program may end before it has read all.
        scope.spawn(move || to_child.write_all(input).ok());
        from_child.read_to_end(&mut output)
    })
    .map_err(failed)?;
    let last = child.wait_with_output().map_err(failed)?;
    Ok(Ended { output, errors: last.stderr, well: last.status.success() })
}
