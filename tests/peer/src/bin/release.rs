//! Releases by the second implementation, with the words of the program `releases`: `write` takes a script and writes a release; `read` takes a
//! release and prints what it tells.

use peer::folder::Number;
use peer::{judge, reading, release};
use std::io::{self, Read, Write};
use std::process::ExitCode;

fn main() -> io::Result<ExitCode> {
    let mut input = Vec::new();
    io::stdin().read_to_end(&mut input)?;
    match std::env::args().nth(1).as_deref() {
        Some("write") => match written(&input) {
            Ok(bytes) => io::stdout().write_all(&bytes)?,
            Err(number) => {
                eprintln!("no {number}");
                return Ok(ExitCode::FAILURE);
            }
        },
        Some("read") => {
            io::stdout().write_all(reading::text(&input).as_bytes())?;
            if reading::read(&input).is_err() {
                return Ok(ExitCode::FAILURE);
            }
        }
        _ => return Err(io::Error::other("write or read")),
    }
    Ok(ExitCode::SUCCESS)
}

fn written(input: &[u8]) -> Result<Vec<u8>, Number> {
    let view = judge::left(input).ok_or(17)?;
    release::of(&view).map(|release| release.bytes()).map_err(|_| 12)
}
