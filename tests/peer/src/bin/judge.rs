//! The judge of the second implementation: a script from standard input, its answers to standard output.

use std::io::{self, Read, Write};

fn main() -> io::Result<()> {
    let mut script = Vec::new();
    io::stdin().read_to_end(&mut script)?;
    io::stdout().write_all(peer::judge::run(&script).as_bytes())
}
