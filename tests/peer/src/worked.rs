//! The folders that docs/SAMPLES.md and docs/JUDGE.md work out by hand: scripts with all their answers. None of their questions leaves a choice of rings.

use crate::judge;
use crate::release;

/// A script, and what it prints after an `ok` for each line before the first question.
const SCRIPTS: &[(&str, &str)] = &[
    ("bits\nr", "ok 0/1"),
    ("list\ne 0\ne 1\nr\ng 1 0", "ok 0/1\nok 0:0 1:0"),
    ("bits\ne 0\ne 1\nm 0 1\nr\ng 1 0", "ok 0/1\nok 0:-1 1:0"),
    (
        "list\ne 0\ne 1\ne 2\ne 3\nm 0 1\nm 1 2\nm 2 3\nr\ng 1 2\ng 1 3\nh 1 3\nh 1 4",
        "ok 3/1 ring 0 1 2 3\nno 13 ring 0 1 2 3\nok 0:-3 1:-2 2:-1 3:0\nno 13 ring 0 1 2 3\nok 0:-3/-3 1:-2/-2 2:-1/-1 3:0/0",
    ),
    ("bits\ne 0\ne 1\ne 2\ne 3\nm 0 1\nm 1 2\nm 2 3\na 3\nr\ng 1 2", "ok 2/1 ring 0 1 2\nok 0:-2 1:-1 2:0"),
    ("list\ne 0\ne 1\ne 2\ne 3\nm 0 1\nm 1 2\nm 2 3\na 1\nr\ng 2 1", "ok 1/2 ring 0 2 3\nok 0:-1 2:-2 3:0"),
    ("bits\ne 0\ne 1\nm 0 1\nm 1 0\nr", "no 12 ring 0 1"),
    ("list\ne 0\ne 1\ne 2\ne 3\nm 0 1\nm 2 3\nr\ng 2 2", "ok 2/2 ring 0 1 2 3\nok 0:-2 1:0 2:-2 3:0"),
    ("bits\ne 0\ne 1\ne 2\ne 3\ne 4\nm 0 1\nm 0 2\nm 0 3\nm 1 2\nm 1 3\nm 2 3\nr\ng 2 3", "ok 3/2 ring 0 1 2 3 4\nok 0:-6 1:-4 2:-2 3:0 4:-3"),
    ("bits\ne 0\ne 1\ne 2\nm 0 2\nr\ng 2 1\ng 1 0\nh 1 1", "ok 1/2 ring 0 2 1\nok 0:-2 1:-1 2:0\nno 13 ring 0 2 1\nok 0:-1/-1 1:0/-1 2:0/0"),
];

/// The releases that docs/SAMPLES.md gives of two of these folders.
const RELEASES: &[(&str, &[u8])] =
    &[("bits\n", &[0; 5]), ("bits\ne 0\ne 1\ne 2\nm 0 2\n", &[3, 0, 1, 2, 1, 0, 0, 2, 3, 2, 0, 1, 0, 0, 0, 3, 0, 2, 1])];

pub fn scripts() -> impl Iterator<Item = &'static [u8]> {
    SCRIPTS.iter().map(|(script, _)| script.as_bytes())
}

/// Whether the second implementation answers as it is worked out there.
pub fn agrees() -> Result<(), String> {
    for (script, answers) in SCRIPTS {
        let quiet = script.lines().count() - answers.lines().count();
        let wanted = "ok\n".repeat(quiet) + answers + "\n";
        let printed = judge::run(script.as_bytes());
        if printed != wanted {
            return Err(format!("{script:?} prints {printed:?}, wanted {wanted:?}"));
        }
    }
    for (script, bytes) in RELEASES {
        let made = judge::left(script.as_bytes()).and_then(|view| release::of(&view).ok()).map(|release| release.bytes());
        if made.as_deref() != Some(bytes) {
            return Err(format!("the release of {script:?} is {made:?}"));
        }
    }
    Ok(())
}
