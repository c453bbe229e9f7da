//! Which line stands for which call (docs/JUDGE.md).

#[derive(Clone, Copy, PartialEq, Eq, Debug)]
pub enum Call {
    Enter(u8),
    Mark(u8, u8),
    Strike(u8, u8),
    SetAside(u8),
    BringBack(u8),
    Loose(i128, i128),
    Strict(i128, i128),
    Unit,
    Ratio,
}

impl Call {
    /// Whether it only asks. Such a call changes nothing.
    pub fn asks(self) -> bool {
        matches!(self, Call::Loose(..) | Call::Strict(..) | Call::Unit | Call::Ratio)
    }
}

/// The lines of a script: each up to the next byte 10 or the end, and none after a last byte 10.
pub fn lines(script: &[u8]) -> Vec<&[u8]> {
    let mut all: Vec<&[u8]> = script.split(|&byte| byte == b'\n').collect();
    if all.last().is_some_and(|last| last.is_empty()) {
        all.pop();
    }
    all
}

/// The call that a later line stands for; none for a wrong line.
pub fn call(line: &[u8]) -> Option<Call> {
    let text = std::str::from_utf8(line).ok().filter(|text| text.len() <= 80)?;
    let mut words = text.split(' ');
    let letter = words.next()?;
    let numbers: Vec<u32> = words.map(number).collect::<Option<_>>()?;
    let record = |n: u32| n.min(255) as u8;
    Some(match (letter, numbers.as_slice()) {
        ("e", &[u]) => Call::Enter(record(u)),
        ("m", &[u, v]) => Call::Mark(record(u), record(v)),
        ("s", &[u, v]) => Call::Strike(record(u), record(v)),
        ("a", &[u]) => Call::SetAside(record(u)),
        ("b", &[u]) => Call::BringBack(record(u)),
        ("g", &[t1, t2]) => Call::Loose(t1.into(), t2.into()),
        ("h", &[t1, t2]) => Call::Strict(t1.into(), t2.into()),
        ("o", &[]) => Call::Unit,
        ("r", &[]) => Call::Ratio,
        _ => return None,
    })
}

/// A decimal number of one to seven digits; only 0 itself begins with 0.
fn number(word: &str) -> Option<u32> {
    let digits = !word.is_empty() && word.len() <= 7 && word.bytes().all(|byte| byte.is_ascii_digit());
    let leading_zero = word.len() > 1 && word.starts_with('0');
    if digits && !leading_zero { word.parse().ok() } else { None }
}
