//! Whether a list of records is a ring, and how many marks and hops it has (docs/MODEL.md).

use crate::view::{Step, View};
use std::collections::BTreeSet;

#[derive(Clone, Copy, PartialEq, Eq, Debug)]
pub struct Count {
    pub marks: i128,
    pub hops: i128,
}

/// The marks and hops of a ring, or the reason why the list is none.
pub fn counted(view: &View, ring: &[u8]) -> Result<Count, String> {
    if ring.len() < 2 {
        return Err(format!("{ring:?} has fewer than two records"));
    }
    if ring.iter().collect::<BTreeSet<_>>().len() != ring.len() {
        return Err(format!("{ring:?} has a record twice"));
    }
    if ring.iter().min() != ring.first() {
        return Err(format!("{ring:?} does not begin with its smallest number"));
    }
    let mut count = Count { marks: 0, hops: 0 };
    for (place, &u) in ring.iter().enumerate() {
        let v = ring[(place + 1) % ring.len()];
        match view.step(u, v) {
            Some(Step::Mark) => count.marks += 1,
            Some(Step::Hop) => count.hops += 1,
            None => return Err(format!("{ring:?} has no step from {u} to {v}")),
        }
    }
    Ok(count)
}

/// The same round trip, read from its smallest number.
pub fn from_smallest(mut round: Vec<u8>) -> Vec<u8> {
    if let Some(place) = (0..round.len()).min_by_key(|&place| round[place]) {
        round.rotate_left(place);
    }
    round
}
