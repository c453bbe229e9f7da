//! What a release has, the bytes that it is laid out as, and the release of what stands (docs/RELEASE.md).

use crate::ratio::{self, Ratio};
use crate::solve::{Weights, solve};
use crate::view::View;

/// The four sections. Any contents can be laid out, true or not: that is how damaged releases are made.
#[derive(Clone, Default, PartialEq, Eq, Debug)]
pub struct Release {
    pub records: Vec<u8>,
    pub marks: Vec<(u8, u8)>,
    pub depths: Vec<u16>,
    pub ring: Vec<u8>,
}

impl Release {
    /// Counts that do not fit their bytes are cut off, so only contents with fewer items can be read back.
    pub fn bytes(&self) -> Vec<u8> {
        let mut all = vec![self.records.len() as u8];
        all.extend(&self.records);
        all.extend((self.marks.len() as u16).to_le_bytes());
        all.extend(self.marks.iter().flat_map(|&(from, to)| [from, to]));
        all.push(self.depths.len() as u8);
        all.extend(self.depths.iter().flat_map(|depth| depth.to_le_bytes()));
        all.push(self.ring.len() as u8);
        all.extend(&self.ring);
        all
    }

    pub fn view(&self) -> View {
        View { standing: self.records.iter().copied().collect(), marks: self.marks.iter().copied().collect() }
    }
}

/// The release of what stands, or a circle that leaves none.
pub fn of(view: &View) -> Result<Release, Vec<u8>> {
    match ratio::least(view) {
        Ratio::Circle(circle) => Err(circle),
        Ratio::NoMark => Ok(with_ring(view, (1, 0), Vec::new())),
        Ratio::Shown { count, ring } => Ok(with_ring(view, (count.hops, count.marks), ring)),
    }
}

/// The release that shows this ring, with the greatest grades at these thresholds, which are the ring's hops and marks.
pub fn with_ring(view: &View, (t1, t2): (i128, i128), ring: Vec<u8>) -> Release {
    let grades = solve(view, Weights::loose(t1, t2)).expect("there are grades at the least ratio");
    Release {
        records: view.standing.iter().copied().collect(),
        marks: view.marks.iter().copied().collect(),
        depths: grades.values().map(|grade| u16::try_from(-grade.whole).expect("a depth fits two bytes")).collect(),
        ring,
    }
}
