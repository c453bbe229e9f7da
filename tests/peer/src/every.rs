//! Every ring and every walk of a small folder, one by one: the definitions themselves, against which the solvers are tried.

use crate::chance::Chance;
use crate::ratio::{self, Ratio};
use crate::ring::{self, Count};
use crate::solve::{Value, Weights, solve};
use crate::view::View;
use std::cmp::Ordering;

pub fn rings(view: &View) -> Vec<Count> {
    let mut all = Vec::new();
    for &u in &view.standing {
        ways(view, &mut vec![u], &mut |way| all.extend(ring::counted(view, way)));
    }
    all
}

/// Shows every way without a record twice that begins with this one.
fn ways(view: &View, way: &mut Vec<u8>, show: &mut impl FnMut(&[u8])) {
    show(way);
    for &v in &view.standing {
        if !way.contains(&v) && view.step(way[way.len() - 1], v).is_some() {
            way.push(v);
            ways(view, way, show);
            way.pop();
        }
    }
}

/// The least sum of a way from u. Where no ring sums to less than nothing, no walk has less, and that is the greatest grade of u.
fn least_sum(view: &View, weights: Weights, u: u8) -> Value {
    let mut least = Value::default();
    ways(view, &mut vec![u], &mut |way| {
        let steps = way.windows(2).filter_map(|pair| view.step(pair[0], pair[1]));
        least = least.min(steps.fold(Value::default(), |sum, step| sum + weights.of(step)));
    });
    least
}

/// Whether the solvers give for this folder what its rings and walks say.
pub fn agrees(view: &View, chance: &mut Chance) -> Result<(), String> {
    let rings = rings(view);
    let least = ratio::least(view);
    let right = match &least {
        Ratio::Circle(circle) => ring::counted(view, circle)?.hops == 0,
        Ratio::NoMark => rings.iter().all(|count| count.marks == 0),
        Ratio::Shown { count, ring } => {
            ring::counted(view, ring)? == *count && rings.iter().all(|other| other.hops > 0 && ratio::compare(other, count) != Ordering::Greater)
        }
    };
    if !right {
        return Err(format!("the ratio {least:?} of {view:?}"));
    }
    let (t1, t2) = least.thresholds().unwrap_or((1, 2));
    let near = (t1 + i128::from(chance.pick(&[0u8, 1])), t2 + i128::from(chance.pick(&[0u8, 1])));
    let kinds = [Weights::unit(), Weights::loose(t1, t2), Weights::strict(t1, t2), Weights::loose(near.0, near.1), Weights::strict(near.0, near.1)];
    for weights in kinds {
        let forbids = |count: &Count| weights.forbidden_by(*count);
        let right = match solve(view, weights) {
            Ok(grades) => !rings.iter().any(forbids) && grades.iter().all(|(&u, &grade)| grade == least_sum(view, weights, u)),
            Err(ring) => forbids(&ring::counted(view, &ring)?),
        };
        if !right {
            return Err(format!("grading {view:?} by {weights:?}"));
        }
    }
    Ok(())
}

/// A folder at random, of so many records at most.
pub fn view(chance: &mut Chance, most: u64) -> View {
    let count = chance.within(0, most) as usize;
    let records = chance.records(count);
    let (share, upward) = (chance.within(5, 95), chance.pick(&[60, 90, 100]));
    let mut view = View { standing: records.iter().copied().collect(), ..View::default() };
    for high in 0..records.len() {
        for low in 0..high {
            if chance.percent(share) {
                let up = chance.percent(upward);
                view.marks.insert(if up { (records[low], records[high]) } else { (records[high], records[low]) });
            }
        }
    }
    view
}
