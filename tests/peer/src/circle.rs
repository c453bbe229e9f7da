//! A circle of marks, found by going deep along marks and meeting a record that the way has already passed.

use crate::ring;
use crate::view::View;
use std::collections::BTreeSet;

pub fn find(view: &View) -> Option<Vec<u8>> {
    let mut done = BTreeSet::new();
    view.standing.iter().find_map(|&u| deeper(view, u, &mut Vec::new(), &mut done))
}

fn deeper(view: &View, u: u8, way: &mut Vec<u8>, done: &mut BTreeSet<u8>) -> Option<Vec<u8>> {
    if let Some(place) = way.iter().position(|&passed| passed == u) {
        return Some(ring::from_smallest(way[place..].to_vec()));
    }
    if done.contains(&u) {
        return None;
    }
    way.push(u);
    let found = view.standing.iter().filter(|&&v| view.marks.contains(&(u, v))).find_map(|&v| deeper(view, v, way, done));
    way.pop();
    done.insert(u);
    found
}
