//! Range drops near where the tables begin and end.

use super::keys::Keys;
use crate::layout::{Key, Layout, Strategy};
use crate::rng::Rng;
use std::ops::Bound;

/// A range drop with two bounds of any kind, inverted now and then.
pub fn strategy(rng: &mut Rng, layout: &Layout, keys: &Keys) -> Strategy {
    let (one, other) = (key(rng, layout, keys), key(rng, layout, keys));
    let (low, high) = if one <= other || rng.one_in(8) {
        (one, other)
    } else {
        (other, one)
    };
    Strategy::DropRange {
        low: bound(rng, low),
        high: bound(rng, high),
    }
}

/// A range drop that has the tables of a stretch of one run, and what else lies inside it.
pub fn around(rng: &mut Rng, layout: &Layout) -> Strategy {
    let first = rng.place(layout.tables.len());
    let run = |place: usize| (layout.tables[place].level, layout.tables[place].run);
    let mut last = first;
    while last + 1 < layout.tables.len() && run(last + 1) == run(first) && rng.one_in(3) {
        last += 1;
    }
    Strategy::DropRange {
        low: Bound::Included(layout.tables[first].min.clone()),
        high: Bound::Included(layout.tables[last].max.clone()),
    }
}

fn bound(rng: &mut Rng, key: Key) -> Bound<Key> {
    match rng.below(7) {
        0 => Bound::Unbounded,
        1..=3 => Bound::Included(key),
        _ => Bound::Excluded(key),
    }
}

// Where a table begins or ends, or any other key.
fn key(rng: &mut Rng, layout: &Layout, keys: &Keys) -> Key {
    if layout.tables.is_empty() || rng.one_in(4) {
        return rng.pick(&keys.0);
    }
    let table = &layout.tables[rng.place(layout.tables.len())];
    if rng.one_in(2) {
        table.min.clone()
    } else {
        table.max.clone()
    }
}
