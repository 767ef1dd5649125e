//! Tables of level 0 that age, and FIFO's settings near their ages and sizes.

use super::draft::{lay, split, Draft, Lie, Piece, MOST};
use crate::layout::Layout;
use crate::rng::Rng;

const SECOND: u64 = 1_000_000_000;

/// A blob total.
pub fn blobs(rng: &mut Rng) -> u64 {
    match rng.below(9) {
        0 => MOST,
        1 => rng.below(MOST),
        2..=5 => rng.below(2000),
        _ => 0,
    }
}

/// One run on level 0 for the most part, and now and then tables below.
pub fn draft(rng: &mut Rng) -> Draft {
    let points = 8 + rng.place(40);
    let runs = if rng.one_in(16) { 2 } else { 1 };
    let mut pieces = vec![];
    for run in 0..runs {
        pieces.extend(run_of(rng, points, 0, run));
    }
    if rng.one_in(4) {
        let level = 1 + rng.below(6) as u8;
        pieces.extend(run_of(rng, points, level, 0));
    }
    Draft {
        pieces,
        points,
        short_keys: false,
    }
}

fn run_of(rng: &mut Rng, points: usize, level: u8, run: u16) -> Vec<Piece> {
    let count = rng.count(1, 7);
    let lie = rng.pick(&[Lie::Narrow, Lie::Loose]);
    let places = lay(rng, points, count, lie);
    let total = rng.pick(&[0, 10, 1000, 1 << 40, MOST]);
    let total = rng.near(total).min(MOST);
    let sizes = split(rng, total, places.len());
    let around = around(rng);
    let pieces = places
        .into_iter()
        .zip(sizes)
        .map(|((low, high), size)| Piece {
            level,
            run,
            low,
            high,
            size,
            created: created(rng, around),
            linked: linked(rng),
        });
    pieces.collect()
}

// A time that the tables of a run are created around.
fn around(rng: &mut Rng) -> u64 {
    match rng.below(4) {
        0 => rng.below(4),
        1 => SECOND * rng.below(100),
        2 => u64::MAX - rng.below(SECOND),
        _ => rng.bits() >> rng.below(30),
    }
}

fn created(rng: &mut Rng, around: u64) -> u64 {
    match rng.below(5) {
        0 => 0,
        1 => around.saturating_add(rng.below(3)),
        2 => around.saturating_sub(SECOND * rng.below(5)),
        3 => around.saturating_add(SECOND * rng.below(5)),
        _ => around,
    }
}

fn linked(rng: &mut Rng) -> u64 {
    match rng.below(8) {
        0 => rng.below(1000),
        1 => rng.below(MOST),
        2 => MOST,
        _ => 0,
    }
}

/// A clock, a limit and a time to live, near what the tables have.
pub fn settings(rng: &mut Rng, layout: &Layout) -> (u64, u64, u64) {
    let created: Vec<u64> = layout
        .tables
        .iter()
        .filter(|t| t.level == 0)
        .map(|t| t.created)
        .collect();
    let seconds = match rng.below(6) {
        0 => 0,
        1 => 1 + rng.below(3),
        2 => u64::MAX,
        3 => u64::MAX / SECOND + rng.below(2),
        4 => rng.number(),
        _ => 1 + rng.below(100),
    };
    let age = seconds.saturating_mul(SECOND);
    let clock = match created.is_empty() || rng.one_in(4) {
        true => rng.pick(&[0, 1, SECOND - 1, SECOND, u64::MAX, age]),
        false => rng.pick(&created).saturating_add(age),
    };
    (rng.near(clock), limit(rng, layout), seconds)
}

// A limit near a sum of what leaves first.
fn limit(rng: &mut Rng, layout: &Layout) -> u64 {
    let sizes = layout
        .tables
        .iter()
        .filter(|t| t.level == 0)
        .map(|t| t.size);
    let mut whole = sizes.sum::<u64>() + layout.blobs;
    for table in layout.tables.iter().filter(|t| t.level == 0) {
        if rng.one_in(2) {
            whole = whole.saturating_sub(table.size + table.linked);
        }
    }
    match rng.below(8) {
        0 => 0,
        1 => u64::MAX,
        2 => rng.below(whole + 1),
        _ => rng.near(whole),
    }
}
