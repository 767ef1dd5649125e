//! Stores as leveled leaves them: full levels, with settings near what they hold.

use super::draft::{lay, split, Draft, Lie, Piece, MOST};
use super::settings::{settings, wide_settings};
use super::Family;
use crate::layout::{Leveled, LEVELS};
use crate::rng::Rng;
use crate::rules::target;

/// What a store is to have.
struct Plan {
    settings: Leveled,
    /// How many tables each level has, and how many runs level 0.
    counts: [usize; LEVELS],
    runs: usize,
    /// The bytes of each level.
    totals: [u64; LEVELS],
    /// How the tables of a level from 1 on lie.
    lies: [Lie; LEVELS],
    points: usize,
    short_keys: bool,
    zeros: bool,
}

/// The tables of a store, and the settings that they were made for.
pub fn draft(rng: &mut Rng, family: Family) -> (Draft, Leveled) {
    let mut plan = plan(rng, family);
    plan.fill(rng, family);
    let draft = plan.draft(rng);
    (draft, plan.settings)
}

// The counts of a store, by its family.
fn plan(rng: &mut Rng, family: Family) -> Plan {
    let most = match family {
        Family::Long => 25,
        Family::Full => 240,
        _ => rng.pick(&[2, 3, 4, 4, 4, 7]),
    };
    let first = match family {
        Family::Raised => rng.count(2, 6),
        Family::Landed => rng.count(1, 6),
        Family::Full => rng.count(1, 5),
        _ => rng.pick(&[1, 1, 1, 2, 2, 3, 4, 5]),
    };
    let mut counts = [0; LEVELS];
    for (n, count) in counts.iter_mut().enumerate().skip(first) {
        if n == first || !rng.one_in(3) {
            *count = rng.count(1, most);
        }
    }
    counts[0] = if rng.one_in(2) { 0 } else { rng.count(1, most) };
    let settings = if family == Family::Ratios {
        wide_settings(rng)
    } else {
        settings(rng)
    };
    let mut plan = Plan {
        settings,
        counts,
        runs: if rng.one_in(2) { 1 } else { rng.count(1, 3) },
        totals: [0; LEVELS],
        lies: std::array::from_fn(|_| rng.pick(&[Lie::Narrow, Lie::Tiled, Lie::Tiled, Lie::Loose])),
        points: most * 4 + rng.place(most * 8),
        short_keys: family == Family::EmptyKeys,
        zeros: family == Family::Zeros || rng.one_in(12),
    };
    plan.shape(rng, family, first);
    plan
}

impl Plan {
    // What a family changes.
    fn shape(&mut self, rng: &mut Rng, family: Family, first: usize) {
        match family {
            Family::Fifty => {
                let upper = rng.pick(&[first, first.max(2) - 1]).min(5);
                self.counts = [0; LEVELS];
                self.counts[upper] = rng.count(1, 4);
                self.counts[upper + 1] = rng.count(2, 6);
                self.lies[upper] = rng.pick(&[Lie::Narrow, Lie::Narrow, Lie::Loose]);
                self.lies[upper + 1] = rng.pick(&[Lie::Tiled, Lie::Tiled, Lie::Tiled, Lie::Loose]);
                self.settings.ratios = vec![rng.pick(&[1000.0, 1000.0, 100.0, 10.0])];
            }
            Family::Ties => self.settings.ratios = vec![rng.pick(&[1.0, 1.0, 2.0])],
            Family::Thresholds => {
                if rng.one_in(20) {
                    self.settings.threshold = rng.pick(&[50, 100, 200, 255]);
                }
                let times = rng.pick(&[1, 1, 1, 2, 3]);
                let count = usize::from(self.settings.threshold) * times + rng.count(0, 2);
                self.counts[0] = (count - 1).min(300);
                self.runs = rng.pick(&[1, 2, 3, self.counts[0].max(1)]);
                self.points = self.points.max(2 * self.counts[0]);
            }
            Family::Landed | Family::EmptyKeys => {
                for count in self.counts.iter_mut().skip(first + 1) {
                    *count = 0;
                }
                if rng.one_in(3) {
                    self.counts[first] = 0;
                }
                self.counts[0] = rng.count(1, 4);
                self.runs = rng.pick(&[1, 1, 1, 2]);
                self.lies[first] = rng.pick(&[Lie::Narrow, Lie::Loose]);
            }
            Family::Full => {
                // One pair of levels has most of the tables.
                let upper = first.min(5);
                self.counts[upper] = rng.count(50, 320);
                self.counts[upper + 1] = rng.count(50, 320);
                self.counts[0] = rng.place(200);
                let others: usize = self.counts[upper + 2..].iter().sum();
                let room = 1024 - self.counts[0] - self.counts[upper] - self.counts[upper + 1];
                if others > room || rng.one_in(4) {
                    self.counts[upper + 2..].fill(0);
                    self.counts[upper + 1] += rng.pick(&[0, room]);
                }
                self.points = 2200 + rng.place(1000);
            }
            _ => {}
        }
    }

    // The bytes of each level, near what its target size is.
    fn fill(&mut self, rng: &mut Rng, family: Family) {
        let first = (1..LEVELS).find(|n| self.counts[*n] > 0).unwrap_or(6);
        let raised = family == Family::Raised && !rng.one_in(4);
        let times = rng.pick(&[1, 2, 3]);
        for n in first..LEVELS {
            let target = target(&self.settings, n + 1 - first);
            self.totals[n] = match family {
                Family::Fifty if n == first => target.saturating_mul(rng.pick(&[2, 3, 5, 20])),
                Family::Ties => target.saturating_mul(times),
                _ if raised => target.saturating_add(rng.pick(&[0, 1, 1, 1, 5])),
                _ => total(rng, target),
            };
        }
        self.totals[0] = rng.near(self.settings.target.saturating_mul(self.counts[0] as u64));
    }

    fn draft(&self, rng: &mut Rng) -> Draft {
        let mut pieces = self.first_level(rng);
        let first = (1..LEVELS).find(|n| self.counts[*n] > 0).unwrap_or(6);
        for n in 1..LEVELS {
            let places = lay(rng, self.points, self.counts[n], self.lies[n]);
            let fifty = self.counts[0] == 0 && n == first + 1 && rng.one_in(2);
            let sizes = if fifty {
                places
                    .iter()
                    .map(|_| near_fifty(rng, self.settings.target))
                    .collect()
            } else {
                split(rng, self.totals[n].min(MOST), places.len())
            };
            pieces.extend(
                places
                    .into_iter()
                    .zip(sizes)
                    .map(|(ends, size)| piece(rng, n, 0, ends, size)),
            );
        }
        if self.zeros {
            for piece in pieces.iter_mut() {
                if rng.one_in(2) {
                    piece.size = 0;
                }
            }
        }
        Draft {
            pieces,
            points: self.points,
            short_keys: self.short_keys,
        }
    }

    // Level 0: its runs, each with a table at least.
    fn first_level(&self, rng: &mut Rng) -> Vec<Piece> {
        let runs = self.runs.min(self.counts[0]);
        let mut pieces = vec![];
        let mut left = self.counts[0];
        for run in 0..runs {
            let count = if run + 1 == runs {
                left
            } else {
                rng.count(1, left - (runs - run - 1))
            };
            let lie = rng.pick(&[Lie::Narrow, Lie::Loose, Lie::Tiled]);
            let places = lay(rng, self.points, count, lie);
            let sizes = split(rng, self.totals[0] / runs as u64, places.len());
            pieces.extend(
                places
                    .into_iter()
                    .zip(sizes)
                    .map(|(ends, size)| piece(rng, 0, run, ends, size)),
            );
            left -= count;
        }
        pieces
    }
}

// A table with an age and links that leveled does not look at.
fn piece(rng: &mut Rng, level: usize, run: usize, (low, high): (usize, usize), size: u64) -> Piece {
    let created = if rng.one_in(3) {
        rng.number()
    } else {
        rng.below(4)
    };
    let linked = if rng.one_in(4) { rng.below(1000) } else { 0 };
    Piece {
        level: level as u8,
        run: run as u16,
        low,
        high,
        size,
        created,
        linked,
    }
}

// The bytes of a level whose target size is this.
fn total(rng: &mut Rng, target: u64) -> u64 {
    match rng.below(8) {
        0 => target / 2,
        1 => rng.below(target.saturating_add(1)),
        2 | 3 => rng.near(target),
        4 => target.saturating_add(1),
        5 => rng.near(target.saturating_mul(2)),
        6 => {
            let times = rng.pick(&[3, 5, 10, 99, 100]);
            rng.near(target.saturating_mul(times))
        }
        _ => target.saturating_add(rng.below(target.saturating_add(1))),
    }
}

// A size such that few of its kind come to 50 target sizes.
fn near_fifty(rng: &mut Rng, target: u64) -> u64 {
    let fifty = 50 * target;
    match rng.below(8) {
        0 => fifty,
        1 => fifty + 1,
        2 => fifty / 2,
        3 => fifty / 2 + 1,
        4 => rng.near(fifty / 3),
        5 => rng.below(target + 1),
        6 => rng.below(fifty + 1),
        _ => rng.pick(&[0, 1, target, fifty - 1]),
    }
}
