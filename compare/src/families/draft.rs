//! Tables before they have numbers and keys.

use super::keys::{self, Keys};
use crate::layout::Table;
use crate::rng::Rng;

/// The most bytes of all tables together.
pub const MOST: u64 = 1 << 53;

/// A table that begins and ends at places among the keys.
#[derive(Clone)]
pub struct Piece {
    pub level: u8,
    pub run: u16,
    pub low: usize,
    pub high: usize,
    pub size: u64,
    pub created: u64,
    pub linked: u64,
}

/// Tables by level, run and min.
pub struct Draft {
    pub pieces: Vec<Piece>,
    /// How many keys there are to begin and end at.
    pub points: usize,
    /// Whether the keys are to be short byte keys, the empty one first.
    pub short_keys: bool,
}

/// How the tables of a run lie.
#[derive(Clone, Copy)]
pub enum Lie {
    /// Few keys each, far apart.
    Narrow,
    /// All keys among them, each table up to the next.
    Tiled,
    /// Anyhow.
    Loose,
}

/// Where the tables of a run begin and end: at most `n` of them.
pub fn lay(rng: &mut Rng, points: usize, n: usize, lie: Lie) -> Vec<(usize, usize)> {
    match lie {
        Lie::Narrow => {
            let lows = rng.choose(n, points);
            let next = lows.iter().skip(1).copied().chain([points]);
            lows.iter()
                .zip(next)
                .map(|(low, next)| (*low, (next - 1).min(low + rng.place(3))))
                .collect()
        }
        Lie::Tiled => {
            let mut lows = rng.choose(n, points);
            if let Some(first) = lows.first_mut() {
                *first = 0;
            }
            let next = lows.iter().skip(1).copied().chain([points]);
            lows.iter()
                .zip(next)
                .map(|(low, next)| (*low, next - 1))
                .collect()
        }
        Lie::Loose => {
            let ends = rng.choose(2 * n, points);
            ends.chunks_exact(2)
                .map(|pair| (pair[0], pair[1]))
                .collect()
        }
    }
}

/// So many sizes with a sum of `total`: even, random, or almost all in one.
pub fn split(rng: &mut Rng, total: u64, n: usize) -> Vec<u64> {
    let Some(last) = n.checked_sub(1) else {
        return vec![];
    };
    let style = rng.below(3);
    let mut left = total;
    let mut sizes: Vec<u64> = (0..last)
        .map(|i| {
            let size = match style {
                0 => left / (n - i) as u64,
                1 => rng.below(left / (n - i) as u64 * 2 + 1).min(left),
                _ => rng.below(3).min(left),
            };
            left -= size;
            size
        })
        .collect();
    sizes.push(left);
    let at = rng.place(n);
    sizes.swap(at, last);
    sizes
}

impl Draft {
    /// The tables, with numbers and keys, and the keys.
    pub fn tables(mut self, rng: &mut Rng) -> (Vec<Table>, Keys) {
        while self
            .pieces
            .iter()
            .map(|piece| u128::from(piece.size))
            .sum::<u128>()
            > u128::from(MOST)
        {
            self.pieces.iter_mut().for_each(|piece| piece.size /= 2);
        }
        let keys = if self.short_keys {
            keys::short(rng, self.points)
        } else {
            keys::keys(rng, self.points)
        };
        self.pieces
            .sort_by_key(|piece| (piece.level, piece.run, piece.low));
        let numbers = numbers(rng, self.pieces.len());
        let tables = self
            .pieces
            .iter()
            .zip(numbers)
            .map(|(piece, number)| Table {
                number,
                level: piece.level,
                run: piece.run,
                min: keys.0[piece.low].clone(),
                max: keys.0[piece.high].clone(),
                size: piece.size,
                created: piece.created,
                linked: piece.linked,
            });
        (tables.collect(), keys)
    }
}

// So many table numbers, each once: small ones, or any of 64 bits.
fn numbers(rng: &mut Rng, n: usize) -> Vec<u64> {
    let any = rng.one_in(5);
    let mut numbers: Vec<u64> = if any {
        (0..n as u64).map(|i| (rng.bits() << 11) | i).collect()
    } else {
        let first = rng.below(3);
        (0..n as u64).map(|i| first + i).collect()
    };
    if any && n > 0 {
        numbers[0] = u64::MAX;
    }
    for i in (1..n).rev() {
        let other = rng.place(i + 1);
        numbers.swap(i, other);
    }
    numbers
}
