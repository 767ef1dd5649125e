//! Settings of leveled within their limits.

use crate::layout::Leveled;
use crate::rng::Rng;

const MOST_TARGET: u64 = 1 << 40;

/// Settings of leveled, small and plain for the most part.
pub fn settings(rng: &mut Rng) -> Leveled {
    Leveled {
        target: rng.pick(&[1, 2, 3, 7, 10, 100, 100, 100, 1000, 67_108_864]),
        threshold: rng.pick(&[1, 1, 2, 2, 3, 4, 4, 4, 5, 8]),
        ratios: ratios(rng),
        by_bits: rng.one_in(2),
    }
}

fn ratios(rng: &mut Rng) -> Vec<f32> {
    match rng.below(4) {
        0 => vec![],
        1 => vec![10.0],
        _ => (0..rng.count(1, 5)).map(|_| ratio(rng)).collect(),
    }
}

// A ratio from 1.0 to 1,000.0: the ends, what lies beside them, plain ones and any other.
fn ratio(rng: &mut Rng) -> f32 {
    match rng.below(8) {
        0 => 1.0,
        1 => 1000.0,
        2 => rng.pick(&[f32::from_bits(0x3f80_0001), f32::from_bits(0x4479_ffff)]),
        3 => rng.pick(&[1.1, 1.25, 1.5, 2.5, 3.3, 9.99]),
        4 | 5 => rng.pick(&[2.0, 3.0, 4.0, 8.0, 10.0]),
        _ => f32::from_bits(0x3f80_0000 + rng.below(0x4479_ffff - 0x3f80_0000) as u32),
    }
}

/// Settings over all their limits.
pub fn wide_settings(rng: &mut Rng) -> Leveled {
    let target = match rng.below(4) {
        0 => MOST_TARGET,
        1 => 1,
        _ => rng.number() % MOST_TARGET + 1,
    };
    Leveled {
        target,
        threshold: if rng.one_in(3) {
            255
        } else {
            1 + rng.below(255) as u8
        },
        ratios: (0..rng.count(0, 5)).map(|_| ratio(rng)).collect(),
        by_bits: true,
    }
}

/// Settings beside others: one of them is changed.
pub fn other_settings(rng: &mut Rng, settings: &Leveled) -> Leveled {
    let mut other = settings.clone();
    match rng.below(4) {
        0 => other.threshold = other.threshold.saturating_add(1),
        1 => other.threshold = other.threshold.saturating_sub(1).max(1),
        2 => other.target = rng.near(other.target).clamp(1, MOST_TARGET),
        _ => other.ratios = ratios(rng),
    }
    other
}
