//! The figures of some turns, in nanoseconds.

use std::time::{Duration, Instant};

/// How many turns are timed, where none are said: as many as fit this time, at least and at most so many.
const TIME: Duration = Duration::from_millis(200);
const FEWEST: usize = 11;
const MOST: usize = 100_000;

/// The median and the least.
#[derive(Clone, Copy)]
pub struct Figures {
    pub median: u64,
    pub least: u64,
}

/// Times so many turns of something that says how long it took.
pub fn time(turns: Option<usize>, turn: impl Fn() -> Duration) -> Figures {
    let begun = Instant::now();
    let mut times: Vec<u64> = vec![];
    while match turns {
        Some(turns) => times.len() < turns.max(1),
        None => times.len() < FEWEST || times.len() < MOST && begun.elapsed() < TIME,
    } {
        times.push(turn().as_nanos() as u64);
    }
    times.sort_unstable();
    Figures {
        median: times[times.len() / 2],
        least: times[0],
    }
}

impl Figures {
    /// Reads what `bench` writes behind an answer.
    pub fn read(text: &str) -> Option<Figures> {
        let (median, rest) = text.strip_prefix("median ")?.split_once(" us, least ")?;
        let (least, _) = rest.split_once(" us of ")?;
        Some(Figures {
            median: nanos(median)?,
            least: nanos(least)?,
        })
    }
}

// Microseconds with three decimals.
fn nanos(text: &str) -> Option<u64> {
    let (whole, rest) = text.split_once('.')?;
    let whole: u64 = whole.parse().ok()?;
    let rest: u64 = rest.parse().ok().filter(|_| rest.len() == 3)?;
    Some(whole * 1000 + rest)
}
