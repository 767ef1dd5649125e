//! docs/RULES.md once more, written apart from the library and from the original: both are compared with it.
//! Each rule of the original that differs can be taken instead, alone or with the others.

pub mod class;
mod fifo;
mod leveled;
mod pick;

pub use leveled::{target, Step};

use crate::answer::{Answer, Input};
use crate::layout::{Key, Leveled, Strategy, Table};
use class::Rules;
use std::ops::{Bound, Range};

/// What a strategy is asked about.
#[derive(Clone, Copy)]
pub struct Sheet<'a> {
    pub tables: &'a [Table],
    /// Whether the table at each place is hidden.
    pub hidden: &'a [bool],
    pub blobs: u64,
    pub clock: u64,
}

/// From the least key to the greatest.
struct Span<'a> {
    min: &'a Key,
    max: &'a Key,
}

impl Span<'_> {
    fn meets(&self, other: &Span<'_>) -> bool {
        !(self.max < other.min) && !(other.max < self.min)
    }
}

impl<'a> Sheet<'a> {
    // The places of a level.
    fn level(&self, n: usize) -> Range<usize> {
        let before = self
            .tables
            .iter()
            .filter(|t| usize::from(t.level) < n)
            .count();
        let count = self
            .tables
            .iter()
            .filter(|t| usize::from(t.level) == n)
            .count();
        before..before + count
    }

    // Level 0's runs.
    fn runs(&self) -> usize {
        let runs = self
            .tables
            .iter()
            .filter(|t| t.level == 0)
            .map(|t| usize::from(t.run) + 1);
        runs.max().unwrap_or(0)
    }

    fn busy(&self, places: Range<usize>) -> bool {
        self.hidden[places].contains(&true)
    }

    fn free_bytes(&self, places: Range<usize>) -> u64 {
        places
            .filter(|place| !self.hidden[*place])
            .map(|place| self.tables[place].size)
            .sum()
    }

    fn span(&self, places: Range<usize>) -> Option<Span<'a>> {
        let tables = &self.tables[places];
        let min = tables.iter().map(|t| &t.min).min()?;
        let max = tables.iter().map(|t| &t.max).max()?;
        Some(Span { min, max })
    }

    // The places that pass.
    fn those(&self, passes: impl Fn(&Table) -> bool) -> Vec<usize> {
        (0..self.tables.len())
            .filter(|place| passes(&self.tables[*place]))
            .collect()
    }
}

impl Table {
    fn span(&self) -> Span<'_> {
        Span {
            min: &self.min,
            max: &self.max,
        }
    }

    // Whether it lies between two bounds.
    fn lies_between(&self, low: &Bound<Key>, high: &Bound<Key>) -> bool {
        let starts = match low {
            Bound::Unbounded => true,
            Bound::Included(key) => !(self.min < *key),
            Bound::Excluded(key) => *key < self.min,
        };
        let ends = match high {
            Bound::Unbounded => true,
            Bound::Included(key) => !(*key < self.max),
            Bound::Excluded(key) => self.max < *key,
        };
        starts && ends
    }
}

/// What a strategy answers.
pub fn choose(rules: Rules, sheet: Sheet<'_>, strategy: &Strategy) -> Answer {
    match strategy {
        Strategy::Leveled(settings) => steps(rules, sheet, settings).1,
        Strategy::Fifo { limit, ttl } => fifo::choose(rules, sheet, *limit, *ttl),
        Strategy::Major { target } => unless_hidden(
            sheet,
            Answer::Merge(Input {
                places: sheet.those(|_| true),
                destination: 6,
                canonical: 6,
                target: *target,
            }),
        ),
        Strategy::DropRange { low, high } => unless_hidden(
            sheet,
            Answer::Drop(sheet.those(|t| t.lies_between(low, high))),
        ),
    }
}

/// What leveled answers, and at which of its steps.
pub fn steps(rules: Rules, sheet: Sheet<'_>, settings: &Leveled) -> (Step, Answer) {
    leveled::choose(rules, sheet, settings)
}

// Nothing if a named table is hidden.
fn unless_hidden(sheet: Sheet<'_>, answer: Answer) -> Answer {
    if answer.places().iter().any(|place| sheet.hidden[*place]) {
        Answer::Nothing
    } else {
        answer
    }
}
