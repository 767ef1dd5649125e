//! The original: a layout as it takes one, and what it chooses.

use crate::answer::{Answer, Input};
use crate::layout::{Key, Layout, Strategy, Table};
use original::ask::{Asked, Named, Record, Said, Sheet};
use std::collections::HashMap;

/// The original's side of a layout.
pub struct Original {
    sheet: Sheet,
    numbers: Vec<u64>,
    places: HashMap<u64, usize>,
}

// A key's bytes. Stop keys are written with their high bytes first, and so compare as the numbers do.
fn bytes(key: &Key) -> Vec<u8> {
    match key {
        Key::Stop(tour, stop) => [tour.to_be_bytes(), stop.to_be_bytes()].concat(),
        Key::Bytes(bytes) => bytes.clone(),
    }
}

fn record(table: &Table) -> Record {
    Record {
        number: table.number,
        level: table.level,
        run: table.run,
        min: bytes(&table.min),
        max: bytes(&table.max),
        size: table.size,
        created: table.created,
        linked: table.linked,
    }
}

// A strategy as the original is set. No time to live can be said in two ways there: both are used.
fn asked(strategy: &Strategy) -> Asked {
    match strategy {
        Strategy::Leveled(settings) => Asked::Leveled {
            target: settings.target,
            threshold: settings.threshold,
            ratios: settings.ratios.clone(),
        },
        Strategy::Fifo { limit, ttl } => Asked::Fifo {
            limit: *limit,
            ttl: Some(*ttl).filter(|ttl| *ttl > 0 || limit % 2 == 0),
        },
        Strategy::Major { target } => Asked::Major { target: *target },
        Strategy::DropRange { low, high } => Asked::DropRange {
            low: low.as_ref().map(bytes),
            high: high.as_ref().map(bytes),
        },
    }
}

impl Original {
    /// Lays the tables out.
    pub fn new(layout: &Layout) -> Original {
        let numbers: Vec<u64> = layout.tables.iter().map(|table| table.number).collect();
        Original {
            sheet: Sheet::new(layout.tables.iter().map(record).collect(), layout.blobs),
            places: numbers
                .iter()
                .enumerate()
                .map(|(place, number)| (*number, place))
                .collect(),
            numbers,
        }
    }

    /// What it chooses while some tables are hidden.
    pub fn choose(&self, hidden: &[bool], clock: u64, strategy: &Strategy) -> Answer {
        match self.question(hidden, clock, strategy).put() {
            Said::Nothing => Answer::Nothing,
            Said::Move(named) => Answer::Move(self.input(named)),
            Said::Merge(named) => Answer::Merge(self.input(named)),
            Said::Drop(numbers) => Answer::Drop(self.places(&numbers)),
            Said::Panicked => Answer::Stopped,
        }
    }

    /// A strategy with all that it takes.
    pub fn question(
        &self,
        hidden: &[bool],
        clock: u64,
        strategy: &Strategy,
    ) -> original::ask::Question<'_> {
        let hidden: Vec<u64> = self
            .numbers
            .iter()
            .zip(hidden)
            .filter(|(_, it)| **it)
            .map(|(number, _)| *number)
            .collect();
        self.sheet.question(&hidden, clock, &asked(strategy))
    }

    fn places(&self, numbers: &[u64]) -> Vec<usize> {
        let mut places: Vec<usize> = numbers.iter().map(|number| self.places[number]).collect();
        places.sort_unstable();
        places
    }

    fn input(&self, named: Named) -> Input {
        Input {
            places: self.places(&named.numbers),
            destination: named.destination,
            canonical: named.canonical,
            target: named.target,
        }
    }
}
