//! Layouts of a shape and a size, each with one question to be timed, which is its last.

use crate::families::Family;
use crate::layout::{Key, Layout, Leveled, Question, Strategy, Table, Word};
use crate::rng::Rng;
use std::ops::Bound;

/// What keys a layout has. Both kinds are the same bytes to the original.
#[derive(Clone, Copy, Debug, PartialEq, Eq)]
pub enum Keys {
    Bytes,
    Stops,
}

/// What is asked on sheets of a shape.
#[derive(Clone, Copy)]
pub struct Shape {
    pub name: &'static str,
    /// The layout of so many tables.
    pub layout: fn(usize, Keys) -> Layout,
    /// Whether it is timed at every size, and not on a full sheet alone.
    pub grows: bool,
}

const fn shape(name: &'static str, layout: fn(usize, Keys) -> Layout) -> Shape {
    Shape {
        name,
        layout,
        grows: true,
    }
}

const fn full(name: &'static str, layout: fn(usize, Keys) -> Layout) -> Shape {
    Shape {
        name,
        layout,
        grows: false,
    }
}

/// A store as it mostly is: a few tables of level 1 go into what they meet in level 2.
pub const STORE: Shape = full("leveled, 9 tables over 39", nine_over_39);

/// All shapes. A level over the next one, and what is picked from both.
pub const SHAPES: [Shape; 10] = [
    shape("range drop of about half", drop_range),
    shape("major", major),
    shape("FIFO, half of one run", fifo),
    shape("leveled, half moves from level 0 to 6", sink),
    STORE,
    shape("leveled, half crossing half", crossing),
    shape("leveled, 1 over all others", one_over_all),
    shape("leveled, all others over 1", all_over_one),
    full(
        "leveled, 412 crossing 412, 200 hidden",
        crossing_with_hidden,
    ),
    full("leveled, half crossing half, small tables", crossing_small),
];

// The size of a table that leveled aims at, 64 MiB.
const TARGET: u64 = 64 << 20;

// Over how many keys a level lies.
const SPACE: u64 = 1 << 24;

const SECOND: u64 = 1_000_000_000;

// How many tables are hidden, and how many stand in each of the two levels beside them.
const HIDDEN: usize = 200;

struct Sheet {
    keys: Keys,
    tables: Vec<Table>,
}

impl Keys {
    // The key at a place: its high half is the tour.
    fn key(self, place: u64) -> Key {
        let (tour, stop) = ((place >> 12) as u32, (place & 0xfff) as u32);
        match self {
            Keys::Stops => Key::Stop(tour, stop),
            Keys::Bytes => Key::Bytes([tour.to_be_bytes(), stop.to_be_bytes()].concat()),
        }
    }
}

impl Sheet {
    fn new(keys: Keys) -> Sheet {
        Sheet {
            keys,
            tables: vec![],
        }
    }

    // One table more, behind those that stand.
    fn table(&mut self, level: u8, low: u64, high: u64, size: u64) {
        let number = self.tables.len() as u64 + 1;
        self.tables.push(Table {
            number,
            level,
            run: 0,
            min: self.keys.key(low),
            max: self.keys.key(high),
            size,
            created: number * SECOND,
            linked: 0,
        });
    }

    // So many tables side by side, over the keys of a level from a place on.
    fn tile(&mut self, level: u8, count: usize, from: u64, size: u64) {
        let begin = |i: usize| from + i as u64 * SPACE / count as u64;
        for i in 0..count {
            self.table(level, begin(i), begin(i + 1) - 1, size);
        }
    }

    // The layout, with questions. Numbers and ages are in no order.
    fn asked(mut self, questions: Vec<Question>) -> Layout {
        let n = self.tables.len();
        let mut rng = Rng::new(1, n as u64);
        for i in (1..n).rev() {
            let other = rng.place(i + 1);
            let (number, created) = (self.tables[i].number, self.tables[i].created);
            self.tables[i].number = self.tables[other].number;
            self.tables[i].created = self.tables[other].created;
            self.tables[other].number = number;
            self.tables[other].created = created;
        }
        Layout {
            family: Family::Full,
            tables: self.tables,
            blobs: 0,
            questions,
        }
    }

    // With one question.
    fn proposed(self, clock: u64, strategy: Strategy) -> Layout {
        self.asked(vec![Question {
            word: Word::Propose,
            clock,
            strategy,
        }])
    }
}

// Leveled with tables of 64 MiB and four of them on level 0. Each level is so many times as large as the one before.
fn leveled(ratio: f32) -> Strategy {
    Strategy::Leveled(Leveled {
        target: TARGET,
        threshold: 4,
        ratios: vec![ratio],
        by_bits: false,
    })
}

// A store of three levels: most tables stand in the last.
fn store(n: usize, keys: Keys) -> Sheet {
    let (first, second) = (n * 9 / 1024, n * 39 / 1024);
    let mut sheet = Sheet::new(keys);
    sheet.tile(1, first.max(1), 0, TARGET);
    sheet.tile(2, second.max(1), 0, TARGET);
    sheet.tile(6, n - sheet.tables.len(), 0, TARGET);
    sheet
}

fn drop_range(n: usize, keys: Keys) -> Layout {
    let low = Bound::Included(keys.key(SPACE / 4));
    let high = Bound::Excluded(keys.key(SPACE / 4 * 3));
    store(n, keys).proposed(0, Strategy::DropRange { low, high })
}

fn major(n: usize, keys: Keys) -> Layout {
    store(n, keys).proposed(0, Strategy::Major { target: TARGET })
}

// A quarter has expired, and another quarter is above the limit.
fn fifo(n: usize, keys: Keys) -> Layout {
    let n64 = n as u64;
    let mut sheet = Sheet::new(keys);
    sheet.tile(0, n, 0, TARGET);
    sheet.proposed(
        n64 * 2 * SECOND,
        Strategy::Fifo {
            limit: n64 / 2 * TARGET,
            ttl: n64 * 2 - n64 / 4,
        },
    )
}

fn sink(n: usize, keys: Keys) -> Layout {
    let mut sheet = Sheet::new(keys);
    sheet.tile(0, n / 2, 0, TARGET);
    sheet.tile(6, n - n / 2, SPACE, TARGET);
    sheet.proposed(0, leveled(10.0))
}

// Each table of level 5 meets two of level 6, but at the ends.
fn cross(n: usize, keys: Keys, size: u64) -> Layout {
    let half = n / 2;
    let mut sheet = Sheet::new(keys);
    sheet.tile(5, half, 0, size);
    sheet.tile(6, half, SPACE / half as u64 / 2, size);
    sheet.proposed(0, leveled(1000.0))
}

fn crossing(n: usize, keys: Keys) -> Layout {
    cross(n, keys, TARGET)
}

// No window weighs 50 targets, so that all are read.
fn crossing_small(n: usize, keys: Keys) -> Layout {
    cross(n, keys, TARGET / 64)
}

// The one table meets ten.
fn one_over_all(n: usize, keys: Keys) -> Layout {
    let mut sheet = Sheet::new(keys);
    let others = n as u64 - 1;
    let begin = |i: u64| i * SPACE / others;
    sheet.table(5, begin(others / 2), begin(others / 2 + 10) - 1, 5 * TARGET);
    sheet.tile(6, n - 1, 0, TARGET);
    sheet.proposed(0, leveled(1000.0))
}

fn all_over_one(n: usize, keys: Keys) -> Layout {
    let mut sheet = Sheet::new(keys);
    sheet.tile(5, n - 1, 0, TARGET);
    sheet.table(6, 0, SPACE, TARGET);
    sheet.proposed(0, leveled(1000.0))
}

fn nine_over_39(n: usize, keys: Keys) -> Layout {
    store(n, keys).proposed(0, leveled(10.0))
}

// Tables of level 6 behind all others are booked by a range drop, and so are hidden.
fn crossing_with_hidden(n: usize, keys: Keys) -> Layout {
    let half = (n - HIDDEN) / 2;
    let mut sheet = Sheet::new(keys);
    sheet.tile(4, half, 0, TARGET);
    sheet.tile(5, half, SPACE / half as u64 / 2, TARGET);
    sheet.tile(6, HIDDEN, 2 * SPACE, TARGET);
    let question = |word, strategy| Question {
        word,
        clock: 0,
        strategy,
    };
    let low = Bound::Included(keys.key(2 * SPACE));
    let high = Bound::Unbounded;
    sheet.asked(vec![
        question(Word::Book, Strategy::DropRange { low, high }),
        question(Word::Propose, leveled(1000.0)),
    ])
}
