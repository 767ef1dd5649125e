//! A layout of tables with what is asked about it, and how the planner's script says both.

use crate::families::Family;
use std::fmt::{self, Display, Formatter, Write};
use std::ops::Bound;

/// The levels.
pub const LEVELS: usize = 7;

/// A key of either kind. A layout has keys of one kind.
#[derive(Clone, Debug, PartialEq, Eq, PartialOrd, Ord)]
pub enum Key {
    Stop(u32, u32),
    Bytes(Vec<u8>),
}

/// A standing table.
#[derive(Clone, Debug)]
pub struct Table {
    pub number: u64,
    pub level: u8,
    pub run: u16,
    pub min: Key,
    pub max: Key,
    pub size: u64,
    pub created: u64,
    pub linked: u64,
}

/// The settings of leveled.
#[derive(Clone, Debug)]
pub struct Leveled {
    pub target: u64,
    pub threshold: u8,
    pub ratios: Vec<f32>,
    /// Whether the script says the ratios by their bits.
    pub by_bits: bool,
}

/// A strategy with its settings.
#[derive(Clone, Debug)]
pub enum Strategy {
    Leveled(Leveled),
    Fifo { limit: u64, ttl: u64 },
    Major { target: u64 },
    DropRange { low: Bound<Key>, high: Bound<Key> },
}

/// Which strategy it is, without its settings.
#[derive(Clone, Copy, Debug, PartialEq, Eq, PartialOrd, Ord)]
pub enum Kind {
    Leveled,
    Fifo,
    Major,
    DropRange,
}

/// All of them.
pub const KINDS: [Kind; 4] = [Kind::Leveled, Kind::Fifo, Kind::Major, Kind::DropRange];

impl Kind {
    /// Its name in the script.
    pub fn name(self) -> &'static str {
        match self {
            Kind::Leveled => "leveled",
            Kind::Fifo => "fifo",
            Kind::Major => "major",
            Kind::DropRange => "drop-range",
        }
    }
}

impl Strategy {
    /// Which it is.
    pub fn kind(&self) -> Kind {
        match self {
            Strategy::Leveled(_) => Kind::Leveled,
            Strategy::Fifo { .. } => Kind::Fifo,
            Strategy::Major { .. } => Kind::Major,
            Strategy::DropRange { .. } => Kind::DropRange,
        }
    }
}

/// How a question is put.
#[derive(Clone, Copy, Debug, PartialEq, Eq)]
pub enum Word {
    Propose,
    LookAhead,
    Book,
}

/// A question, with the clock in nanoseconds.
#[derive(Clone, Debug)]
pub struct Question {
    pub word: Word,
    pub clock: u64,
    pub strategy: Strategy,
}

/// Standing tables in sheet order, the blob total, and what is asked one after another.
#[derive(Clone, Debug)]
pub struct Layout {
    pub family: Family,
    pub tables: Vec<Table>,
    pub blobs: u64,
    pub questions: Vec<Question>,
}

impl Display for Key {
    fn fmt(&self, f: &mut Formatter<'_>) -> fmt::Result {
        match self {
            Key::Stop(tour, stop) => write!(f, "{tour}:{stop}"),
            Key::Bytes(bytes) if bytes.is_empty() => f.write_str("-"),
            Key::Bytes(bytes) => bytes.iter().try_for_each(|byte| write!(f, "{byte:02x}")),
        }
    }
}

impl Display for Table {
    fn fmt(&self, f: &mut Formatter<'_>) -> fmt::Result {
        let Table {
            number,
            level,
            run,
            min,
            max,
            size,
            created,
            linked,
        } = self;
        write!(
            f,
            "table {number} {level} {run} {min} {max} {size} {created} {linked}"
        )
    }
}

// A bound as the script says it.
fn write_bound(f: &mut Formatter<'_>, bound: &Bound<Key>) -> fmt::Result {
    match bound {
        Bound::Unbounded => f.write_str(" *"),
        Bound::Included(key) => write!(f, " [{key}"),
        Bound::Excluded(key) => write!(f, " ({key}"),
    }
}

impl Display for Leveled {
    fn fmt(&self, f: &mut Formatter<'_>) -> fmt::Result {
        write!(f, "leveled {} {}", self.target, self.threshold)?;
        for ratio in &self.ratios {
            if self.by_bits {
                write!(f, " 0x{:x}", ratio.to_bits())?;
            } else {
                write!(f, " {ratio:?}")?;
            }
        }
        Ok(())
    }
}

impl Display for Strategy {
    fn fmt(&self, f: &mut Formatter<'_>) -> fmt::Result {
        match self {
            Strategy::Leveled(settings) => write!(f, "{settings}"),
            Strategy::Fifo { limit, ttl } => write!(f, "fifo {limit} {ttl}"),
            Strategy::Major { target } => write!(f, "major {target}"),
            Strategy::DropRange { low, high } => {
                f.write_str("drop-range")?;
                write_bound(f, low)?;
                write_bound(f, high)
            }
        }
    }
}

impl Display for Question {
    fn fmt(&self, f: &mut Formatter<'_>) -> fmt::Result {
        let word = match self.word {
            Word::Propose => "propose",
            Word::LookAhead => "look-ahead",
            Word::Book => "book",
        };
        write!(f, "{word} {} {}", self.clock, self.strategy)
    }
}

impl Layout {
    /// The name of its keys' kind. Where there is no table, it does not matter.
    fn keys(&self) -> &'static str {
        let in_bound = |bound: &Bound<Key>| match bound {
            Bound::Included(key) | Bound::Excluded(key) => matches!(key, Key::Stop(..)),
            Bound::Unbounded => false,
        };
        let stops = self.tables.iter().any(|t| matches!(t.min, Key::Stop(..)))
            || self.questions.iter().any(|q| match &q.strategy {
                Strategy::DropRange { low, high } => in_bound(low) || in_bound(high),
                _ => false,
            });
        if stops {
            "stop"
        } else {
            "bytes"
        }
    }

    /// The lines of the script up to the first question.
    pub fn opening(&self) -> String {
        let mut text = format!("keys {}\n", self.keys());
        for table in &self.tables {
            writeln!(text, "{table}").expect("a string takes all");
        }
        writeln!(text, "open {}", self.blobs).expect("a string takes all");
        text
    }

    /// All its lines.
    pub fn script(&self) -> String {
        let mut text = self.opening();
        for question in &self.questions {
            writeln!(text, "{question}").expect("a string takes all");
        }
        text
    }
}
