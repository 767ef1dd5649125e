//! What the comparison calls: a sheet of tables is laid out once, and the choosers are asked about it.

use crate::compaction::drop_range::{self, OwnedBounds};
use crate::compaction::state::CompactionState;
use crate::compaction::{fifo, leveled, major, Choice, CompactionStrategy, Input};
use crate::config::Config;
use crate::table::{self, Metadata};
use crate::time::set_clock;
use crate::version::{BlobFileList, FragmentationMap, Level, Run, TreeType, Version};
use crate::{HashSet, KeyRange, Slice, Table};
use std::hint::black_box;
use std::ops::Bound;
use std::panic::{catch_unwind, AssertUnwindSafe};
use std::sync::Arc;
use std::time::{Duration, Instant};

const LEVELS: u8 = 7;

/// A standing table.
pub struct Record {
    pub number: u64,
    pub level: u8,
    pub run: u16,
    pub min: Vec<u8>,
    pub max: Vec<u8>,
    pub size: u64,
    pub created: u64,
    pub linked: u64,
}

/// A strategy and its settings.
pub enum Asked {
    Leveled {
        target: u64,
        threshold: u8,
        ratios: Vec<f32>,
    },
    Fifo {
        limit: u64,
        ttl: Option<u64>,
    },
    Major {
        target: u64,
    },
    DropRange {
        low: Bound<Vec<u8>>,
        high: Bound<Vec<u8>>,
    },
}

/// What a move or a merge says.
pub struct Named {
    pub numbers: Vec<u64>,
    pub destination: u8,
    pub canonical: u8,
    pub target: u64,
}

/// What a chooser says.
pub enum Said {
    Nothing,
    Move(Named),
    Merge(Named),
    Drop(Vec<u64>),
    Panicked,
}

/// Tables on their levels, and the blobs' bytes.
pub struct Sheet(Version);

impl Sheet {
    /// Lays tables out, which are given by level, run and min. Level 0's newest run comes first, as a store keeps it.
    pub fn new(records: Vec<Record>, blobs: u64) -> Sheet {
        let mut runs: Vec<Vec<Vec<Table>>> = (0..LEVELS).map(|_| vec![]).collect();
        for record in records {
            let level = &mut runs[usize::from(record.level)];
            if level.len() <= usize::from(record.run) {
                level.push(vec![]);
            }
            level[usize::from(record.run)].push(table(record));
        }
        let levels = runs.into_iter().map(|runs| {
            let newest_first = runs.into_iter().rev();
            Level::from_runs(newest_first.filter_map(Run::new).map(Arc::new).collect())
        });
        let blobs = BlobFileList { bytes: blobs };
        Sheet(Version::from_levels(
            0,
            TreeType,
            levels.collect(),
            blobs,
            FragmentationMap,
        ))
    }

    /// Makes all that a strategy takes, while some tables are hidden.
    pub fn question(&self, hidden: &[u64], clock: u64, asked: &Asked) -> Question<'_> {
        let mut state = CompactionState::default();
        state.hidden_set_mut().hide(hidden.iter().copied());
        Question {
            version: &self.0,
            config: Config {
                level_count: LEVELS,
            },
            state,
            clock,
            strategy: strategy(asked),
        }
    }
}

/// A strategy with all that it takes.
pub struct Question<'a> {
    version: &'a Version,
    config: Config,
    state: CompactionState,
    clock: u64,
    strategy: Box<dyn CompactionStrategy>,
}

impl Question<'_> {
    /// What the strategy chooses.
    pub fn put(&self) -> Said {
        set_clock(self.clock);
        let chosen = catch_unwind(AssertUnwindSafe(|| self.choose()));
        chosen.map_or(Said::Panicked, said)
    }

    /// How long the strategy takes to choose. What it chose is let go after.
    pub fn time(&self) -> Duration {
        set_clock(self.clock);
        let start = Instant::now();
        let choice = black_box(self.choose());
        let time = start.elapsed();
        drop(choice);
        time
    }

    fn choose(&self) -> Choice {
        self.strategy
            .choose(black_box(self.version), &self.config, &self.state)
    }
}

fn table(record: Record) -> Table {
    let key_range = KeyRange::new((Slice::from(record.min), Slice::from(record.max)));
    Table::new(table::Record {
        metadata: Metadata {
            id: record.number,
            created_at: u128::from(record.created),
            key_range,
            file_size: record.size,
        },
        linked: record.linked,
    })
}

fn strategy(asked: &Asked) -> Box<dyn CompactionStrategy> {
    match asked {
        Asked::Leveled {
            target,
            threshold,
            ratios,
        } => Box::new(
            leveled::Strategy::default()
                .with_table_target_size(*target)
                .with_l0_threshold(*threshold)
                .with_level_ratio_policy(ratios.clone()),
        ),
        Asked::Fifo { limit, ttl } => Box::new(fifo::Strategy::new(*limit, *ttl)),
        Asked::Major { target } => Box::new(major::Strategy::new(*target)),
        Asked::DropRange { low, high } => Box::new(drop_range::Strategy::new(OwnedBounds {
            start: low.clone().map(Slice::from),
            end: high.clone().map(Slice::from),
        })),
    }
}

fn said(choice: Choice) -> Said {
    match choice {
        Choice::DoNothing => Said::Nothing,
        Choice::Move(input) => Said::Move(named(input)),
        Choice::Merge(input) => Said::Merge(named(input)),
        Choice::Drop(ids) => Said::Drop(numbers(ids)),
    }
}

fn named(input: Input) -> Named {
    Named {
        numbers: numbers(input.table_ids),
        destination: input.dest_level,
        canonical: input.canonical_level,
        target: input.target_size,
    }
}

fn numbers(ids: HashSet<u64>) -> Vec<u64> {
    ids.into_iter().collect()
}
