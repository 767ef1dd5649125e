//! The head of compaction/mod.rs; what stands below was cut out of the original.

pub mod drop_range;
pub mod fifo;
pub mod leveled;
pub mod major;
pub mod state;

use crate::config::Config;
use crate::version::Version;
use crate::{HashSet, KvPair, TableId};
use state::CompactionState;

