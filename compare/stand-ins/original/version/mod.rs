//! The head of version/mod.rs; what stands below was cut out of the original.

pub mod run;

use crate::{compaction::state::hidden_set::HiddenSet, HashSet, KeyRange, Table, TableId};
pub use run::Run;
use run::Ranged;
use std::sync::Arc;

pub type VersionId = u64;

/// Stands for the kind of a tree, which no chooser reads.
pub struct TreeType;

/// Stands for the blob files, of which the choosers read the bytes on disk.
pub struct BlobFileList {
    pub bytes: u64,
}

impl BlobFileList {
    pub fn on_disk_size(&self) -> u64 {
        self.bytes
    }
}

/// Stands for the statistics of blob files, which no chooser reads.
pub struct FragmentationMap;

