//! Stands for a table on disk: its record and the accessors that the choosers call.

pub mod util;

use crate::{KeyRange, TableId};
use std::ops::Deref;
use std::sync::Arc;

/// What the choosers read of a table's metadata.
pub struct Metadata {
    pub id: TableId,
    pub created_at: u128,
    pub key_range: KeyRange,
    pub file_size: u64,
}

/// A table's record.
pub struct Record {
    pub metadata: Metadata,
    pub linked: u64,
}

/// A table.
#[derive(Clone)]
pub struct Table(Arc<Record>);

impl Table {
    /// A table with this record.
    pub fn new(inner: Record) -> Table {
        Table(Arc::new(inner))
    }

    pub fn id(&self) -> TableId {
        self.metadata.id
    }

    pub fn file_size(&self) -> u64 {
        self.metadata.file_size
    }

    pub fn referenced_blob_bytes(&self) -> crate::Result<u64> {
        Ok(self.linked)
    }
}

impl Deref for Table {
    type Target = Record;

    fn deref(&self) -> &Record {
        &self.0
    }
}
