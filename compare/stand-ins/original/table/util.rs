//! The head of table/util.rs; what stands below was cut out of the original.

use crate::{version::run::Ranged, KeyRange, Table};

