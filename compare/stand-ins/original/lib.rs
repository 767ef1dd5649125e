//! The root of the crate in which the copied files are built. `ask` is what the comparison calls.

pub mod ask;
mod compaction;
mod config;
mod key_range;
mod slice;
mod slice_windows;
mod table;
mod time;
mod version;

use key_range::KeyRange;
use slice::Slice;
use std::hash::BuildHasherDefault;
use table::Table;

type TableId = u64;
type UserKey = Slice;
type UserValue = Slice;
type KvPair = (UserKey, UserValue);
type HashSet<K> = std::collections::HashSet<K, BuildHasherDefault<Spread>>;

/// What a table answers about the blobs that it links to. It never fails here.
type Result<T> = std::result::Result<T, std::convert::Infallible>;

/// Stands for the hasher of rustc-hash. The order of a set is never looked at.
#[derive(Default)]
struct Spread(u64);

impl std::hash::Hasher for Spread {
    fn write(&mut self, bytes: &[u8]) {
        for byte in bytes {
            self.write_u64(u64::from(*byte));
        }
    }

    fn write_u64(&mut self, n: u64) {
        self.0 = (self.0 ^ n).wrapping_mul(0x9E37_79B9_7F4A_7C15).rotate_left(29);
    }

    fn finish(&self) -> u64 {
        self.0
    }
}
