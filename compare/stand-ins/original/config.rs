//! Stands for the tree's configuration, of which the choosers read one number.

/// How many levels there are.
pub struct Config {
    pub level_count: u8,
}
