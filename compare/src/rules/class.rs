//! The rules in which the original differs, and how docs/DIFFERENCES.md names them.

/// One rule in which the original differs.
#[derive(Clone, Copy, Debug, PartialEq, Eq, PartialOrd, Ord)]
pub enum Class {
    /// An empty level has the range of the empty key.
    EmptyLastLevel,
    /// A window above 50 target sizes ends the reading.
    LargeWindow,
    /// What is older than the clock is counted from 0 on.
    Cutoff,
    /// FIFO stops where it is refused here.
    Asserts,
}

/// All of them.
pub const CLASSES: [Class; 4] = [
    Class::EmptyLastLevel,
    Class::LargeWindow,
    Class::Cutoff,
    Class::Asserts,
];

impl Class {
    /// The words of docs/DIFFERENCES.md for it.
    pub fn words(self) -> &'static str {
        match self {
            Class::EmptyLastLevel => "An empty level 6 has the range of the empty key in the Rust",
            Class::LargeWindow => "A too large window ends the Rust's scan",
            Class::Cutoff => "FIFO's cutoff stops at 0 in the Rust",
            Class::Asserts => "FIFO's two asserts are refusals here",
        }
    }
}

/// Which rules of the original are taken instead of those of docs/RULES.md.
#[derive(Clone, Copy)]
pub struct Rules([bool; CLASSES.len()]);

impl Rules {
    /// None.
    pub const OURS: Rules = Rules([false; CLASSES.len()]);

    /// All.
    pub const ORIGINAL: Rules = Rules([true; CLASSES.len()]);

    /// One alone.
    pub fn but_for(class: Class) -> Rules {
        Rules(CLASSES.map(|it| it == class))
    }

    /// Whether this rule of the original is taken.
    pub fn takes(self, class: Class) -> bool {
        self.0[class as usize]
    }
}
