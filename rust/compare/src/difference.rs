//! A difference between the two sides, with all that is needed to see it again.

use crate::query::Query;
use std::fmt;

/// Where a sheet comes from.
#[derive(Clone, Copy, Debug, Default, PartialEq, Eq)]
pub enum Origin {
    /// It was given as bytes.
    #[default]
    Given,
    /// It is the small sheet of a seed.
    Small(u64),
    /// It is the large sheet of a seed, or one of the damaged sheets.
    Large(u64),
}

/// A call that the archive and the second implementation do not answer alike, or that leaves
/// lent memory otherwise than it has to.
#[derive(Clone, Debug, PartialEq, Eq)]
pub struct Difference {
    pub origin: Origin,
    pub bytes: Vec<u8>,
    pub query: Query,
    pub archive: String,
    pub second: String,
}

/// The command that compares a sheet again, but for its numbers.
const AGAIN: &str = "cargo run --release --manifest-path rust/compare/Cargo.toml --bin long --";

impl fmt::Display for Origin {
    fn fmt(&self, f: &mut fmt::Formatter<'_>) -> fmt::Result {
        match self {
            Origin::Given => write!(f, "the sheet was given"),
            Origin::Small(seed) => write!(f, "seed {seed}: {AGAIN} 1 0 {seed}"),
            Origin::Large(seed) => write!(f, "seed {seed}: {AGAIN} 0 1 {seed}"),
        }
    }
}

impl fmt::Display for Difference {
    fn fmt(&self, f: &mut fmt::Formatter<'_>) -> fmt::Result {
        let hex: Vec<String> = self.bytes.iter().map(|byte| format!("{byte:02X}")).collect();
        writeln!(f, "a difference; {}", self.origin)?;
        writeln!(f, "sheet:   {}", hex.join(" "))?;
        writeln!(f, "call:    {}", self.query)?;
        writeln!(f, "archive: {}", self.archive)?;
        write!(f, "second:  {}", self.second)
    }
}
