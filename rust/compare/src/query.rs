//! The calls as values.

use second::Sheet;
use std::fmt;

/// A call: its arguments, and the lengths of the memory that is lent to it
/// (working memory in numbers of 32 bits, tape and output memory in bytes).
#[derive(Clone, Copy, Debug, PartialEq, Eq)]
pub enum Query {
    Judge,
    ModeDemand { module: usize, mode: usize, from: usize, to: usize },
    StateDemand { module: usize, mode: usize, time: usize, length: usize, work: usize },
    ModuleDemand { module: usize, length: usize, work: usize },
    QuickTest { work: usize },
    ExactTest { work: usize, tape: usize },
    Report { work: usize, tape: usize, out: usize },
}

/// The names of the calls, in the order of [`Query::kind`].
pub const KINDS: [&str; 7] =
    ["judge", "mode demand", "state demand", "module demand", "quick test", "exact test", "report"];

impl Query {
    /// The number of the call's name in [`KINDS`].
    pub fn kind(&self) -> usize {
        match self {
            Query::Judge => 0,
            Query::ModeDemand { .. } => 1,
            Query::StateDemand { .. } => 2,
            Query::ModuleDemand { .. } => 3,
            Query::QuickTest { .. } => 4,
            Query::ExactTest { .. } => 5,
            Query::Report { .. } => 6,
        }
    }

    /// Whether the call borrows working, tape and output memory.
    pub fn borrows(&self) -> [bool; 3] {
        match self {
            Query::Judge | Query::ModeDemand { .. } => [false, false, false],
            Query::StateDemand { .. } | Query::ModuleDemand { .. } | Query::QuickTest { .. } => {
                [true, false, false]
            }
            Query::ExactTest { .. } => [true, true, false],
            Query::Report { .. } => [true, true, true],
        }
    }
}

/// The bytes of tape memory that a sheet wants: modules × horizon.
pub fn tape_len(sheet: &Sheet) -> usize {
    sheet.modules.len() * usize::from(sheet.horizon)
}

impl fmt::Display for Query {
    fn fmt(&self, f: &mut fmt::Formatter<'_>) -> fmt::Result {
        f.write_str(KINDS[self.kind()])?;
        match self {
            Query::Judge => Ok(()),
            Query::ModeDemand { module, mode, from, to } => {
                write!(f, ": module {module}, mode {mode}, from {from}, to {to}")
            }
            Query::StateDemand { module, mode, time, length, work } => {
                write!(
                    f,
                    ": module {module}, mode {mode}, time {time}, length {length}, work {work}"
                )
            }
            Query::ModuleDemand { module, length, work } => {
                write!(f, ": module {module}, length {length}, work {work}")
            }
            Query::QuickTest { work } => write!(f, ": work {work}"),
            Query::ExactTest { work, tape } => write!(f, ": work {work}, tape {tape}"),
            Query::Report { work, tape, out } => {
                write!(f, ": work {work}, tape {tape}, out {out}")
            }
        }
    }
}
