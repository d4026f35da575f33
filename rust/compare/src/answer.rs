//! The answers of a call, in words that both sides share.

use second::{Counts, Exact, Quick, Refusal};
use std::fmt;

/// What a call gives.
#[derive(Clone, Debug, PartialEq, Eq)]
pub enum Answer {
    Refused(Refusal),
    /// The judge's counts, and the horizon.
    Counts(Counts, usize),
    Demand(u64),
    Quick(Quick),
    Exact(Exact),
    /// The report's lines.
    Lines(String),
    /// Nothing that the call can give, and what was said of it.
    Nothing(String),
}

impl Answer {
    /// The refusal number, 0 for none.
    pub fn number(&self) -> usize {
        match self {
            Answer::Refused(refusal) => usize::from(refusal.number),
            _ => 0,
        }
    }
}

impl From<tyvasuri::Refusal> for Answer {
    fn from(refusal: tyvasuri::Refusal) -> Answer {
        Answer::Refused(Refusal { number: refusal.number(), place: refusal.place })
    }
}

impl From<tyvasuri::Counts> for Answer {
    fn from(counts: tyvasuri::Counts) -> Answer {
        let tyvasuri::Counts { modules, modes, tasks, switches, horizon, .. } = counts;
        Answer::Counts(Counts { modules, modes, tasks, switches }, horizon)
    }
}

impl From<u32> for Answer {
    fn from(demand: u32) -> Answer {
        Answer::Demand(demand.into())
    }
}

impl From<tyvasuri::Quick> for Answer {
    fn from(verdict: tyvasuri::Quick) -> Answer {
        Answer::Quick(match verdict {
            tyvasuri::Quick::Clear => Quick::Clear,
            tyvasuri::Quick::Over { length, demand, .. } => {
                Quick::Over { length: length as u64, demand: demand.into() }
            }
        })
    }
}

impl From<tyvasuri::Exact<'_>> for Answer {
    fn from(verdict: tyvasuri::Exact<'_>) -> Answer {
        Answer::Exact(match verdict {
            tyvasuri::Exact::Clear => Exact::Clear,
            tyvasuri::Exact::Over { start, end, demand, tapes, .. } => Exact::Over {
                a: start as u64,
                b: end as u64,
                demand: demand.into(),
                tapes: tapes.iter().map(<[u8]>::to_vec).collect(),
            },
        })
    }
}

impl fmt::Display for Answer {
    fn fmt(&self, f: &mut fmt::Formatter<'_>) -> fmt::Result {
        match self {
            Answer::Refused(Refusal { number, place }) => write!(f, "refused {number} at {place}"),
            Answer::Counts(Counts { modules, modes, tasks, switches }, horizon) => {
                write!(f, "modules {modules} modes {modes} tasks {tasks} ")?;
                write!(f, "switches {switches} horizon {horizon}")
            }
            Answer::Demand(demand) => write!(f, "demand {demand}"),
            Answer::Quick(Quick::Clear) | Answer::Exact(Exact::Clear) => f.write_str("clear"),
            Answer::Quick(Quick::Over { length, demand }) => {
                write!(f, "over {length} demand {demand}")
            }
            Answer::Exact(Exact::Over { a, b, demand, tapes }) => {
                write!(f, "over {a} {b} demand {demand}, tapes")?;
                tapes.iter().try_for_each(|tape| write!(f, " {}", digits(tape)))
            }
            Answer::Lines(lines) => write!(f, "{lines:?}"),
            Answer::Nothing(said) => write!(f, "no answer: {said}"),
        }
    }
}

/// A tape, one digit a tick; a byte that is no mode's number as it is.
fn digits(tape: &[u8]) -> String {
    tape.iter().map(|mode| if *mode < 8 { mode.to_string() } else { format!("[{mode}]") }).collect()
}
