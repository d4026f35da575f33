//! The answers of the second implementation.

use crate::answer::Answer;
use crate::memory::Left;
use crate::query::{tape_len, Query};
use second::{brute, table, Exact, Module, Quick, Refusal, Sheet, WORK_LEN};
use std::cell::OnceCell;

/// Which of its two ways the second implementation takes.
#[derive(Clone, Copy, Debug, PartialEq, Eq)]
pub enum Way {
    /// Every run is listed.
    Literal,
    /// Tables over states and ticks.
    Table,
}

/// The answers to one sheet. Its two tests are worked out once.
pub struct Wanted<'s> {
    bytes: &'s [u8],
    way: Way,
    judged: Result<Sheet, Refusal>,
    quick: OnceCell<Quick>,
    exact: OnceCell<Exact>,
}

/// The refusal for lent memory that is too short.
const TOO_SHORT: Refusal = Refusal { number: 10, place: 0 };

/// 10 unless the memory is enough.
fn enough(holds: bool) -> Result<(), Refusal> {
    holds.then_some(()).ok_or(TOO_SHORT)
}

impl<'s> Wanted<'s> {
    /// Judges the bytes.
    pub fn new(bytes: &'s [u8], way: Way) -> Wanted<'s> {
        let judged = match way {
            Way::Literal => brute::refusal(bytes).map_or_else(|| second::judge(bytes), Err),
            Way::Table => second::judge(bytes),
        };
        Wanted { bytes, way, judged, quick: OnceCell::new(), exact: OnceCell::new() }
    }

    /// The sheet, or why it is refused.
    pub fn sheet(&self) -> Result<&Sheet, Refusal> {
        self.judged.as_ref().map_err(|refusal| *refusal)
    }

    /// The answer to a call.
    pub fn answer(&self, query: &Query) -> Answer {
        self.answered(query).unwrap_or_else(Answer::Refused)
    }

    /// What the call that has this answer has to leave in the lent memory.
    pub fn left(&self, query: &Query, answer: &Answer) -> Left {
        if answer.number() != 0 {
            return Left::default();
        }
        let [_, tape, _] = query.borrows();
        Left {
            work: WORK_LEN as usize,
            tape: if tape { self.tapes() } else { Vec::new() },
            out: match answer {
                Answer::Lines(lines) => lines.clone().into_bytes(),
                _ => Vec::new(),
            },
        }
    }

    fn answered(&self, query: &Query) -> Result<Answer, Refusal> {
        match *query {
            Query::Judge => self.sheet().map(|s| Answer::Counts(s.counts(), s.horizon.into())),
            Query::ModeDemand { module, mode, from, to } => {
                self.mode_demand(module, mode, from, to).map(Answer::Demand)
            }
            Query::StateDemand { module, mode, time, length, work } => {
                self.state_demand(module, mode, time, length, work).map(Answer::Demand)
            }
            Query::ModuleDemand { module, length, work } => {
                self.module_demand(module, length, work).map(Answer::Demand)
            }
            Query::QuickTest { work } => self.quick_test(work).map(Answer::Quick),
            Query::ExactTest { work, tape } => self.exact_test(work, tape).map(Answer::Exact),
            Query::Report { work, tape, out } => self.report(work, tape, out).map(Answer::Lines),
        }
    }

    fn mode_demand(&self, module: usize, mode: usize, a: usize, b: usize) -> Result<u64, Refusal> {
        let [k, m, a, b] = [module, mode, a, b].map(|number| number as u64);
        let tabled = second::mode_demand(self.bytes, k, m, a, b)?;
        Ok(match self.way {
            Way::Literal => brute::mode_demand(&self.module(module).modes[mode], a, b),
            Way::Table => tabled,
        })
    }

    fn state_demand(
        &self,
        module: usize,
        mode: usize,
        time: usize,
        length: usize,
        work: usize,
    ) -> Result<u64, Refusal> {
        let [k, m, d, length, work] = [module, mode, time, length, work].map(|n| n as u64);
        let tabled = second::state_demand(self.bytes, k, m, d, length, work)?;
        Ok(match self.way {
            Way::Literal => brute::state_demand(self.module(module), (mode, d), length),
            Way::Table => tabled,
        })
    }

    fn module_demand(&self, module: usize, length: usize, work: usize) -> Result<u64, Refusal> {
        let [k, length, work] = [module, length, work].map(|number| number as u64);
        let tabled = second::module_demand(self.bytes, k, length, work)?;
        Ok(match self.way {
            Way::Literal => brute::module_demand(self.module(module), length),
            Way::Table => tabled,
        })
    }

    fn quick_test(&self, work: usize) -> Result<Quick, Refusal> {
        self.sheet()?;
        enough(work as u64 >= WORK_LEN)?;
        Ok(*self.quick())
    }

    fn exact_test(&self, work: usize, tape: usize) -> Result<Exact, Refusal> {
        let sheet = self.sheet()?;
        enough(work as u64 >= WORK_LEN && tape >= tape_len(sheet))?;
        Ok(self.exact().clone())
    }

    fn report(&self, work: usize, tape: usize, out: usize) -> Result<String, Refusal> {
        self.exact_test(work, tape)?;
        enough(out >= tyvasuri::Sheet::REPORT_LEN)?;
        Ok(second::sheet_lines(self.sheet()?, self.quick(), self.exact()))
    }

    /// A module of a sheet that is accepted and has it.
    fn module(&self, module: usize) -> &Module {
        &self.accepted().modules[module]
    }

    /// The sheet, where it is known to be accepted.
    fn accepted(&self) -> &Sheet {
        self.judged.as_ref().expect("the sheet is accepted")
    }

    /// The verdict of the quick test of an accepted sheet.
    pub fn quick(&self) -> &Quick {
        self.quick.get_or_init(|| match self.way {
            Way::Literal => brute::quick(self.accepted()),
            Way::Table => table::quick(self.accepted()),
        })
    }

    /// The verdict of the exact test of an accepted sheet.
    pub fn exact(&self) -> &Exact {
        self.exact.get_or_init(|| match self.way {
            Way::Literal => brute::exact(self.accepted()),
            Way::Table => table::exact(self.accepted()),
        })
    }

    /// The tapes of an accepted sheet, one after the other; none where it is clear.
    fn tapes(&self) -> Vec<u8> {
        match self.exact() {
            Exact::Clear => Vec::new(),
            Exact::Over { tapes, .. } => tapes.concat(),
        }
    }
}
