//! The answers of the archive, through the crate `tyvasuri`.

use crate::answer::Answer;
use crate::memory::Memory;
use crate::query::Query;
use std::any::Any;
use std::panic::{catch_unwind, AssertUnwindSafe};
use tyvasuri::{
    exact_test, judge, mode_demand, module_demand, quick_test, report, state_demand, Refusal,
};

/// The archive's answer. A number that is no answer makes the crate panic; that is caught, so
/// that the sheet can be shown.
pub fn ask(bytes: &[u8], query: &Query, memory: &mut Memory) -> Answer {
    match catch_unwind(AssertUnwindSafe(|| call(bytes, query, memory))) {
        Ok(answer) => answer.unwrap_or_else(Answer::from),
        Err(panic) => Answer::Nothing(said(&*panic)),
    }
}

/// What a panic says.
fn said(panic: &(dyn Any + Send)) -> String {
    panic.downcast_ref::<String>().cloned().unwrap_or_default()
}

/// Makes the call.
fn call(bytes: &[u8], query: &Query, lent: &mut Memory) -> Result<Answer, Refusal> {
    Ok(match *query {
        Query::Judge => judge(bytes)?.into(),
        Query::ModeDemand { module, mode, from, to } => {
            mode_demand(bytes, module, mode, from, to)?.into()
        }
        Query::StateDemand { module, mode, time, length, work } => {
            state_demand(bytes, module, mode, time, length, lent.work.lend(work))?.into()
        }
        Query::ModuleDemand { module, length, work } => {
            module_demand(bytes, module, length, lent.work.lend(work))?.into()
        }
        Query::QuickTest { work } => quick_test(bytes, lent.work.lend(work))?.into(),
        Query::ExactTest { work, tape } => {
            exact_test(bytes, lent.work.lend(work), lent.tape.lend(tape))?.into()
        }
        Query::Report { work, tape, out } => {
            let (work, tape) = (lent.work.lend(work), lent.tape.lend(tape));
            Answer::Lines(report(bytes, work, tape, lent.out.lend(out))?.into())
        }
    })
}
