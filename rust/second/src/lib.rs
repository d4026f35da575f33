//! A second, independent checker of timing sheets.
//!
//! It reads one sheet and answers whether the sheet is well formed, the demand
//! of a mode, of a starting state and of a module, the quick test, and the
//! exact test with a witness. It stands beside the product to be compared
//! with it, so it shares nothing with it but the papers.
//!
//! Two ways to the same answers live inside: [`brute`] follows the words of
//! the definitions and lists every run; [`table`] works up tables over states
//! and ticks and serves sheets up to the limits. The functions of this root
//! judge the sheet, check the ranges and the lent memory, and ask [`table`].
//!
//! # Readings
//!
//! Where the papers leave something open, these are the readings taken:
//!
//! 1. The end of the bytes before EN is refusal 1 at the number of bytes: that
//!    is where the wanted record's first byte would stand.
//! 2. A switch's target is judged where the switch stands, against the number
//!    of modes its module states, whether or not those modes follow.
//! 3. "Named once in a mode": the second switch to the same target is the bad
//!    record, whatever its period, and whichever of SW and SX the two are.
//! 4. An ML field of 0 or above 8 is a value fault (5). A further MD in a full
//!    module, and an ML or EN in one not yet full, are order faults (3). EN
//!    straight after HZ is an order fault, since one module at least is wanted.
//! 5. Order goes before counts, so the 17th TK after an SW or SX is 3, and a ninth
//!    ML while the eighth module lacks modes is 3. Counts go before values, so
//!    the 17th TK with a bad field is 4, and so is a bad SX that is the 129th of
//!    SW and SX together.
//! 6. [`judge`] takes bytes of any number. Only the program cuts its input to
//!    3,625 bytes, so [`report`] cuts and `judge` does not. The two can differ
//!    for an input longer than that: a record that begins before the cut and
//!    ends after it is 1 for the program.
//! 7. An argument of a query may be any number; every one out of its range is
//!    9 at 0, a > b of the mode demand among them. The mode demand and the
//!    judge borrow no memory, so they never give 10. The state and the module
//!    demand and the quick test borrow working memory; the exact test borrows
//!    working memory and tape memory.
//! 8. Lengths of lent memory are given as numbers: working memory in numbers
//!    of 32 bits, tape memory in bytes. More than is wanted is no fault.
//! 9. A demand counts an instance by its release tick and its due tick alone,
//!    with both ends included; for the length 0 it is 0. A run need be known
//!    only up to the last tick before the interval's end.
//! 10. The module demand, and so the quick test, ranges over the states of the
//!     modes reached from mode 0, by change request b: mode 0 is reached, and so
//!     is the target of every switch that a reached mode lists. The horizon
//!     plays no part, so a mode counts even where no run comes to it in time,
//!     and all mode times of a reached mode count. The mode and the state demand
//!     answer for every listed mode, reached or not. The exact test takes only
//!     runs from tick 0, which come to no other modes anyway.
//! 11. The tapes have b bytes each, each byte the mode's number as a value
//!     (not a digit); the report alone turns them into digits.
//! 12. Every line of the report, `refused N at P` too, ends with one newline.
//! 13. SX, by change request k, keeps every rule of SW but the one on the task
//!     periods, and stands in any order among the SW records. Its own rule looks
//!     at every instance that a task of the mode releases in one mode period. A
//!     multiple of the switch period may be a release or a due tick. A run that
//!     leaves at a multiple where the old mode would release something does not
//!     release it, as with SW. The report's number of switches counts both kinds.

pub mod brute;
pub mod generate;
pub mod sheet;
pub mod table;

pub use sheet::{encode, judge, Counts, Kind, Mode, Module, Refusal, Sheet, Switch, Task};
pub use table::reached;

/// Working memory that has to be lent, in numbers of 32 bits.
pub const WORK_LEN: u64 = 16_384;

/// The program reads at most this many bytes.
pub const MOST_INPUT: usize = 3625;

/// The answer of the quick test.
#[derive(Clone, Copy, Debug, PartialEq, Eq)]
pub enum Quick {
    /// No sum of module demands exceeds its length.
    Clear,
    /// The smallest length whose sum exceeds it, and that sum.
    Over { length: u64, demand: u64 },
}

/// The answer of the exact test.
#[derive(Clone, Debug, PartialEq, Eq)]
pub enum Exact {
    /// No sum exceeds its interval.
    Clear,
    /// The smallest b, for it the largest a, the sum, and each module's tape.
    Over { a: u64, b: u64, demand: u64, tapes: Vec<Vec<u8>> },
}

/// The refusal for an argument outside its range.
const OUT_OF_RANGE: Refusal = Refusal { number: 9, place: 0 };
/// The refusal for lent memory that is too short.
const TOO_SHORT: Refusal = Refusal { number: 10, place: 0 };

/// The module of that number, or 9.
fn find_module(sheet: &Sheet, module: u64) -> Result<&Module, Refusal> {
    let index = usize::try_from(module).map_err(|_| OUT_OF_RANGE)?;
    sheet.modules.get(index).ok_or(OUT_OF_RANGE)
}

/// The mode of that number, or 9.
fn find_mode(module: &Module, mode: u64) -> Result<&Mode, Refusal> {
    let index = usize::try_from(mode).map_err(|_| OUT_OF_RANGE)?;
    module.modes.get(index).ok_or(OUT_OF_RANGE)
}

/// 9 unless the argument is in its range.
fn in_range(holds: bool) -> Result<(), Refusal> {
    holds.then_some(()).ok_or(OUT_OF_RANGE)
}

/// 10 unless the memory lent is at least what is wanted.
fn enough(lent: u64, wanted: u64) -> Result<(), Refusal> {
    (lent >= wanted).then_some(()).ok_or(TOO_SHORT)
}

/// The demand of a mode between mode times a and b, whether or not the mode is
/// reached.
pub fn mode_demand(bytes: &[u8], module: u64, mode: u64, a: u64, b: u64) -> Result<u64, Refusal> {
    let sheet = judge(bytes)?;
    let mode = find_mode(find_module(&sheet, module)?, mode)?;
    in_range(a <= b && b <= u64::from(mode.period))?;
    Ok(table::mode_demand(mode, a, b))
}

/// The largest demand in the first `length` ticks over all runs from a state,
/// whether or not its mode is reached.
pub fn state_demand(
    bytes: &[u8],
    module: u64,
    mode: u64,
    time: u64,
    length: u64,
    work_len: u64,
) -> Result<u64, Refusal> {
    let sheet = judge(bytes)?;
    let module = find_module(&sheet, module)?;
    in_range(time < u64::from(find_mode(module, mode)?.period))?;
    in_range(length <= u64::from(sheet.horizon))?;
    enough(work_len, WORK_LEN)?;
    Ok(table::state_demand(module, mode as usize, time as usize, length as usize))
}

/// The largest state demand over all states of those modes of a module that are
/// [`reached`].
pub fn module_demand(
    bytes: &[u8],
    module: u64,
    length: u64,
    work_len: u64,
) -> Result<u64, Refusal> {
    let sheet = judge(bytes)?;
    let module = find_module(&sheet, module)?;
    in_range(length <= u64::from(sheet.horizon))?;
    enough(work_len, WORK_LEN)?;
    Ok(table::module_demand(module, length as usize))
}

/// The quick test: whether for some length the sum of the module demands exceeds
/// it. Modes that are not [`reached`] play no part.
pub fn quick(bytes: &[u8], work_len: u64) -> Result<Quick, Refusal> {
    let sheet = judge(bytes)?;
    enough(work_len, WORK_LEN)?;
    Ok(table::quick(&sheet))
}

/// The exact test, with the tapes where it says over.
pub fn exact(bytes: &[u8], work_len: u64, tape_len: u64) -> Result<Exact, Refusal> {
    let sheet = judge(bytes)?;
    enough(work_len, WORK_LEN)?;
    enough(tape_len, sheet.modules.len() as u64 * u64::from(sheet.horizon))?;
    Ok(table::exact(&sheet))
}

/// Lays the tapes in the lent tape memory: module k's from byte k × b on.
/// Other bytes stay, and on clear all stay.
pub fn lay_tapes(answer: &Exact, memory: &mut [u8]) {
    if let Exact::Over { b, tapes, .. } = answer {
        for (tape, part) in tapes.iter().zip(memory.chunks_mut(*b as usize)) {
            part.copy_from_slice(tape);
        }
    }
}

/// What the program prints for this input: `refused N at P`, or the lines of
/// counts, quick test, exact test and tapes.
pub fn report(input: &[u8]) -> Vec<u8> {
    let read = &input[..input.len().min(MOST_INPUT)];
    let text = match judge(read) {
        Err(Refusal { number, place }) => format!("refused {number} at {place}\n"),
        Ok(sheet) => sheet_lines(&sheet, &table::quick(&sheet), &table::exact(&sheet)),
    };
    text.into_bytes()
}

/// The lines of a well-formed sheet with these answers.
pub fn sheet_lines(sheet: &Sheet, quick: &Quick, exact: &Exact) -> String {
    let Counts { modules, modes, tasks, switches } = sheet.counts();
    let mut lines = vec![format!(
        "sheet modules {modules} modes {modes} tasks {tasks} switches {switches} horizon {}",
        sheet.horizon
    )];
    lines.push(match quick {
        Quick::Clear => "quick clear".into(),
        Quick::Over { length, demand } => format!("quick over {length} demand {demand}"),
    });
    match exact {
        Exact::Clear => lines.push("exact clear".into()),
        Exact::Over { a, b, demand, tapes } => {
            lines.push(format!("exact over {a} {b} demand {demand}"));
            lines.extend(tapes.iter().enumerate().map(|(k, tape)| tape_line(k, tape)));
        }
    }
    lines.iter().map(|line| format!("{line}\n")).collect()
}

/// `run`, the module's number and its tape, one digit a tick.
fn tape_line(module: usize, tape: &[u8]) -> String {
    let digits: String = tape.iter().map(|mode| char::from(b'0' + mode)).collect();
    format!("run {module} {digits}")
}
