//! The calls over any bytes.

use crate::{answer, archive, Counts, Exact, Quick, Refusal};

/// Judges any bytes as a sheet: its counts and its horizon where it is accepted.
///
/// ```
/// use tyvasuri::{judge, Fault};
///
/// let counts = judge(include_bytes!("../../../examples/a_two_modules.sheet"))?;
/// assert_eq!((counts.modules, counts.modes, counts.horizon), (2, 3, 8));
/// assert_eq!(judge(b"no sheet").unwrap_err().fault, Fault::UnknownMark);
/// # Ok::<(), tyvasuri::Refusal>(())
/// ```
///
/// An SX may leave its mode at an instance's release or due tick, and not at a
/// tick between the two:
///
/// ```
/// use tyvasuri::{judge, Fault, Refusal};
///
/// let mut bytes = *include_bytes!("../../../examples/leave_by_sx.sheet");
/// // SX 1 4 stands at byte 22; the mode's instance is released at 0 and due at 4
/// assert_eq!(judge(&bytes)?.switches, 2);
/// bytes[26] = 2;
/// assert_eq!(judge(&bytes), Err(Refusal::new(Fault::BadSwitch, 22)));
/// # Ok::<(), tyvasuri::Refusal>(())
/// ```
///
/// # Errors
///
/// Refused for the first fault of the sheet, by documents 01 and 02.
pub fn judge(bytes: &[u8]) -> Result<Counts, Refusal> {
    answer::counts(archive::judge(bytes))
}

/// The demand of a mode between two mode times: the costs of the instances
/// released at or after `from` and due at or before `to`, inside one mode period.
///
/// ```
/// use tyvasuri::mode_demand;
///
/// let sheet = include_bytes!("../../../examples/a_two_modules.sheet");
/// assert_eq!(mode_demand(sheet, 1, 1, 1, 3)?, 2);
/// assert_eq!(mode_demand(sheet, 1, 1, 2, 4)?, 0);
/// # Ok::<(), tyvasuri::Refusal>(())
/// ```
///
/// # Errors
///
/// Refused for a fault of the sheet; else for a module, mode or mode time out of
/// range, where 0 ≤ `from` ≤ `to` ≤ the mode period.
pub fn mode_demand(
    bytes: &[u8],
    module: usize,
    mode: usize,
    from: usize,
    to: usize,
) -> Result<u32, Refusal> {
    answer::demand(archive::mode_demand(bytes, module, mode, from, to))
}

/// The demand of a starting state: the largest demand in the first `length`
/// ticks over all runs from the mode at that mode time.
///
/// ```
/// use tyvasuri::{state_demand, Sheet};
///
/// let sheet = include_bytes!("../../../examples/a_two_modules.sheet");
/// let mut work = [0; Sheet::WORK_LEN];
/// assert_eq!(state_demand(sheet, 1, 0, 1, 5, &mut work)?, 0);
/// assert_eq!(state_demand(sheet, 1, 0, 1, 6, &mut work)?, 2);
/// # Ok::<(), tyvasuri::Refusal>(())
/// ```
///
/// # Errors
///
/// Refused for a fault of the sheet; else for a module, mode, mode time or length
/// out of range, where the time is below the mode period and the length at most
/// the horizon; else for fewer than [`WORK_LEN`](crate::Sheet::WORK_LEN) numbers
/// of working memory.
pub fn state_demand(
    bytes: &[u8],
    module: usize,
    mode: usize,
    time: usize,
    length: usize,
    work: &mut [u32],
) -> Result<u32, Refusal> {
    answer::demand(archive::state_demand(bytes, module, mode, time, length, work))
}

/// The demand of a module: the largest state demand over all states of the modes
/// that are reached from mode 0.
///
/// Mode 0 is reached, and so is every target of a switch that a reached mode
/// lists. A mode that no chain of switches leads to does not count, since no run
/// is ever in it; its state demands are answered all the same.
///
/// ```
/// use tyvasuri::{module_demand, state_demand, Sheet};
///
/// let sheet = include_bytes!("../../../examples/factory_mode.sheet");
/// let mut work = [0; Sheet::WORK_LEN];
/// assert_eq!(module_demand(sheet, 0, 4, &mut work)?, 2);
/// // mode 2 of module 0, which nobody can enter
/// assert_eq!(state_demand(sheet, 0, 2, 0, 4, &mut work)?, 4);
/// # Ok::<(), tyvasuri::Refusal>(())
/// ```
///
/// # Errors
///
/// Refused for a fault of the sheet; else for a module or length out of range;
/// else for fewer than [`WORK_LEN`](crate::Sheet::WORK_LEN) numbers of working
/// memory.
pub fn module_demand(
    bytes: &[u8],
    module: usize,
    length: usize,
    work: &mut [u32],
) -> Result<u32, Refusal> {
    answer::demand(archive::module_demand(bytes, module, length, work))
}

/// The quick test: whether for some length up to the horizon the modules'
/// demands sum up to more than the length.
///
/// Where it says clear, the [exact test](exact_test) does too. Modes that nobody
/// can enter do not count; see [`module_demand`].
///
/// ```
/// use tyvasuri::{quick_test, Quick, Sheet};
///
/// let sheet = include_bytes!("../../../examples/h_smallest.sheet");
/// assert_eq!(quick_test(sheet, &mut [0; Sheet::WORK_LEN])?, Quick::Clear);
/// # Ok::<(), tyvasuri::Refusal>(())
/// ```
///
/// # Errors
///
/// Refused for a fault of the sheet; else for fewer than
/// [`WORK_LEN`](crate::Sheet::WORK_LEN) numbers of working memory.
pub fn quick_test(bytes: &[u8], work: &mut [u32]) -> Result<Quick, Refusal> {
    answer::quick(archive::quick_test(bytes, work))
}

/// The exact test: whether in some interval up to the horizon the modules'
/// largest demands over runs from tick 0 sum up to more than its ticks.
///
/// Where it says over, the tape memory holds the tapes from its first byte on;
/// all other bytes of it stay, and on clear all of them.
///
/// ```
/// use tyvasuri::{exact_test, Exact, Sheet};
///
/// let sheet = include_bytes!("../../../examples/f_alternating.sheet");
/// let mut tape = [0; 2 * 16];
/// let verdict = exact_test(sheet, &mut [0; Sheet::WORK_LEN], &mut tape)?;
/// assert_eq!(verdict, Exact::Clear);
/// # Ok::<(), tyvasuri::Refusal>(())
/// ```
///
/// # Errors
///
/// Refused for a fault of the sheet; else for fewer than
/// [`WORK_LEN`](crate::Sheet::WORK_LEN) numbers of working memory, or for fewer
/// than modules × horizon bytes of tape memory, clear or not.
pub fn exact_test<'t>(
    bytes: &[u8],
    work: &mut [u32],
    tape: &'t mut [u8],
) -> Result<Exact<'t>, Refusal> {
    let modules = judge(bytes)?.modules;
    answer::exact(archive::exact_test(bytes, work, tape), modules, tape)
}

/// The lines that the sheet program prints for an accepted sheet, each with its
/// newline. For a refused one it prints [`Refusal::line`].
///
/// ```
/// use tyvasuri::{report, Sheet};
///
/// let sheet = include_bytes!("../../../examples/h_smallest.sheet");
/// let mut out = [0; Sheet::REPORT_LEN];
/// let lines = report(sheet, &mut [0; Sheet::WORK_LEN], &mut [0; 1], &mut out)?;
/// assert_eq!(lines.lines().last(), Some("exact clear"));
/// # Ok::<(), tyvasuri::Refusal>(())
/// ```
///
/// # Errors
///
/// Refused as [`exact_test`] is, and for fewer than
/// [`REPORT_LEN`](crate::Sheet::REPORT_LEN) bytes of output memory.
pub fn report<'o>(
    bytes: &[u8],
    work: &mut [u32],
    tape: &mut [u8],
    out: &'o mut [u8],
) -> Result<&'o str, Refusal> {
    answer::report(archive::report(bytes, work, tape, out), out)
}
