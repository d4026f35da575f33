//! Memory that is large enough for every sheet.

use crate::Sheet;
use std::fmt;

/// Memory to lend, large enough for every sheet: for callers who keep none of
/// their own.
///
/// It is made once and lent to one call after the other; nothing that a call
/// left in it bears on the next.
///
/// ```
/// use tyvasuri::{Memory, Sheet};
///
/// let sheet = Sheet::judge(include_bytes!("../../../examples/b_shorter_horizon.sheet"))?;
/// let mut memory = Memory::new();
/// assert!(!sheet.quick_test_in(&mut memory).is_clear());
/// assert!(sheet.exact_test_in(&mut memory).is_clear());
/// # Ok::<(), tyvasuri::Refusal>(())
/// ```
pub struct Memory {
    pub(crate) work: Box<[u32]>,
    pub(crate) tape: Box<[u8]>,
    pub(crate) out: Box<[u8]>,
}

impl Memory {
    /// Memory for every sheet, about 96 KiB.
    ///
    /// ```
    /// let memory = tyvasuri::Memory::new();
    /// ```
    pub fn new() -> Memory {
        Memory {
            work: vec![0; Sheet::WORK_LEN].into(),
            tape: vec![0; Sheet::MOST_TAPE_LEN].into(),
            out: vec![0; Sheet::REPORT_LEN].into(),
        }
    }
}

impl Default for Memory {
    fn default() -> Memory {
        Memory::new()
    }
}

impl fmt::Debug for Memory {
    fn fmt(&self, f: &mut fmt::Formatter<'_>) -> fmt::Result {
        f.debug_struct("Memory").finish_non_exhaustive()
    }
}
