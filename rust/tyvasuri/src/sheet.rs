//! An accepted sheet, and the calls on it.

use crate::{query, Exact, Memory, Quick, Refusal};

/// The counts of an accepted sheet, and its horizon.
///
/// ```
/// use tyvasuri::judge;
///
/// let counts = judge(include_bytes!("../../../examples/a_two_modules.sheet"))?;
/// assert_eq!((counts.modules, counts.modes, counts.tasks, counts.switches), (2, 3, 3, 1));
/// assert_eq!(counts.horizon, 8);
/// # Ok::<(), tyvasuri::Refusal>(())
/// ```
#[derive(Clone, Copy, Debug, PartialEq, Eq, Hash)]
#[non_exhaustive]
pub struct Counts {
    /// The number of modules, 1 to 8.
    pub modules: usize,
    /// The number of modes of all modules.
    pub modes: usize,
    /// The number of tasks of all modes.
    pub tasks: usize,
    /// The number of switches of all modes, SW and SX together.
    pub switches: usize,
    /// The horizon in ticks, 1 to 2,000.
    pub horizon: usize,
}

/// An accepted sheet: bytes that the judge has found well formed.
///
/// A call that needs memory comes in two forms: over slices that the caller
/// lends, and, with `_in` at its name's end, over a [`Memory`], which is never
/// too short.
///
/// ```
/// use tyvasuri::{Memory, Quick, Sheet};
///
/// let sheet = Sheet::judge(include_bytes!("../../../examples/a_two_modules.sheet"))?;
/// let mut memory = Memory::new();
/// assert!(matches!(sheet.quick_test_in(&mut memory), Quick::Over { length: 3, demand: 4, .. }));
/// assert!(!sheet.exact_test_in(&mut memory).is_clear());
/// # Ok::<(), tyvasuri::Refusal>(())
/// ```
#[derive(Clone, Copy, Debug, PartialEq, Eq)]
pub struct Sheet<'s> {
    bytes: &'s [u8],
    counts: Counts,
}

impl<'s> Sheet<'s> {
    /// The bytes of the longest sheet. One byte more is enough to read: a longer
    /// input is refused whatever follows.
    ///
    /// ```
    /// use std::io::Read;
    /// use tyvasuri::Sheet;
    ///
    /// let input: &[u8] = include_bytes!("../../../examples/a_two_modules.sheet");
    /// let mut bytes = Vec::new();
    /// input.take(Sheet::MOST_BYTES as u64 + 1).read_to_end(&mut bytes)?;
    /// assert!(Sheet::judge(&bytes).is_ok());
    /// # Ok::<(), std::io::Error>(())
    /// ```
    pub const MOST_BYTES: usize = 3_624;

    /// The numbers of working memory that a call wants at least.
    ///
    /// ```
    /// use tyvasuri::{Fault, Sheet};
    ///
    /// let sheet = Sheet::judge(include_bytes!("../../../examples/h_smallest.sheet"))?;
    /// assert!(sheet.quick_test(&mut [0; Sheet::WORK_LEN]).is_ok());
    /// let refusal = sheet.quick_test(&mut [0; Sheet::WORK_LEN - 1]).unwrap_err();
    /// assert_eq!(refusal.fault, Fault::MemoryTooShort);
    /// # Ok::<(), tyvasuri::Refusal>(())
    /// ```
    pub const WORK_LEN: usize = 16_384;

    /// The bytes of output memory that the report wants at least, enough for
    /// every report.
    ///
    /// ```
    /// use tyvasuri::{Memory, Sheet};
    ///
    /// let sheet = Sheet::judge(include_bytes!("../../../examples/h_smallest.sheet"))?;
    /// assert!(sheet.report_in(&mut Memory::new()).len() <= Sheet::REPORT_LEN);
    /// # Ok::<(), tyvasuri::Refusal>(())
    /// ```
    pub const REPORT_LEN: usize = 16_384;

    /// The bytes of tape memory that are enough for every sheet: 8 modules and a
    /// horizon of 2,000.
    ///
    /// ```
    /// use tyvasuri::Sheet;
    ///
    /// let sheet = Sheet::judge(include_bytes!("../../../examples/h_smallest.sheet"))?;
    /// assert!(sheet.tape_len() <= Sheet::MOST_TAPE_LEN);
    /// # Ok::<(), tyvasuri::Refusal>(())
    /// ```
    pub const MOST_TAPE_LEN: usize = 8 * 2_000;

    /// The sheet in these bytes, if they are one.
    ///
    /// ```
    /// use tyvasuri::{Fault, Sheet};
    ///
    /// let bytes = b"HZ\x01\0ML\x01\0MD\x01\0EN\x03\0";
    /// assert!(Sheet::judge(bytes).is_ok());
    /// let refusal = Sheet::judge(&bytes[..15]).unwrap_err();
    /// assert_eq!((refusal.fault, refusal.place), (Fault::CutShort, 12));
    /// ```
    ///
    /// # Errors
    ///
    /// Refused for the first fault of the sheet, by documents 01 and 02.
    pub fn judge(bytes: &'s [u8]) -> Result<Sheet<'s>, Refusal> {
        let counts = query::judge(bytes)?;
        Ok(Sheet { bytes, counts })
    }

    /// The sheet's bytes.
    ///
    /// ```
    /// let bytes = include_bytes!("../../../examples/h_smallest.sheet");
    /// assert_eq!(tyvasuri::Sheet::judge(bytes)?.bytes(), bytes);
    /// # Ok::<(), tyvasuri::Refusal>(())
    /// ```
    pub const fn bytes(&self) -> &'s [u8] {
        self.bytes
    }

    /// The sheet's counts.
    ///
    /// ```
    /// use tyvasuri::Sheet;
    ///
    /// let sheet = Sheet::judge(include_bytes!("../../../examples/a_two_modules.sheet"))?;
    /// assert_eq!(sheet.counts().tasks, 3);
    /// # Ok::<(), tyvasuri::Refusal>(())
    /// ```
    pub const fn counts(&self) -> Counts {
        self.counts
    }

    /// The sheet's horizon, in ticks.
    ///
    /// ```
    /// use tyvasuri::Sheet;
    ///
    /// let sheet = Sheet::judge(include_bytes!("../../../examples/a_two_modules.sheet"))?;
    /// assert_eq!(sheet.horizon(), 8);
    /// # Ok::<(), tyvasuri::Refusal>(())
    /// ```
    pub const fn horizon(&self) -> usize {
        self.counts.horizon
    }

    /// The bytes of tape memory that this sheet wants: modules × horizon.
    ///
    /// ```
    /// use tyvasuri::Sheet;
    ///
    /// let sheet = Sheet::judge(include_bytes!("../../../examples/a_two_modules.sheet"))?;
    /// assert_eq!(sheet.tape_len(), 16);
    /// # Ok::<(), tyvasuri::Refusal>(())
    /// ```
    pub const fn tape_len(&self) -> usize {
        self.counts.modules * self.counts.horizon
    }

    /// The demand of a mode between two mode times; see
    /// [`mode_demand`](crate::mode_demand).
    ///
    /// ```
    /// use tyvasuri::Sheet;
    ///
    /// let sheet = Sheet::judge(include_bytes!("../../../examples/a_two_modules.sheet"))?;
    /// assert_eq!(sheet.mode_demand(0, 0, 0, 4)?, 2);
    /// # Ok::<(), tyvasuri::Refusal>(())
    /// ```
    ///
    /// # Errors
    ///
    /// Refused for a module, mode or mode time out of range.
    pub fn mode_demand(
        &self,
        module: usize,
        mode: usize,
        from: usize,
        to: usize,
    ) -> Result<u32, Refusal> {
        query::mode_demand(self.bytes, module, mode, from, to)
    }

    /// The demand of a starting state; see [`state_demand`](crate::state_demand).
    ///
    /// ```
    /// use tyvasuri::Sheet;
    ///
    /// let sheet = Sheet::judge(include_bytes!("../../../examples/a_two_modules.sheet"))?;
    /// assert_eq!(sheet.state_demand(1, 0, 1, 6, &mut [0; Sheet::WORK_LEN])?, 2);
    /// # Ok::<(), tyvasuri::Refusal>(())
    /// ```
    ///
    /// # Errors
    ///
    /// Refused for a module, mode, mode time or length out of range, and for
    /// working memory that is too short.
    pub fn state_demand(
        &self,
        module: usize,
        mode: usize,
        time: usize,
        length: usize,
        work: &mut [u32],
    ) -> Result<u32, Refusal> {
        query::state_demand(self.bytes, module, mode, time, length, work)
    }

    /// As [`state_demand`](Sheet::state_demand), with memory that is long enough.
    ///
    /// ```
    /// use tyvasuri::{Memory, Sheet};
    ///
    /// let sheet = Sheet::judge(include_bytes!("../../../examples/a_two_modules.sheet"))?;
    /// assert_eq!(sheet.state_demand_in(1, 0, 1, 6, &mut Memory::new())?, 2);
    /// # Ok::<(), tyvasuri::Refusal>(())
    /// ```
    ///
    /// # Errors
    ///
    /// Refused for a module, mode, mode time or length out of range.
    pub fn state_demand_in(
        &self,
        module: usize,
        mode: usize,
        time: usize,
        length: usize,
        memory: &mut Memory,
    ) -> Result<u32, Refusal> {
        self.state_demand(module, mode, time, length, &mut memory.work)
    }

    /// The demand of a module; see [`module_demand`](crate::module_demand).
    ///
    /// ```
    /// use tyvasuri::Sheet;
    ///
    /// let sheet = Sheet::judge(include_bytes!("../../../examples/a_two_modules.sheet"))?;
    /// assert_eq!(sheet.module_demand(0, 8, &mut [0; Sheet::WORK_LEN])?, 4);
    /// # Ok::<(), tyvasuri::Refusal>(())
    /// ```
    ///
    /// # Errors
    ///
    /// Refused for a module or length out of range, and for working memory that
    /// is too short.
    pub fn module_demand(
        &self,
        module: usize,
        length: usize,
        work: &mut [u32],
    ) -> Result<u32, Refusal> {
        query::module_demand(self.bytes, module, length, work)
    }

    /// As [`module_demand`](Sheet::module_demand), with memory that is long enough.
    ///
    /// ```
    /// use tyvasuri::{Memory, Sheet};
    ///
    /// let sheet = Sheet::judge(include_bytes!("../../../examples/a_two_modules.sheet"))?;
    /// assert_eq!(sheet.module_demand_in(0, 8, &mut Memory::new())?, 4);
    /// # Ok::<(), tyvasuri::Refusal>(())
    /// ```
    ///
    /// # Errors
    ///
    /// Refused for a module or length out of range.
    pub fn module_demand_in(
        &self,
        module: usize,
        length: usize,
        memory: &mut Memory,
    ) -> Result<u32, Refusal> {
        self.module_demand(module, length, &mut memory.work)
    }

    /// The quick test; see [`quick_test`](crate::quick_test).
    ///
    /// ```
    /// use tyvasuri::{Quick, Sheet};
    ///
    /// let sheet = Sheet::judge(include_bytes!("../../../examples/g_alternating_over.sheet"))?;
    /// let verdict = sheet.quick_test(&mut [0; Sheet::WORK_LEN])?;
    /// assert!(matches!(verdict, Quick::Over { length: 8, demand: 13, .. }));
    /// # Ok::<(), tyvasuri::Refusal>(())
    /// ```
    ///
    /// # Errors
    ///
    /// Refused for working memory that is too short.
    pub fn quick_test(&self, work: &mut [u32]) -> Result<Quick, Refusal> {
        query::quick_test(self.bytes, work)
    }

    /// The quick test, with memory that is long enough: it always has a verdict.
    ///
    /// ```
    /// use tyvasuri::{Memory, Quick, Sheet};
    ///
    /// let sheet = Sheet::judge(include_bytes!("../../../examples/h_smallest.sheet"))?;
    /// assert_eq!(sheet.quick_test_in(&mut Memory::new()), Quick::Clear);
    /// # Ok::<(), tyvasuri::Refusal>(())
    /// ```
    pub fn quick_test_in(&self, memory: &mut Memory) -> Quick {
        given(self.quick_test(&mut memory.work))
    }

    /// The exact test; see [`exact_test`](crate::exact_test).
    ///
    /// ```
    /// use tyvasuri::{Exact, Sheet};
    ///
    /// let sheet = Sheet::judge(include_bytes!("../../../examples/g_alternating_over.sheet"))?;
    /// let mut tape = vec![0; sheet.tape_len()];
    /// let verdict = sheet.exact_test(&mut [0; Sheet::WORK_LEN], &mut tape)?;
    /// assert!(matches!(verdict, Exact::Over { start: 0, end: 8, demand: 10, .. }));
    /// # Ok::<(), tyvasuri::Refusal>(())
    /// ```
    ///
    /// # Errors
    ///
    /// Refused for working memory or tape memory that is too short.
    pub fn exact_test<'t>(
        &self,
        work: &mut [u32],
        tape: &'t mut [u8],
    ) -> Result<Exact<'t>, Refusal> {
        query::exact_test(self.bytes, work, tape)
    }

    /// The exact test, with memory that is long enough: it always has a verdict.
    ///
    /// ```
    /// use tyvasuri::{Exact, Memory, Sheet};
    ///
    /// let sheet = Sheet::judge(include_bytes!("../../../examples/h_smallest.sheet"))?;
    /// assert_eq!(sheet.exact_test_in(&mut Memory::new()), Exact::Clear);
    /// # Ok::<(), tyvasuri::Refusal>(())
    /// ```
    pub fn exact_test_in<'t>(&self, memory: &'t mut Memory) -> Exact<'t> {
        given(self.exact_test(&mut memory.work, &mut memory.tape))
    }

    /// The lines that the sheet program prints; see [`report`](crate::report).
    ///
    /// ```
    /// use tyvasuri::Sheet;
    ///
    /// let sheet = Sheet::judge(include_bytes!("../../../examples/a_two_modules.sheet"))?;
    /// let mut out = [0; Sheet::REPORT_LEN];
    /// let lines = sheet.report(&mut [0; Sheet::WORK_LEN], &mut [0; 16], &mut out)?;
    /// assert_eq!(lines, include_str!("../../../examples/a_two_modules.out"));
    /// # Ok::<(), tyvasuri::Refusal>(())
    /// ```
    ///
    /// # Errors
    ///
    /// Refused for working, tape or output memory that is too short.
    pub fn report<'o>(
        &self,
        work: &mut [u32],
        tape: &mut [u8],
        out: &'o mut [u8],
    ) -> Result<&'o str, Refusal> {
        query::report(self.bytes, work, tape, out)
    }

    /// The lines that the sheet program prints, with memory that is long enough.
    ///
    /// ```
    /// use tyvasuri::{Memory, Sheet};
    ///
    /// let sheet = Sheet::judge(include_bytes!("../../../examples/a_two_modules.sheet"))?;
    /// print!("{}", sheet.report_in(&mut Memory::new()));
    /// # Ok::<(), tyvasuri::Refusal>(())
    /// ```
    pub fn report_in<'o>(&self, memory: &'o mut Memory) -> &'o str {
        given(self.report(&mut memory.work, &mut memory.tape, &mut memory.out))
    }
}

/// What a call gives that has an accepted sheet, no argument, and memory enough.
fn given<T>(answer: Result<T, Refusal>) -> T {
    answer.unwrap_or_else(|refusal| {
        unreachable!("nothing is left to refuse, and yet the archive gave {refusal}")
    })
}
