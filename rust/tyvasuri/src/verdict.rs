//! The verdicts of the quick and the exact test, and the tapes.

use std::slice::ChunksExact;

/// The verdict of the quick test.
///
/// ```
/// use tyvasuri::{quick_test, Quick, Sheet};
///
/// let sheet = include_bytes!("../../../examples/a_two_modules.sheet");
/// let verdict = quick_test(sheet, &mut [0; Sheet::WORK_LEN])?;
/// assert!(matches!(verdict, Quick::Over { length: 3, demand: 4, .. }));
/// # Ok::<(), tyvasuri::Refusal>(())
/// ```
#[derive(Clone, Copy, Debug, PartialEq, Eq, Hash)]
#[must_use = "a verdict that is not read lets a sheet pass that is over"]
pub enum Quick {
    /// For no length up to the horizon does the sum of the modules' demands
    /// exceed the length.
    Clear,
    /// For some length it does.
    #[non_exhaustive]
    Over {
        /// The smallest such length.
        length: usize,
        /// The sum of the modules' demands for that length.
        demand: u32,
    },
}

impl Quick {
    /// Whether the verdict is clear.
    ///
    /// ```
    /// assert!(tyvasuri::Quick::Clear.is_clear());
    /// ```
    pub const fn is_clear(&self) -> bool {
        matches!(self, Quick::Clear)
    }
}

/// The verdict of the exact test.
///
/// ```
/// use tyvasuri::{exact_test, Exact, Sheet};
///
/// let sheet = include_bytes!("../../../examples/a_two_modules.sheet");
/// let mut tape = [0; Sheet::MOST_TAPE_LEN];
/// match exact_test(sheet, &mut [0; Sheet::WORK_LEN], &mut tape)? {
///     Exact::Clear => panic!("sheet A is over"),
///     Exact::Over { start, end, demand, tapes, .. } => {
///         assert_eq!((start, end, demand), (4, 7, 4));
///         assert_eq!(tapes.tape(1), Some(&[0, 0, 0, 0, 1, 1, 1][..]));
///     }
/// }
/// # Ok::<(), tyvasuri::Refusal>(())
/// ```
#[derive(Clone, Copy, Debug, PartialEq, Eq, Hash)]
#[must_use = "a verdict that is not read lets a sheet pass that is over"]
pub enum Exact<'t> {
    /// In no interval up to the horizon does the sum of the modules' largest
    /// demands exceed the interval's ticks.
    Clear,
    /// In some interval it does.
    #[non_exhaustive]
    Over {
        /// The largest start of such an interval with this end.
        start: usize,
        /// The smallest end of such an interval.
        end: usize,
        /// The sum of the modules' largest demands in the interval.
        demand: u32,
        /// For each module a run that reaches its largest demand there.
        tapes: Tapes<'t>,
    },
}

impl Exact<'_> {
    /// Whether the verdict is clear.
    ///
    /// ```
    /// assert!(tyvasuri::Exact::Clear.is_clear());
    /// ```
    pub const fn is_clear(&self) -> bool {
        matches!(self, Exact::Clear)
    }
}

/// The witness of an over exact test: one tape for each module, with the mode's
/// number for each tick before the interval's end.
///
/// Of the runs that reach the module's largest demand in the interval a tape
/// shows the first in dictionary order.
///
/// ```
/// use tyvasuri::{Exact, Memory, Sheet};
///
/// let sheet = Sheet::judge(include_bytes!("../../../examples/a_two_modules.sheet"))?;
/// let mut memory = Memory::new();
/// let Exact::Over { tapes, .. } = sheet.exact_test_in(&mut memory) else {
///     panic!("sheet A is over");
/// };
/// for (module, tape) in tapes.into_iter().enumerate() {
///     println!("module {module} is in the modes {tape:?}");
/// }
/// # Ok::<(), tyvasuri::Refusal>(())
/// ```
#[derive(Clone, Copy, Debug, PartialEq, Eq, Hash)]
pub struct Tapes<'t> {
    /// The tapes, one after the other.
    bytes: &'t [u8],
    /// The ticks of one tape, 1 at least.
    end: usize,
}

impl<'t> Tapes<'t> {
    /// The tapes of so many modules in the tape memory: module k's tape begins
    /// at byte k × end. None where the memory does not hold them.
    pub(crate) fn laid_in(memory: &'t [u8], modules: usize, end: usize) -> Option<Tapes<'t>> {
        let bytes = memory.get(..modules * end)?;
        (end > 0).then_some(Tapes { bytes, end })
    }

    /// The tape of a module, or none past the last module.
    ///
    /// ```
    /// use tyvasuri::{Exact, Memory, Sheet};
    ///
    /// let sheet = Sheet::judge(include_bytes!("../../../examples/a_two_modules.sheet"))?;
    /// let mut memory = Memory::new();
    /// let Exact::Over { tapes, .. } = sheet.exact_test_in(&mut memory) else {
    ///     panic!("sheet A is over");
    /// };
    /// assert_eq!(tapes.tape(0), Some(&[0; 7][..]));
    /// assert_eq!(tapes.tape(2), None);
    /// # Ok::<(), tyvasuri::Refusal>(())
    /// ```
    pub fn tape(&self, module: usize) -> Option<&'t [u8]> {
        self.iter().nth(module)
    }

    /// The tapes, module after module.
    ///
    /// ```
    /// use tyvasuri::{Exact, Memory, Sheet};
    ///
    /// let sheet = Sheet::judge(include_bytes!("../../../examples/a_two_modules.sheet"))?;
    /// let mut memory = Memory::new();
    /// let Exact::Over { end, tapes, .. } = sheet.exact_test_in(&mut memory) else {
    ///     panic!("sheet A is over");
    /// };
    /// assert_eq!(tapes.iter().len(), sheet.counts().modules);
    /// assert!(tapes.iter().all(|tape| tape.len() == end));
    /// # Ok::<(), tyvasuri::Refusal>(())
    /// ```
    pub fn iter(&self) -> ChunksExact<'t, u8> {
        self.bytes.chunks_exact(self.end)
    }
}

impl<'t> IntoIterator for Tapes<'t> {
    type Item = &'t [u8];
    type IntoIter = ChunksExact<'t, u8>;

    fn into_iter(self) -> Self::IntoIter {
        self.iter()
    }
}
