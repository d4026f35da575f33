//! Refusals: what was wrong, and where.

use std::error::Error;
use std::fmt;

/// What a call is refused for: one case for each refusal number of document 01.
/// More numbers may come, so that a `match` has an arm for the others.
///
/// ```
/// use tyvasuri::Fault;
///
/// assert_eq!(Fault::BadEnd.number(), 7);
/// assert_eq!(Fault::from_number(7), Some(Fault::BadEnd));
/// assert_eq!(Fault::MemoryTooShort.to_string(), "the lent memory is too short");
/// ```
#[derive(Clone, Copy, Debug, PartialEq, Eq, PartialOrd, Ord, Hash)]
#[repr(u8)]
#[non_exhaustive]
pub enum Fault {
    /// 1: the sheet ends where a mark or a field is wanted.
    CutShort = 1,
    /// 2: a mark is not in the list.
    UnknownMark = 2,
    /// 3: a mark is out of order, or a module is closed or exceeded against its
    /// number of modes.
    OutOfOrder = 3,
    /// 4: a ninth ML, a 17th TK in a mode, a 257th TK or a 129th of SW and SX
    /// together.
    PastCount = 4,
    /// 5: a field of HZ, ML, MD or TK breaks its rule.
    BadField = 5,
    /// 6: a field of SW or SX breaks its rule.
    BadSwitch = 6,
    /// 7: EN's number is wrong.
    BadEnd = 7,
    /// 8: bytes stand after EN.
    BytesAfter = 8,
    /// 9: a module, mode, mode time or length is out of its range.
    OutOfRange = 9,
    /// 10: the lent memory is too short.
    MemoryTooShort = 10,
}

impl Fault {
    /// Every fault, in the order of the numbers.
    ///
    /// ```
    /// use tyvasuri::Fault;
    ///
    /// assert!(Fault::ALL.iter().map(|fault| fault.number()).eq(1..=10));
    /// ```
    pub const ALL: &'static [Fault] = &[
        Fault::CutShort,
        Fault::UnknownMark,
        Fault::OutOfOrder,
        Fault::PastCount,
        Fault::BadField,
        Fault::BadSwitch,
        Fault::BadEnd,
        Fault::BytesAfter,
        Fault::OutOfRange,
        Fault::MemoryTooShort,
    ];

    /// The refusal number of document 01.
    ///
    /// ```
    /// assert_eq!(tyvasuri::Fault::CutShort.number(), 1);
    /// ```
    pub const fn number(self) -> u8 {
        self as u8
    }

    /// The fault of a refusal number, where there is one.
    ///
    /// ```
    /// use tyvasuri::Fault;
    ///
    /// assert_eq!(Fault::from_number(10), Some(Fault::MemoryTooShort));
    /// assert_eq!(Fault::from_number(11), None);
    /// ```
    pub fn from_number(number: u8) -> Option<Fault> {
        Fault::ALL.iter().copied().find(|fault| fault.number() == number)
    }
}

impl fmt::Display for Fault {
    fn fmt(&self, f: &mut fmt::Formatter<'_>) -> fmt::Result {
        f.write_str(match self {
            Fault::CutShort => "the sheet ends where a mark or a field is wanted",
            Fault::UnknownMark => "the mark is none of HZ, ML, MD, TK, SW, SX and EN",
            Fault::OutOfOrder => {
                "the mark is out of order, or the module has fewer or more modes than it states"
            }
            Fault::PastCount => {
                "it is a ninth ML, a 17th TK in a mode, a 257th TK or a 129th of SW and SX together"
            }
            Fault::BadField => "a field of HZ, ML, MD or TK breaks its rule",
            Fault::BadSwitch => "a field of SW or SX breaks its rule",
            Fault::BadEnd => "EN's number is not that of the records before it",
            Fault::BytesAfter => "bytes stand after EN",
            Fault::OutOfRange => "a module, mode, mode time or length is out of range",
            Fault::MemoryTooShort => "the lent memory is too short",
        })
    }
}

/// A refused call: its fault, and the fault's place in the sheet.
///
/// A refused call has changed no byte of the lent memory.
///
/// ```
/// use tyvasuri::{judge, Fault, Refusal};
///
/// let refusal = judge(b"HZ\x01\0ML\x01\0MD\x01\0EN\x04\0").unwrap_err();
/// assert_eq!(refusal, Refusal::new(Fault::BadEnd, 12));
/// assert_eq!(
///     refusal.to_string(),
///     "refusal 7: EN's number is not that of the records before it, in the record at byte 12"
/// );
/// ```
#[derive(Clone, Copy, Debug, PartialEq, Eq, Hash)]
#[non_exhaustive]
pub struct Refusal {
    /// What is wrong.
    pub fault: Fault,
    /// The first byte of the bad record; for [`Fault::BytesAfter`] the first
    /// byte after EN; for [`Fault::OutOfRange`] and [`Fault::MemoryTooShort`] 0.
    pub place: usize,
}

impl Refusal {
    /// The refusal for a fault at a place.
    ///
    /// ```
    /// use tyvasuri::{judge, Fault, Refusal};
    ///
    /// assert_eq!(judge(b"HZ"), Err(Refusal::new(Fault::CutShort, 0)));
    /// ```
    pub const fn new(fault: Fault, place: usize) -> Refusal {
        Refusal { fault, place }
    }

    /// The refusal number of document 01.
    ///
    /// ```
    /// assert_eq!(tyvasuri::judge(b"").unwrap_err().number(), 1);
    /// ```
    pub const fn number(&self) -> u8 {
        self.fault.number()
    }

    /// The line that the sheet program prints for a refused sheet, without its
    /// newline.
    ///
    /// ```
    /// assert_eq!(tyvasuri::judge(b"HZ").unwrap_err().line(), "refused 1 at 0");
    /// ```
    pub fn line(&self) -> String {
        format!("refused {} at {}", self.number(), self.place)
    }
}

impl fmt::Display for Refusal {
    fn fmt(&self, f: &mut fmt::Formatter<'_>) -> fmt::Result {
        write!(f, "refusal {}: {}", self.number(), self.fault)?;
        match self.fault {
            Fault::OutOfRange | Fault::MemoryTooShort => Ok(()),
            Fault::BytesAfter => write!(f, ", from byte {} on", self.place),
            _ => write!(f, ", in the record at byte {}", self.place),
        }
    }
}

impl Error for Refusal {}
