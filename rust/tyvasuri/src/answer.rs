//! The numbers that the archive answers with, read in full.
//!
//! The lowest byte of an answer is its kind: 0 answered, 1 to 10 the refusal
//! number, 255 over. From bit 8 on stand the place of a refusal, or the figures
//! that each function below reads. A number that is no answer of the function
//! that gave it ends the program; it is never read as another answer.

use crate::{Counts, Exact, Fault, Quick, Refusal, Tapes};

/// The kinds of an answer that is no refusal.
enum Kind {
    Answered,
    Over,
}

/// The answer's kind; a refusal is the error.
fn kind(answer: u64) -> Result<Kind, Refusal> {
    let number = answer as u8;
    match number {
        0 => Ok(Kind::Answered),
        255 => Ok(Kind::Over),
        _ => match Fault::from_number(number) {
            Some(fault) => Err(Refusal { fault, place: bits(answer, 8, 56) }),
            None => no_answer(answer),
        },
    }
}

/// So many bits of the answer, from bit `from` on.
fn bits(answer: u64, from: u32, width: u32) -> usize {
    ((answer >> from) & ((1 << width) - 1)) as usize
}

/// Makes sure that the answer ends before bit `end`.
fn ends_before(answer: u64, end: u32) {
    if answer >> end != 0 {
        no_answer(answer);
    }
}

/// Ends the program on a number that none of the proved functions gives there.
fn no_answer(answer: u64) -> ! {
    unreachable!("{answer:#x} is no answer of the checker: another archive is linked in its place")
}

/// The judge's answer.
pub(crate) fn counts(answer: u64) -> Result<Counts, Refusal> {
    match kind(answer)? {
        Kind::Answered => Ok(Counts {
            modules: bits(answer, 8, 8),
            modes: bits(answer, 16, 8),
            tasks: bits(answer, 24, 16),
            switches: bits(answer, 40, 8),
            horizon: bits(answer, 48, 16),
        }),
        Kind::Over => no_answer(answer),
    }
}

/// The answer of the three demands.
pub(crate) fn demand(answer: u64) -> Result<u32, Refusal> {
    match kind(answer)? {
        Kind::Answered => {
            ends_before(answer, 40);
            Ok(bits(answer, 8, 32) as u32)
        }
        Kind::Over => no_answer(answer),
    }
}

/// The quick test's answer.
pub(crate) fn quick(answer: u64) -> Result<Quick, Refusal> {
    match kind(answer)? {
        Kind::Answered => {
            ends_before(answer, 8);
            Ok(Quick::Clear)
        }
        Kind::Over => {
            ends_before(answer, 56);
            Ok(Quick::Over { length: bits(answer, 8, 16), demand: bits(answer, 24, 32) as u32 })
        }
    }
}

/// The exact test's answer, with the tapes of so many modules in the tape memory.
pub(crate) fn exact(answer: u64, modules: usize, tape: &[u8]) -> Result<Exact<'_>, Refusal> {
    match kind(answer)? {
        Kind::Answered => {
            ends_before(answer, 8);
            Ok(Exact::Clear)
        }
        Kind::Over => {
            let end = bits(answer, 24, 16);
            Ok(Exact::Over {
                start: bits(answer, 8, 16),
                end,
                demand: bits(answer, 40, 24) as u32,
                tapes: Tapes::laid_in(tape, modules, end).unwrap_or_else(|| no_answer(answer)),
            })
        }
    }
}

/// The report's answer: its text, the first bytes of the output memory.
pub(crate) fn report(answer: u64, out: &[u8]) -> Result<&str, Refusal> {
    match kind(answer)? {
        Kind::Answered => {
            let lines = out.get(..bits(answer, 8, 56)).unwrap_or_else(|| no_answer(answer));
            Ok(std::str::from_utf8(lines).unwrap_or_else(|_| no_answer(answer)))
        }
        Kind::Over => no_answer(answer),
    }
}

#[cfg(test)]
mod tests {
    use super::*;
    use std::panic::{catch_unwind, UnwindSafe};

    /// Whether reading a number ends the program.
    fn is_no_answer<T>(read: impl FnOnce() -> T + UnwindSafe) -> bool {
        catch_unwind(read).is_err()
    }

    #[test]
    fn counts_fill_the_number() {
        let most = 8 << 8 | 64 << 16 | 256 << 24 | 128 << 40 | 2000 << 48;
        let counts = counts(most).unwrap();
        assert_eq!((counts.modules, counts.modes), (8, 64));
        assert_eq!((counts.tasks, counts.switches, counts.horizon), (256, 128, 2000));
    }

    #[test]
    fn every_refusal_is_read_with_its_place() {
        for &fault in Fault::ALL {
            let answer = u64::from(fault.number()) | 0xAB_CDEF << 8;
            let refusal = Refusal { fault, place: 0xAB_CDEF };
            assert_eq!(counts(answer).err(), Some(refusal));
            assert_eq!(demand(answer), Err(refusal));
            assert_eq!(quick(answer), Err(refusal));
            assert_eq!(exact(answer, 1, &[]), Err(refusal));
            assert_eq!(report(answer, &[]), Err(refusal));
        }
    }

    #[test]
    fn figures_are_read_at_their_full_width() {
        assert_eq!(demand(0xFFFF_FFFF << 8), Ok(u32::MAX));
        let over = Quick::Over { length: 0xFFFE, demand: 0xFFFF_FFFD };
        assert_eq!(quick(255 | 0xFFFE << 8 | 0xFFFF_FFFD << 24), Ok(over));
        let tape = [1, 2, 3, 4, 5, 6, 7];
        let Ok(Exact::Over { start, end, demand, tapes }) =
            exact(255 | 2 << 8 | 3 << 24 | 0xFF_FFFD << 40, 2, &tape)
        else {
            panic!("the number says over");
        };
        assert_eq!((start, end, demand), (2, 3, 0xFF_FFFD));
        assert!(tapes.iter().eq([[1, 2, 3], [4, 5, 6]]));
        assert_eq!(report(3 << 8, b"abcd"), Ok("abc"));
    }

    #[test]
    fn unknown_kinds_are_no_answers() {
        for kind in 11..=254 {
            assert!(is_no_answer(|| counts(kind)));
            assert!(is_no_answer(|| demand(kind)));
            assert!(is_no_answer(|| quick(kind)));
            assert!(is_no_answer(|| exact(kind, 1, &[])));
            assert!(is_no_answer(|| report(kind, &[])));
        }
    }

    #[test]
    fn only_the_tests_are_over() {
        assert!(is_no_answer(|| counts(255)));
        assert!(is_no_answer(|| demand(255)));
        assert!(is_no_answer(|| report(255, &[])));
    }

    #[test]
    fn bits_past_the_figures_are_no_answers() {
        assert!(is_no_answer(|| demand(1 << 40)));
        assert!(is_no_answer(|| quick(1 << 8)));
        assert!(is_no_answer(|| quick(255 | 1 << 56)));
        assert!(is_no_answer(|| exact(1 << 8, 1, &[])));
        assert!(is_no_answer(|| report(1 << 40, &[])));
    }

    #[test]
    fn figures_past_the_memory_are_no_answers() {
        assert!(is_no_answer(|| exact(255 | 4 << 24, 2, &[0; 7])));
        assert!(is_no_answer(|| exact(255, 2, &[0; 7])));
        assert!(is_no_answer(|| report(5 << 8, b"abcd")));
        assert!(is_no_answer(|| report(1 << 8, b"\xFF")));
    }
}
