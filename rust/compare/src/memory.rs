//! Memory to lend, filled with noise, so that whatever a call changes shows.

use crate::query::Query;
use second::generate::Rng;
use tyvasuri::Sheet;

/// The cells past the most that a call uses; they can be lent, and are watched.
pub const SPARE: usize = 64;

/// How many different fillings there are.
const FILLINGS: usize = 509;

/// The three kinds of memory.
pub struct Memory {
    pub work: Lent<u32>,
    pub tape: Lent<u8>,
    pub out: Lent<u8>,
}

/// One kind of memory.
pub struct Lent<T> {
    /// A filling is a stretch of this.
    noise: Vec<T>,
    filling: usize,
    cells: Vec<T>,
}

/// What a call has to leave in the memory lent to it; all other cells stay.
#[derive(Default)]
pub struct Left {
    /// So many numbers of the working memory may be anything.
    pub work: usize,
    /// The first bytes of the tape memory.
    pub tape: Vec<u8>,
    /// The first bytes of the output memory.
    pub out: Vec<u8>,
}

impl Memory {
    /// Memory that is enough for every sheet.
    pub fn new() -> Memory {
        let mut rng = Rng::new(0);
        Memory {
            work: Lent::new(Sheet::WORK_LEN, || rng.bits() as u32),
            tape: Lent::new(Sheet::MOST_TAPE_LEN, || rng.bits() as u8),
            out: Lent::new(Sheet::REPORT_LEN, || rng.bits() as u8),
        }
    }

    /// Chooses the filling for the calls to come.
    pub fn choose_filling(&mut self, seed: u64) {
        let filling = (seed % FILLINGS as u64) as usize;
        self.work.filling = filling;
        self.tape.filling = filling;
        self.out.filling = filling;
    }

    /// The first cell that the call should have left otherwise, in words.
    pub fn fault(&self, query: &Query, left: &Left) -> Option<String> {
        let [work, tape, out] = query.borrows();
        let faults = [
            ("working memory", work.then(|| self.work.changed_from(left.work))),
            ("tape memory", tape.then(|| self.tape.unlike(&left.tape))),
            ("output memory", out.then(|| self.out.unlike(&left.out))),
        ];
        let found = faults.into_iter().find_map(|(name, at)| Some((name, at.flatten()?)));
        found.map(|(name, at)| format!("{name} is wrong at {at}"))
    }
}

impl Default for Memory {
    fn default() -> Memory {
        Memory::new()
    }
}

impl<T: Copy + PartialEq> Lent<T> {
    /// Memory of so many cells and the spare ones.
    fn new(most: usize, noise: impl FnMut() -> T) -> Lent<T> {
        let noise: Vec<T> = std::iter::repeat_with(noise).take(most + SPARE + FILLINGS).collect();
        let cells = noise[..most + SPARE].to_vec();
        Lent { noise, filling: 0, cells }
    }

    /// Fills the memory and lends its first cells.
    pub fn lend(&mut self, len: usize) -> &mut [T] {
        let filled = &self.noise[self.filling..][..self.cells.len()];
        self.cells.copy_from_slice(filled);
        &mut self.cells[..len]
    }

    /// The first cell from a place on that is not as it was filled.
    fn changed_from(&self, place: usize) -> Option<usize> {
        let filled = &self.noise[self.filling..][..self.cells.len()];
        first_difference(&self.cells[place..], &filled[place..]).map(|at| place + at)
    }

    /// The first cell that is not as `front` has it, or past that not as it was filled.
    fn unlike(&self, front: &[T]) -> Option<usize> {
        first_difference(&self.cells[..front.len()], front)
            .or_else(|| self.changed_from(front.len()))
    }
}

/// Where two rows of the same length first differ. Most are equal, and that is tested at once.
fn first_difference<T: PartialEq>(one: &[T], other: &[T]) -> Option<usize> {
    if one == other {
        return None;
    }
    one.iter().zip(other).position(|(a, b)| a != b)
}

#[cfg(test)]
mod tests {
    use super::*;

    const REPORT: Query = Query::Report { work: 16_400, tape: 20, out: 16_384 };

    /// Memory that was just lent to the report.
    fn lent() -> Memory {
        let mut memory = Memory::new();
        memory.choose_filling(77);
        memory.work.lend(16_400);
        memory.tape.lend(20);
        memory.out.lend(16_384);
        memory
    }

    #[test]
    fn memory_as_it_was_has_no_fault() {
        assert_eq!(lent().fault(&REPORT, &Left::default()), None);
    }

    #[test]
    fn every_kind_of_memory_is_watched() {
        for (cell, said) in [(0, "at 0"), (16_383, "at 16383"), (16_447, "at 16447")] {
            let mut memory = lent();
            memory.work.cells[cell] ^= 1;
            let fault = memory.fault(&REPORT, &Left::default());
            assert_eq!(fault, Some(format!("working memory is wrong {said}")));
        }
        let mut memory = lent();
        memory.tape.cells[20] ^= 1;
        let fault = memory.fault(&REPORT, &Left::default());
        assert_eq!(fault.as_deref(), Some("tape memory is wrong at 20"));
        let mut memory = lent();
        memory.out.cells[9] ^= 1;
        let fault = memory.fault(&REPORT, &Left::default());
        assert_eq!(fault.as_deref(), Some("output memory is wrong at 9"));
    }

    #[test]
    fn what_a_call_leaves_is_no_fault() {
        let mut memory = lent();
        memory.work.cells[..16_384].fill(5);
        memory.tape.cells[..2].fill(3);
        memory.out.cells[..4].copy_from_slice(b"run ");
        let left = Left { work: 16_384, tape: vec![3; 2], out: b"run ".to_vec() };
        assert_eq!(memory.fault(&REPORT, &left), None);
        let left = Left { tape: vec![3; 3], ..left };
        assert_eq!(memory.fault(&REPORT, &left).as_deref(), Some("tape memory is wrong at 2"));
    }

    #[test]
    fn memory_that_is_not_borrowed_is_not_looked_at() {
        let mut memory = lent();
        memory.tape.cells[0] ^= 1;
        assert_eq!(memory.fault(&Query::QuickTest { work: 16_400 }, &Left::default()), None);
    }
}
