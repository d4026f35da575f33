//! The comparison of sheets, each made from a seed.

use crate::answer::Answer;
use crate::archive;
use crate::arguments::calls;
use crate::difference::{Difference, Origin};
use crate::faults::single_faults;
use crate::memory::Memory;
use crate::query::Query;
use crate::tally::Tally;
use crate::wanted::{Wanted, Way};
use second::generate::{any_records, damaged, sheet, Damage, Rng, Shape};
use second::{brute, encode, Exact, Sheet};

/// Whether the two sides are alike so far.
pub type Alike = Result<(), Box<Difference>>;

/// A small sheet has at most so many runs from a state to the horizon.
const MOST_RUNS: u64 = 100;

/// The memory that is lent, and what was compared so far.
#[derive(Default)]
pub struct Comparison {
    memory: Memory,
    /// Where the sheet in hand comes from.
    origin: Origin,
    pub tally: Tally,
}

impl Comparison {
    /// Makes one call on both sides.
    pub fn call(&mut self, bytes: &[u8], wanted: &Wanted<'_>, query: &Query) -> Alike {
        let second = wanted.answer(query);
        let archive = archive::ask(bytes, query, &mut self.memory);
        let origin = self.origin;
        let differ = |archive, second| {
            let bytes = bytes.to_vec();
            Err(Box::new(Difference { origin, bytes, query: *query, archive, second }))
        };
        if archive != second {
            return differ(archive.to_string(), second.to_string());
        }
        if let Some(fault) = self.memory.fault(query, &wanted.left(query, &second)) {
            return differ(fault, format!("{second}, and the memory's other cells stay"));
        }
        self.tally.count(query, &second);
        self.count_about(bytes, wanted, query, &second);
        Ok(())
    }

    /// Counts what an answer is about: a state, tapes, or the record of a refusal.
    fn count_about(&mut self, bytes: &[u8], wanted: &Wanted<'_>, query: &Query, answer: &Answer) {
        let tally = &mut self.tally;
        match (query, wanted.sheet(), answer) {
            (Query::StateDemand { module, mode, .. }, Ok(sheet), Answer::Demand(_)) => {
                tally.count_state(sheet, *module, *mode);
            }
            (_, Ok(sheet), Answer::Exact(Exact::Over { tapes, .. })) => {
                tally.count_tapes(sheet, tapes);
            }
            (Query::Judge, Err(refusal), _) => tally.count_refused(bytes, &refusal),
            _ => {}
        }
    }

    /// Makes calls of every kind, with arguments about those of the sheet, or of the one that it
    /// was before it was damaged.
    pub fn every_call(&mut self, rng: &mut Rng, bytes: &[u8], way: Way, before: &Sheet) -> Alike {
        let wanted = Wanted::new(bytes, way);
        let calls = calls(rng, wanted.sheet().unwrap_or(before));
        calls.iter().try_for_each(|query| self.call(bytes, &wanted, query))?;
        wanted.sheet().into_iter().for_each(|sheet| self.tally.count_sheet(sheet));
        Ok(())
    }

    /// Puts every single fault to the sheet, and makes the judge's call and one other on each.
    pub fn every_single_fault(&mut self, rng: &mut Rng, sheet: &Sheet) -> Alike {
        for bytes in single_faults(&encode(sheet)) {
            let wanted = Wanted::new(&bytes, Way::Table);
            let calls = calls(rng, wanted.sheet().unwrap_or(sheet));
            self.call(&bytes, &wanted, &calls[0])?;
            self.call(&bytes, &wanted, rng.pick(&calls[1..]))?;
        }
        Ok(())
    }

    /// The small sheet of a seed, by the literal way.
    pub fn small(&mut self, seed: u64) -> Alike {
        let mut rng = self.begin(Origin::Small(seed), seed);
        let made = small_sheet(&mut rng);
        self.every_call(&mut rng, &encode(&made), Way::Literal, &made)
    }

    /// The large sheet of a seed, or damaged ones.
    pub fn large(&mut self, seed: u64) -> Alike {
        let mut rng = self.begin(Origin::Large(seed), seed);
        match rng.below(20) {
            0 => {
                let made = small_sheet(&mut rng);
                self.every_single_fault(&mut rng, &made)
            }
            1 => {
                let (count, before) = (rng.between(0, 9), small_sheet(&mut rng));
                let bytes = any_records(&mut rng, count);
                self.every_call(&mut rng, &bytes, Way::Table, &before)
            }
            2..=9 => {
                let made = large_sheet(&mut rng);
                let damage = *rng.pick(&Damage::ALL);
                let bytes = damaged(&mut rng, &made, damage);
                self.every_call(&mut rng, &bytes, Way::Table, &made)
            }
            _ => {
                let made = large_sheet(&mut rng);
                self.every_call(&mut rng, &encode(&made), Way::Table, &made)
            }
        }
    }

    /// Notes where the sheet to come is from; gives the numbers to choose by.
    fn begin(&mut self, origin: Origin, seed: u64) -> Rng {
        self.origin = origin;
        self.memory.choose_filling(seed);
        Rng::new(seed)
    }
}

/// A sheet small enough for the literal way.
fn small_sheet(rng: &mut Rng) -> Sheet {
    let shape = if rng.chance(50) { Shape::small() } else { Shape::small_light() };
    loop {
        let made = sheet(rng, &shape);
        if brute::fits(&made, MOST_RUNS) {
            return made;
        }
    }
}

/// A sheet that is mostly too large for the literal way. The more work it is, the rarer.
fn large_sheet(rng: &mut Rng) -> Sheet {
    let shapes = [Shape::realistic(), Shape::wide(), Shape::wide_light(), Shape::fullest()];
    let any = rng.pick(&shapes).clone();
    let shape = match rng.below(40) {
        0 => any,
        1..=3 => Shape::realistic(),
        4..=19 => Shape { horizon: (50, 400), ..any },
        _ => Shape::medium(),
    };
    // Lower costs leave more of the sheets clear.
    let cost_divisor = shape.cost_divisor * rng.between(1, 2);
    sheet(rng, &Shape { cost_divisor, ..shape })
}
