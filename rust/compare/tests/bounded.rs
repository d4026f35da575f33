//! A bounded comparison, always from the same seeds.

use compare::comparison::{Alike, Comparison};
use compare::faults::cuts;
use compare::query::Query;
use compare::sheets::mode;
use compare::tally::Tally;
use compare::wanted::{Wanted, Way};
use second::generate::{damaged, sheet, split, Damage, Rng, Shape};
use second::{encode, judge, Exact, Kind, Mode, Module, Sheet, Switch};
use std::ops::Range;

const SHEET_A: &[u8] = include_bytes!("../../../examples/a_two_modules.sheet");
/// A sheet with an SX that no SW could be: its first multiple is a due tick.
const LEAVE_BY_SX: &[u8] = include_bytes!("../../../examples/leave_by_sx.sheet");

/// Fails with what differs.
fn alike(compared: Alike) {
    if let Err(difference) = compared {
        panic!("{difference}");
    }
}

/// Whether each test said clear and over at least so often.
fn both_verdicts(tally: &Tally, least: u64) -> bool {
    tally.quick.iter().chain(&tally.exact).all(|&count| count >= least)
}

/// Small sheets of these seeds, enough of them for every kind of answer.
fn small(seeds: Range<u64>) {
    let mut comparison = Comparison::default();
    seeds.for_each(|seed| alike(comparison.small(seed)));
    let tally = comparison.tally;
    println!("{tally}");
    assert!(both_verdicts(&tally, 1000));
    assert!(tally.late_starts > 200 && tally.switching > 200);
    for demand in 1..=3 {
        assert!(tally.calls[demand][0] > 1000 && tally.calls[demand][9] > 1000);
    }
    assert!((2..=6).all(|borrowing| tally.calls[borrowing][10] > 200));
    assert!(unreached_modes(&tally, 1000, 100) && tally.unreached_states > 1000);
    assert!(tally.sx > 5500 && tally.sx_alone > 3500 && tally.left_by_sx > 200);
}

/// Whether sheets with modes that are not reached came so often, and chains of each length.
fn unreached_modes(tally: &Tally, least: u64, chains: u64) -> bool {
    tally.unreached >= least && tally.farthest.iter().all(|&count| count >= chains)
}

#[test]
fn small_sheets() {
    small(0..20_000);
}

/// As many again, so that two processors share them.
#[test]
fn more_small_sheets() {
    small(20_000..40_000);
}

#[test]
fn large_and_damaged_sheets() {
    let mut comparison = Comparison::default();
    (0..700).for_each(|seed| alike(comparison.large(seed)));
    let tally = comparison.tally;
    println!("{tally}");
    assert!(both_verdicts(&tally, 20));
    assert!(tally.longest_tape > 100);
    assert!(unreached_modes(&tally, 100, 3) && tally.unreached_states > 50);
    assert!(tally.sx > 170 && tally.sx_alone > 150 && tally.left_by_sx > 15);
    let [_, _, _, order, count, _, value, ..] = tally.refused_at_sx;
    assert!(order > 200 && count > 4 && value > 2500 && tally.task_behind_sx > 180);
    // Whatever is asked, a sheet's fault is the refusal.
    assert!(tally.calls.iter().flat_map(|counts| &counts[1..=8]).all(|&count| count > 0));
}

/// The counts of every call on small sheets, 20 damaged in each of these ways.
fn damaged_in(ways: &[Damage]) -> Tally {
    let mut comparison = Comparison::default();
    let mut rng = Rng::new(1);
    for &damage in ways {
        for _ in 0..20 {
            let made = sheet(&mut rng, &Shape::small());
            let bytes = damaged(&mut rng, &made, damage);
            alike(comparison.every_call(&mut rng, &bytes, Way::Table, &made));
        }
    }
    comparison.tally
}

/// Whether every call was refused by this number.
fn all_refused(tally: &Tally, number: usize) -> bool {
    tally.calls.iter().all(|counts| counts[number] == counts.iter().sum())
}

/// Each of the four counts that can be exceeded, alone. The 129th switch is SX or SW.
#[test]
fn exceeded_counts() {
    let tally = damaged_in(&[
        Damage::NinthModule,
        Damage::SeventeenthTask,
        Damage::Task257,
        Damage::Switch129,
    ]);
    assert!(all_refused(&tally, 4));
    assert!((5..=15).contains(&tally.refused_at_sx[4]), "{tally}");
}

/// A target named twice, at least once by SX: the second is an SX on some sheets, an SW on others.
#[test]
fn targets_named_twice() {
    let tally = damaged_in(&[Damage::TargetTwice; 3]);
    assert!(all_refused(&tally, 6));
    assert!((15..=45).contains(&tally.refused_at_sx[6]), "{tally}");
}

/// Every single fault of sheet A, and of a sheet with SX.
#[test]
fn single_faults() {
    for bytes in [SHEET_A, LEAVE_BY_SX] {
        let mut comparison = Comparison::default();
        let made = judge(bytes).unwrap();
        alike(comparison.every_single_fault(&mut Rng::new(2), &made));
        let judged = comparison.tally.calls[0];
        let came = |number: usize| judged[number] > 0;
        assert!([0, 1, 2, 3, 5, 6, 7, 8].into_iter().all(came), "{judged:?}");
        let at_sx = comparison.tally.refused_at_sx;
        assert!(at_sx[1] > 0 && at_sx[3] > 0 && at_sx[6] > 0, "{at_sx:?}");
    }
}

/// Every mark and every field of sheet A, and of a sheet with SX, at every value of 16 bits.
#[test]
fn every_value() {
    for sheet in [SHEET_A, LEAVE_BY_SX] {
        let mut comparison = Comparison::default();
        let mut bytes = sheet.to_vec();
        for place in (0..bytes.len()).step_by(2) {
            for value in 0..=u16::MAX {
                bytes[place..place + 2].copy_from_slice(&value.to_le_bytes());
                alike(comparison.call(&bytes, &Wanted::new(&bytes, Way::Table), &Query::Judge));
            }
            bytes.copy_from_slice(sheet);
        }
        let [accepted, _, unknown_marks, ..] = comparison.tally.calls[0];
        assert!(accepted > 2000);
        // Each mark can be any of the seven that are in the list, and no other.
        assert!(unknown_marks >= split(sheet).len() as u64 * ((1 << 16) - 7));
    }
}

/// Every task with cost 1 that a mode of this period may have.
fn every_task(mode_period: u16) -> Vec<[u16; 4]> {
    let mut all = Vec::new();
    for period in (1..=mode_period).filter(|&period| mode_period.is_multiple_of(period)) {
        for offset in 0..period {
            all.extend((1..=period - offset).map(|let_ticks| [offset, 1, let_ticks, period]));
        }
    }
    all
}

/// A sheet with a mode with this period and this task, left by an SX with this period.
fn with_sx(mode_period: u16, task: [u16; 4], period: u16) -> Vec<u8> {
    let switches = vec![Switch { kind: Kind::Sx, target: 1, period }];
    let left = Mode { switches, ..mode(mode_period, &[task], &[]) };
    let modules = vec![Module { modes: vec![left, mode(1, &[], &[])] }];
    encode(&Sheet { horizon: 1, modules })
}

/// Every SX beside every task, with multiples at releases and due ticks, in instances and between.
#[test]
fn every_border() {
    let mut comparisons = [Comparison::default(), Comparison::default()];
    for mode_period in 1..=24_u16 {
        for task in every_task(mode_period) {
            for period in 0..=mode_period + 1 {
                let comparison = &mut comparisons[usize::from(mode_period.is_multiple_of(period))];
                let bytes = with_sx(mode_period, task, period);
                for way in [Way::Literal, Way::Table] {
                    alike(comparison.call(&bytes, &Wanted::new(&bytes, way), &Query::Judge));
                }
            }
        }
    }
    let [not_dividing, dividing] = comparisons.map(|comparison| comparison.tally.calls[0]);
    assert_eq!(not_dividing[6], not_dividing.iter().sum());
    assert_eq!(dividing[0] + dividing[6], dividing.iter().sum());
    assert!(dividing[0] > 7000 && dividing[6] > 7000);
}

/// The longest sheet, whole and cut at every byte.
#[test]
fn longest_sheet() {
    let mut comparison = Comparison::default();
    let made = sheet(&mut Rng::new(3), &Shape::fullest());
    let whole = encode(&made);
    assert_eq!(whole.len(), tyvasuri::Sheet::MOST_BYTES);
    for bytes in cuts(&whole).into_iter().chain([whole]) {
        alike(comparison.call(&bytes, &Wanted::new(&bytes, Way::Table), &Query::Judge));
    }
    assert_eq!(comparison.tally.calls[0][..2], [1, 3624]);
}

/// The line that is printed for a refused sheet.
#[test]
fn refused_lines() {
    let mut rng = Rng::new(4);
    for kind in Damage::ALL {
        let made = sheet(&mut rng, &Shape::medium());
        let bytes = damaged(&mut rng, &made, kind);
        if let Err(refusal) = tyvasuri::judge(&bytes) {
            assert_eq!(format!("{}\n", refusal.line()).into_bytes(), second::report(&bytes));
        }
    }
}

/// A tape that comes back to mode 0 at its last tick, where to begin mode 1 again (period 2), or
/// to stay in it (period 8), is worth as much.
#[test]
fn first_in_dictionary_order() {
    for period in [2, 8] {
        let there_and_back =
            vec![mode(4, &[], &[[1, 4]]), mode(period, &[[0, 2, 2, 2]], &[[0, 2]])];
        let steady = vec![mode(16, &[[0, 6, 9, 16]], &[])];
        let modules = [there_and_back, steady].map(|modes| Module { modes }).to_vec();
        let bytes = encode(&Sheet { horizon: 12, modules });
        let wanted = Wanted::new(&bytes, Way::Literal);
        let tapes = vec![vec![0, 0, 0, 0, 1, 1, 1, 1, 0], vec![0; 9]];
        assert_eq!(*wanted.exact(), Exact::Over { a: 0, b: 9, demand: 10, tapes });
        let query = Query::ExactTest { work: 16_384, tape: 24 };
        alike(Comparison::default().call(&bytes, &wanted, &query));
    }
}

/// What is wanted of another sheet is a difference, call by call.
#[test]
fn differences_are_seen() {
    let mut comparison = Comparison::default();
    let mut shorter = SHEET_A.to_vec();
    shorter[2] = 6;
    let wanted = Wanted::new(&shorter, Way::Table);
    let (work, tape, out) = (16_384, 16, 16_384);
    for query in [
        Query::Judge,
        Query::StateDemand { module: 0, mode: 0, time: 0, length: 8, work },
        Query::ModuleDemand { module: 0, length: 8, work },
        Query::ExactTest { work, tape },
        Query::Report { work, tape, out },
    ] {
        let difference = comparison.call(SHEET_A, &wanted, &query).unwrap_err();
        assert_eq!(difference.query, query);
        assert_ne!(difference.archive, difference.second);
    }
    assert_eq!(comparison.tally, Tally::default());
}
