//! What the calls leave in lent memory.

use crate::sheets::{sheet_a, sheet_b};
use tyvasuri::{
    exact_test, module_demand, quick_test, report, state_demand, Exact, Fault, Refusal, Sheet,
};

/// Memory to lend, filled with a pattern so that a change in it shows.
#[derive(Clone, Debug, PartialEq)]
struct Lent {
    work: Vec<u32>,
    tape: Vec<u8>,
    out: Vec<u8>,
}

impl Lent {
    fn new(work: usize, tape: usize, out: usize) -> Lent {
        let byte = |place: usize| place as u8 ^ 0xA5;
        Lent {
            work: (0..work).map(|place| place as u32 ^ 0xA5A5_A5A5).collect(),
            tape: (0..tape).map(byte).collect(),
            out: (0..out).map(byte).collect(),
        }
    }
}

/// A call with some memory lent to it, and its refusal.
type Call = fn(&[u8], &mut Lent) -> Option<Refusal>;

const STATE_DEMAND: Call = |bytes, lent| state_demand(bytes, 1, 0, 1, 6, &mut lent.work).err();
const MODULE_DEMAND: Call = |bytes, lent| module_demand(bytes, 1, 6, &mut lent.work).err();
const QUICK_TEST: Call = |bytes, lent| quick_test(bytes, &mut lent.work).err();
const EXACT_TEST: Call = |bytes, lent| exact_test(bytes, &mut lent.work, &mut lent.tape).err();
const REPORT: Call =
    |bytes, lent| report(bytes, &mut lent.work, &mut lent.tape, &mut lent.out).err();

const CALLS: [Call; 5] = [STATE_DEMAND, MODULE_DEMAND, QUICK_TEST, EXACT_TEST, REPORT];

/// Sheet A's tape memory, 2 modules × horizon 8.
const TAPE_LEN: usize = 16;

/// Checks that the call is refused for this fault and leaves the memory as it was.
fn check_refused(call: Call, bytes: &[u8], mut lent: Lent, fault: Fault) {
    let before = lent.clone();
    assert_eq!(call(bytes, &mut lent).map(|refusal| refusal.fault), Some(fault));
    assert_eq!(lent, before);
}

#[test]
fn just_enough_is_enough() {
    for call in CALLS {
        let mut lent = Lent::new(Sheet::WORK_LEN, TAPE_LEN, Sheet::REPORT_LEN);
        assert_eq!(call(&sheet_a(), &mut lent), None);
    }
}

#[test]
fn working_memory_one_too_short() {
    for call in CALLS {
        let lent = Lent::new(Sheet::WORK_LEN - 1, TAPE_LEN, Sheet::REPORT_LEN);
        check_refused(call, &sheet_a(), lent, Fault::MemoryTooShort);
    }
}

/// The tape memory is wanted on clear as on over.
#[test]
fn tape_memory_one_too_short() {
    for call in [EXACT_TEST, REPORT] {
        let over = Lent::new(Sheet::WORK_LEN, TAPE_LEN - 1, Sheet::REPORT_LEN);
        check_refused(call, &sheet_a(), over, Fault::MemoryTooShort);
        let clear = Lent::new(Sheet::WORK_LEN, 2 * 6 - 1, Sheet::REPORT_LEN);
        check_refused(call, &sheet_b(), clear, Fault::MemoryTooShort);
    }
}

#[test]
fn output_memory_one_too_short() {
    let lent = Lent::new(Sheet::WORK_LEN, TAPE_LEN, Sheet::REPORT_LEN - 1);
    check_refused(REPORT, &sheet_a(), lent, Fault::MemoryTooShort);
}

#[test]
fn refused_sheets_change_nothing() {
    for call in CALLS {
        let lent = Lent::new(Sheet::WORK_LEN, TAPE_LEN, Sheet::REPORT_LEN);
        check_refused(call, &sheet_a()[..63], lent, Fault::CutShort);
    }
}

#[test]
fn ranges_change_nothing() {
    let calls: [Call; 2] = [
        |bytes, lent| state_demand(bytes, 1, 2, 0, 0, &mut lent.work).err(),
        |bytes, lent| module_demand(bytes, 2, 0, &mut lent.work).err(),
    ];
    for call in calls {
        let lent = Lent::new(Sheet::WORK_LEN, 0, 0);
        check_refused(call, &sheet_a(), lent, Fault::OutOfRange);
    }
}

#[test]
fn memory_past_what_is_wanted_stays() {
    for call in CALLS {
        let before = Lent::new(Sheet::WORK_LEN + 9, TAPE_LEN + 9, Sheet::REPORT_LEN + 9);
        let mut lent = before.clone();
        assert_eq!(call(&sheet_a(), &mut lent), None);
        assert_eq!(lent.work[Sheet::WORK_LEN..], before.work[Sheet::WORK_LEN..]);
        assert_eq!(lent.tape[TAPE_LEN..], before.tape[TAPE_LEN..]);
        assert_eq!(lent.out[Sheet::REPORT_LEN..], before.out[Sheet::REPORT_LEN..]);
    }
}

/// Two tapes of 7 ticks take 14 bytes; the 15th and all later ones stay.
#[test]
fn tape_bytes_past_the_tapes_stay() {
    let mut lent = Lent::new(Sheet::WORK_LEN, 20, 0);
    let before = lent.clone();
    assert_eq!(EXACT_TEST(&sheet_a(), &mut lent), None);
    assert_eq!(lent.tape[..14], [0, 0, 0, 0, 0, 0, 0, 0, 0, 0, 0, 1, 1, 1]);
    assert_eq!(lent.tape[14..], before.tape[14..]);
}

#[test]
fn tape_bytes_stay_on_clear() {
    let mut lent = Lent::new(Sheet::WORK_LEN, 20, 0);
    let before = lent.clone();
    assert_eq!(exact_test(&sheet_b(), &mut lent.work, &mut lent.tape), Ok(Exact::Clear));
    assert_eq!(lent.tape, before.tape);
}

/// The tapes are lent on from the caller's memory, module by module.
#[test]
fn tapes_are_parts_of_the_tape_memory() {
    let mut lent = Lent::new(Sheet::WORK_LEN, 20, 0);
    let first = lent.tape.as_ptr();
    let Ok(Exact::Over { tapes, .. }) = exact_test(&sheet_a(), &mut lent.work, &mut lent.tape)
    else {
        panic!("sheet A is over");
    };
    assert_eq!(tapes.tape(0).unwrap().as_ptr(), first);
    assert_eq!(tapes.tape(1).unwrap(), [0, 0, 0, 0, 1, 1, 1]);
    assert_eq!(tapes.tape(2), None);
    assert_eq!(tapes.iter().len(), 2);
}
