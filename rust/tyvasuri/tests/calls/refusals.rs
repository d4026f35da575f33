//! Every refusal, what goes before what, and the messages.

use crate::sheets::{sheet, sheet_a};
use std::error::Error;
use tyvasuri::{
    exact_test, judge, mode_demand, module_demand, quick_test, report, state_demand, Fault,
    Refusal, Sheet,
};

/// Checks that the judge refuses the sheet so, and that the calls do.
fn check_refused(bytes: &[u8], refusal: Refusal) {
    let refused = Some(refusal);
    assert_eq!(judge(bytes).err(), refused);
    assert_eq!(mode_demand(bytes, 99, 99, 1, 0).err(), refused);
    assert_eq!(state_demand(bytes, 99, 99, 99, 9999, &mut []).err(), refused);
    assert_eq!(module_demand(bytes, 99, 9999, &mut []).err(), refused);
    assert_eq!(quick_test(bytes, &mut []).err(), refused);
    assert_eq!(exact_test(bytes, &mut [], &mut []).err(), refused);
    assert_eq!(report(bytes, &mut [], &mut [], &mut []).err(), refused);
}

/// A sheet's fault goes before ranges and memory, which every call here breaks.
#[test]
fn sheet_faults_go_first() {
    check_refused(&sheet_a()[..63], Refusal::new(Fault::CutShort, 60));
    check_refused(&sheet("HZ 1 XY 1 MD 1 EN 3"), Refusal::new(Fault::UnknownMark, 4));
    check_refused(&sheet("HZ 1 MD 1 EN 2"), Refusal::new(Fault::OutOfOrder, 4));
    check_refused(&nine_modules(), Refusal::new(Fault::PastCount, 68));
    check_refused(&sheet("HZ 2001 ML 1 MD 1 EN 3"), Refusal::new(Fault::BadField, 0));
    check_refused(&sheet("HZ 1 ML 1 MD 1 SW 0 1 EN 4"), Refusal::new(Fault::BadSwitch, 12));
    check_refused(&sheet("HZ 1 ML 1 MD 1 EN 2"), Refusal::new(Fault::BadEnd, 12));
    check_refused(&sheet("HZ 1 ML 1 MD 1 EN 3 EN 3"), Refusal::new(Fault::BytesAfter, 16));
}

/// A sheet with a ninth module, which begins at byte 68.
fn nine_modules() -> Vec<u8> {
    sheet(&format!("HZ 1 {} EN 19", "ML 1 MD 1 ".repeat(9)))
}

/// A mode of period 12 with these records, which begin at byte 12, and two modes
/// to go to.
fn mode_with(records: &str) -> Vec<u8> {
    let marks = records.split_whitespace().filter(|word| word.parse::<u16>().is_err());
    sheet(&format!("HZ 12 ML 3 MD 12 {records} MD 1 MD 1 EN {}", 5 + marks.count()))
}

/// The multiples of the SX's period are 4, 8 and 12.
#[test]
fn sx_at_the_borders_of_an_instance() {
    for accepted in ["TK 4 1 3 12", "TK 1 1 3 12", "TK 4 1 4 12", "TK 9 1 3 12", "TK 0 1 2 6"] {
        assert!(judge(&mode_with(&format!("{accepted} SX 1 4"))).is_ok(), "{accepted}");
    }
    // 4 is one tick after the release, one tick before the due tick; 8 is in the second instance.
    for refused in ["TK 3 1 3 12", "TK 2 1 3 12", "TK 1 1 2 6"] {
        let bytes = mode_with(&format!("{refused} SX 1 4"));
        check_refused(&bytes, Refusal::new(Fault::BadSwitch, 22));
    }
}

/// The other rules of SW hold for SX.
#[test]
fn sx_with_a_bad_target_or_period() {
    for refused in ["SX 0 12", "SX 3 12", "SX 1 0", "SX 1 5", "SX 1 24"] {
        check_refused(&mode_with(refused), Refusal::new(Fault::BadSwitch, 12));
    }
}

#[test]
fn targets_are_named_once_among_sw_and_sx() {
    for (one, two) in [("SW", "SX"), ("SX", "SW"), ("SX", "SX")] {
        assert!(judge(&mode_with(&format!("{one} 1 12 {two} 2 12"))).is_ok());
        let twice = mode_with(&format!("{one} 1 12 {two} 1 12"));
        check_refused(&twice, Refusal::new(Fault::BadSwitch, 18));
    }
}

#[test]
fn no_task_after_sx() {
    let bytes = mode_with("TK 0 1 1 12 SX 1 12 TK 0 1 1 12");
    check_refused(&bytes, Refusal::new(Fault::OutOfOrder, 28));
}

/// Eight modules of eight modes with an SW and an SX each, 128 together, and this
/// record after the last of them.
fn full_of_switches(more: &str) -> Vec<u8> {
    let mode = |own: usize| format!("MD 1 SW {} 1 SX {} 1 ", (own + 1) % 8, (own + 2) % 8);
    let module = format!("ML 8 {}", (0..8).map(mode).collect::<String>());
    sheet(&format!("HZ 1 {} {more} EN 201", module.repeat(8)))
}

/// SW and SX count together, and the count goes before the fields.
#[test]
fn a_129th_of_sw_and_sx() {
    assert_eq!(judge(&full_of_switches("")).map(|counts| counts.switches), Ok(128));
    for more in ["SX 2 1", "SW 2 1", "SX 7 0"] {
        check_refused(&full_of_switches(more), Refusal::new(Fault::PastCount, 1060));
    }
}

#[test]
fn ranges_go_before_memory() {
    let bytes = sheet_a();
    let out_of_range = Err(Refusal::new(Fault::OutOfRange, 0));
    for module in [2, 1 << 8, 1 << 32, usize::MAX] {
        assert_eq!(mode_demand(&bytes, module, 0, 0, 0), out_of_range);
        assert_eq!(state_demand(&bytes, module, 0, 0, 0, &mut []), out_of_range);
        assert_eq!(module_demand(&bytes, module, 0, &mut []), out_of_range);
    }
    for mode in [1, 1 << 8, 1 << 32, usize::MAX] {
        assert_eq!(mode_demand(&bytes, 0, mode, 0, 0), out_of_range);
        assert_eq!(state_demand(&bytes, 0, mode, 0, 0, &mut []), out_of_range);
    }
    assert_eq!(mode_demand(&bytes, 0, 0, 2, 1), out_of_range);
    assert_eq!(mode_demand(&bytes, 0, 0, 0, 5), out_of_range);
    assert_eq!(state_demand(&bytes, 0, 0, 4, 0, &mut []), out_of_range);
    assert_eq!(state_demand(&bytes, 0, 0, 0, 9, &mut []), out_of_range);
    assert_eq!(module_demand(&bytes, 0, 9, &mut []), out_of_range);
}

/// The last number of each range is in it.
#[test]
fn range_ends_are_in_range() {
    let bytes = sheet_a();
    let mut work = vec![0; Sheet::WORK_LEN];
    assert_eq!(mode_demand(&bytes, 1, 1, 4, 4), Ok(0));
    assert_eq!(state_demand(&bytes, 1, 1, 3, 8, &mut work), Ok(4));
    assert_eq!(state_demand(&bytes, 1, 1, 3, 0, &mut work), Ok(0));
    assert_eq!(module_demand(&bytes, 1, 8, &mut work), Ok(4));
}

#[test]
fn messages_say_what_and_where() {
    let message = |fault, place| Refusal::new(fault, place).to_string();
    assert_eq!(
        message(Fault::CutShort, 60),
        "refusal 1: the sheet ends where a mark or a field is wanted, in the record at byte 60"
    );
    assert_eq!(message(Fault::BytesAfter, 16), "refusal 8: bytes stand after EN, from byte 16 on");
    assert_eq!(message(Fault::MemoryTooShort, 0), "refusal 10: the lent memory is too short");
    assert_eq!(
        message(Fault::BadSwitch, 22),
        "refusal 6: a field of SW or SX breaks its rule, in the record at byte 22"
    );
    for &fault in Fault::ALL {
        assert!(message(fault, 7).contains(&fault.to_string()));
    }
}

#[test]
fn refusals_are_errors() {
    let failed: Box<dyn Error> = judge(b"").unwrap_err().into();
    assert!(failed.to_string().starts_with("refusal 1: "));
}
