//! The worked cases of document 01, and those of the requests of document 02.

use crate::sheets::{
    sheet, sheet_a, sheet_b, sheet_f, sheet_factory, sheet_factory_entered, sheet_g, sheet_h,
    sheet_leave_by_sw, sheet_leave_by_sx, sheet_leave_by_sx_over, sheet_pen,
};
use tyvasuri::{Counts, Exact, Fault, Memory, Quick, Refusal, Sheet};

/// Sheet A in hex, as document 01 prints it.
const PRINTED_A: &str = "48 5A 08 00 4D 4C 01 00 4D 44 04 00 54 4B 00 00 02 00 03 00 04 00 4D 4C 02 \
    00 4D 44 04 00 54 4B 00 00 01 00 04 00 04 00 53 57 01 00 04 00 4D 44 04 00 54 4B 01 00 02 00 02 \
    00 04 00 45 4E 0A 00";

/// The length and the sum of a quick verdict, none for clear.
fn first_over(verdict: Quick) -> Option<(usize, u32)> {
    match verdict {
        Quick::Clear => None,
        Quick::Over { length, demand, .. } => Some((length, demand)),
    }
}

/// Checks both tests: the quick verdict as length and sum, and the exact one as
/// start, end, demand and tapes, none for clear.
fn check_verdicts(
    bytes: &[u8],
    quick: Option<(usize, u32)>,
    over: Option<(usize, usize, u32, &[&[u8]])>,
) {
    let sheet = Sheet::judge(bytes).unwrap();
    let mut memory = Memory::new();
    assert_eq!(first_over(sheet.quick_test_in(&mut memory)), quick);
    let found = match sheet.exact_test_in(&mut memory) {
        Exact::Clear => None,
        Exact::Over { start, end, demand, tapes, .. } => {
            Some((start, end, demand, tapes.iter().collect::<Vec<_>>()))
        }
    };
    assert_eq!(found, over.map(|(start, end, demand, tapes)| (start, end, demand, tapes.to_vec())));
}

/// Checks the lines that are printed.
fn check_lines(bytes: &[u8], lines: &[&str]) {
    let mut memory = Memory::new();
    let printed = Sheet::judge(bytes).unwrap().report_in(&mut memory);
    assert_eq!(printed.lines().collect::<Vec<_>>(), lines);
    assert!(printed.ends_with('\n'));
}

#[test]
fn case_a_as_printed() {
    let hex = |pair| u8::from_str_radix(pair, 16).unwrap();
    let bytes: Vec<u8> = PRINTED_A.split_whitespace().map(hex).collect();
    assert_eq!(bytes, sheet_a());
    let lines = [
        "sheet modules 2 modes 3 tasks 3 switches 1 horizon 8",
        "quick over 3 demand 4",
        "exact over 4 7 demand 4",
        "run 0 0000000",
        "run 1 0000111",
    ];
    check_lines(&bytes, &lines);
}

#[test]
fn case_a() {
    let bytes = sheet_a();
    let sheet = Sheet::judge(&bytes).unwrap();
    let Counts { modules, modes, tasks, switches, horizon, .. } = sheet.counts();
    assert_eq!([modules, modes, tasks, switches, horizon], [2, 3, 3, 1, 8]);
    assert_eq!((sheet.horizon(), sheet.tape_len()), (8, 16));
    let tapes: [&[u8]; 2] = [&[0, 0, 0, 0, 0, 0, 0], &[0, 0, 0, 0, 1, 1, 1]];
    check_verdicts(&bytes, Some((3, 4)), Some((4, 7, 4, &tapes)));
}

#[test]
fn case_b() {
    check_verdicts(&sheet_b(), Some((3, 4)), None);
}

#[test]
fn case_c() {
    let bytes = sheet_a();
    let sheet = Sheet::judge(&bytes).unwrap();
    let mut memory = Memory::new();
    assert_eq!(sheet.state_demand_in(1, 0, 1, 5, &mut memory), Ok(0));
    assert_eq!(sheet.state_demand_in(1, 0, 1, 6, &mut memory), Ok(2));
}

#[test]
fn case_d() {
    let bytes = sheet("HZ 8 ML 1 MD 8 TK 1 1 1 8 EN 4");
    let demand = |from, to| Sheet::judge(&bytes)?.mode_demand(0, 0, from, to);
    assert_eq!([demand(0, 1), demand(0, 2)], [Ok(0), Ok(1)]);
    assert_eq!([demand(1, 2), demand(2, 8)], [Ok(1), Ok(0)]);
}

#[test]
fn case_e() {
    let bytes = sheet("HZ 8 ML 1 MD 8 TK 0 1 4 4 EN 4");
    let demand = |from, to| Sheet::judge(&bytes)?.mode_demand(0, 0, from, to);
    assert_eq!([demand(1, 4), demand(1, 8), demand(0, 8)], [Ok(0), Ok(1), Ok(2)]);
}

#[test]
fn case_f() {
    check_verdicts(&sheet_f(), Some((8, 10)), None);
}

#[test]
fn case_g() {
    let tapes: [&[u8]; 2] = [&[0, 0, 0, 0, 1, 1, 1, 1], &[0; 8]];
    check_verdicts(&sheet_g(), Some((8, 13)), Some((0, 8, 10, &tapes)));
}

#[test]
fn case_h() {
    let bytes = sheet_h();
    assert_eq!(bytes.len(), 16);
    check_verdicts(&bytes, None, None);
}

#[test]
fn case_h_damaged() {
    let refused = |bytes: &[u8]| Sheet::judge(bytes).unwrap_err();
    let wrong_number = sheet("HZ 1 ML 1 MD 1 EN 4");
    assert_eq!(refused(&wrong_number), Refusal::new(Fault::BadEnd, 12));
    let one_more = [&sheet_h()[..], &[0]].concat();
    assert_eq!(refused(&one_more), Refusal::new(Fault::BytesAfter, 16));
    assert_eq!(refused(&[]), Refusal::new(Fault::CutShort, 0));
}

/// The system of the source's Table 1.
#[test]
fn case_i_at_any_horizon() {
    for horizon in [1, 2, 3, 10, 777, 2000] {
        let bytes = sheet(&format!(
            "HZ {horizon}
             ML 2 MD 10 TK 0 2 6 10 TK 0 1 5 5 SW 1 10
                  MD 8 TK 2 1 2 8
             ML 2 MD 4 TK 0 1 4 4 SW 1 4
                  MD 8 TK 1 1 1 8 SW 0 8
             ML 1 MD 8 TK 2 1 1 8
             EN 18"
        ));
        let verdict = Sheet::judge(&bytes).unwrap().quick_test_in(&mut Memory::new());
        assert_eq!(first_over(verdict), Some((1, 2)));
    }
}

#[test]
fn case_j() {
    let refused = |bytes: &[u8]| Sheet::judge(bytes).err().map(|refusal| refusal.number());
    assert_eq!(refused(&sheet("HZ 4 ML 1 MD 4 TK 1 3 3 4 EN 4")), None);
    assert_eq!(refused(&sheet("HZ 4 ML 1 MD 4 TK 1 1 4 4 EN 4")), Some(5));
    assert_eq!(refused(&sheet("HZ 4 ML 2 MD 8 TK 0 1 1 8 SW 1 4 MD 8 EN 6")), Some(6));
}

/// The module demands for the quick test's length are what it sums up.
#[test]
fn quick_sum_of_module_demands() {
    for (bytes, length, sum) in [(sheet_a(), 3, 4), (sheet_f(), 8, 10), (sheet_g(), 8, 13)] {
        let sheet = Sheet::judge(&bytes).unwrap();
        let mut memory = Memory::new();
        let mut demand = |module| sheet.module_demand_in(module, length, &mut memory).unwrap();
        assert_eq!(demand(0) + demand(1), sum);
    }
}

/// Request b: no switch leads to the factory mode. Its work is in no module
/// demand and not in the quick test; its state demands are answered.
#[test]
fn factory_mode() {
    let bytes = sheet_factory();
    check_verdicts(&bytes, None, None);
    let sheet = Sheet::judge(&bytes).unwrap();
    let mut memory = Memory::new();
    assert_eq!(sheet.module_demand_in(0, 4, &mut memory), Ok(2));
    assert_eq!(sheet.state_demand_in(0, 2, 0, 4, &mut memory), Ok(4));
    assert_eq!(sheet.state_demand_in(0, 2, 0, 8, &mut memory), Ok(8));
    assert_eq!(sheet.mode_demand(0, 2, 0, 4), Ok(4));
}

/// With a switch into it, the factory mode counts.
#[test]
fn factory_mode_that_is_entered() {
    let bytes = sheet_factory_entered();
    let sheet = Sheet::judge(&bytes).unwrap();
    let mut memory = Memory::new();
    assert_eq!(sheet.module_demand_in(0, 4, &mut memory), Ok(4));
    assert_eq!(first_over(sheet.quick_test_in(&mut memory)), Some((4, 6)));
    // No run has come to it and had an instance due by tick 8.
    assert!(sheet.exact_test_in(&mut memory).is_clear());
}

/// The first line that is printed for every sheet of pen.
const PEN: &str = "sheet modules 2 modes 3 tasks 3 switches 2 horizon 12";

/// Request k: for SW to leave pen's long mode every 4 ticks, its work is to be
/// done every 4 ticks, which is too much.
#[test]
fn leave_by_sw() {
    let bytes = sheet_leave_by_sw();
    check_verdicts(&bytes, Some((12, 13)), Some((0, 12, 13, &[&[0; 12], &[0; 12]])));
    let over = ["quick over 12 demand 13", "exact over 0 12 demand 13"];
    let runs = ["run 0 000000000000", "run 1 000000000000"];
    check_lines(&bytes, &[&[PEN], &over[..], &runs].concat());
}

/// SX leaves it at tick 4, with a task of period 12.
#[test]
fn leave_by_sx() {
    let bytes = sheet_leave_by_sx();
    check_verdicts(&bytes, None, None);
    check_lines(&bytes, &[PEN, "quick clear", "exact clear"]);
    let sheet = Sheet::judge(&bytes).unwrap();
    let mut memory = Memory::new();
    let mut demand = |time, length| sheet.state_demand_in(0, 0, time, length, &mut memory);
    // It leaves at tick 4, comes back at 6 and leaves at 10: 3, 1, 3 and 1.
    assert_eq!([demand(0, 4), demand(0, 5), demand(0, 12)], [Ok(3), Ok(4), Ok(8)]);
    // At mode time 5 the next multiple is 8, three ticks on.
    assert_eq!([demand(5, 3), demand(5, 4), demand(5, 6)], [Ok(0), Ok(1), Ok(2)]);
}

/// Beside more work pen is over where SX leaves its long mode inside the period.
#[test]
fn leave_by_sx_over() {
    let bytes = sheet_leave_by_sx_over();
    check_verdicts(&bytes, Some((6, 7)), Some((0, 6, 7, &[&[0, 0, 0, 0, 1, 1], &[0; 6]])));
    let over = ["quick over 6 demand 7", "exact over 0 6 demand 7"];
    check_lines(&bytes, &[&[PEN], &over[..], &["run 0 000011", "run 1 000000"]].concat());
}

/// No SW leaves it there: with 4 it is refused, and with 12 every run stays to
/// the period's end, as with an SX at 12.
#[test]
fn no_sw_leaves_where_sx_does() {
    let by_sw = |switch| sheet_pen("TK 0 3 4 12", switch, "TK 0 3 6 6");
    let refusal = Sheet::judge(&by_sw("SW 1 4")).unwrap_err();
    assert_eq!(refusal, Refusal::new(Fault::BadSwitch, 22));
    check_verdicts(&by_sw("SW 1 12"), Some((6, 7)), None);
    check_verdicts(&by_sw("SX 1 12"), Some((6, 7)), None);
}
