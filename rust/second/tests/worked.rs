//! The paper's worked examples, A to J, with all their figures.

mod built;

use built::{both, mode, sheet, text, Fields};
use second::{
    brute, exact, judge, lay_tapes, mode_demand, module_demand, quick, state_demand, Exact, Quick,
    Refusal, WORK_LEN,
};

const SHEET_A: &str = "48 5A 08 00 4D 4C 01 00 4D 44 04 00 54 4B 00 00 02 00 03 00 04 00 \
    4D 4C 02 00 4D 44 04 00 54 4B 00 00 01 00 04 00 04 00 53 57 01 00 04 00 4D 44 04 00 \
    54 4B 01 00 02 00 02 00 04 00 45 4E 0A 00";

/// The bytes of sheet A as the paper prints them.
fn bytes_a() -> Vec<u8> {
    SHEET_A.split_whitespace().map(|pair| u8::from_str_radix(pair, 16).unwrap()).collect()
}

fn refused(bytes: &[u8]) -> (u8, usize) {
    let Refusal { number, place } = judge(bytes).unwrap_err();
    assert_eq!(brute::refusal(bytes), Some(Refusal { number, place }));
    assert_eq!(text(bytes), format!("refused {number} at {place}\n"));
    (number, place)
}

#[test]
fn case_a() {
    let printed = "sheet modules 2 modes 3 tasks 3 switches 1 horizon 8\n\
        quick over 3 demand 4\n\
        exact over 4 7 demand 4\n\
        run 0 0000000\n\
        run 1 0000111\n";
    assert_eq!(bytes_a().len(), 64);
    assert_eq!(text(&bytes_a()), printed);
    both(&bytes_a());
    let built = sheet(
        8,
        vec![
            vec![mode(4, &[(0, 2, 3, 4)], &[])],
            vec![mode(4, &[(0, 1, 4, 4)], &[(1, 4)]), mode(4, &[(1, 2, 2, 4)], &[])],
        ],
    );
    assert_eq!(built, bytes_a());
}

#[test]
fn case_a_tape_memory() {
    let answer = exact(&bytes_a(), WORK_LEN, 16).unwrap();
    let mut memory = [9; 20];
    lay_tapes(&answer, &mut memory);
    assert_eq!(memory, [0, 0, 0, 0, 0, 0, 0, 0, 0, 0, 0, 1, 1, 1, 9, 9, 9, 9, 9, 9]);
    let mut memory = [9; 20];
    lay_tapes(&Exact::Clear, &mut memory);
    assert_eq!(memory, [9; 20]);
}

#[test]
fn case_b() {
    let mut bytes = bytes_a();
    bytes[2] = 6;
    assert_eq!(both(&bytes), (Quick::Over { length: 3, demand: 4 }, Exact::Clear));
    let printed = "sheet modules 2 modes 3 tasks 3 switches 1 horizon 6\n\
        quick over 3 demand 4\n\
        exact clear\n";
    assert_eq!(text(&bytes), printed);
}

#[test]
fn case_c() {
    let demand = |length| state_demand(&bytes_a(), 1, 0, 1, length, WORK_LEN);
    assert_eq!(demand(5), Ok(0));
    assert_eq!(demand(6), Ok(2));
    let module = &judge(&bytes_a()).unwrap().modules[1];
    assert_eq!(brute::state_demand(module, (0, 1), 5), 0);
    assert_eq!(brute::state_demand(module, (0, 1), 6), 2);
}

/// Checks mode demands (a, b, demand) of a sheet's only mode, both ways.
fn check_mode_demands(bytes: &[u8], figures: &[(u64, u64, u64)]) {
    let sheet = judge(bytes).unwrap();
    for &(a, b, demand) in figures {
        assert_eq!(mode_demand(bytes, 0, 0, a, b), Ok(demand), "{a} to {b}");
        assert_eq!(brute::mode_demand(&sheet.modules[0].modes[0], a, b), demand);
    }
}

#[test]
fn case_d() {
    let bytes = sheet(8, vec![vec![mode(8, &[(1, 1, 1, 8)], &[])]]);
    check_mode_demands(&bytes, &[(0, 1, 0), (0, 2, 1), (1, 2, 1), (2, 8, 0)]);
}

#[test]
fn case_e() {
    let bytes = sheet(8, vec![vec![mode(8, &[(0, 1, 4, 4)], &[])]]);
    check_mode_demands(&bytes, &[(1, 4, 0), (1, 8, 1), (0, 8, 2)]);
}

/// The system of cases F and G with these tasks.
fn two_modes_and_one(horizon: u16, first: Fields, second: Fields, other: Fields) -> Vec<u8> {
    let switching = vec![mode(4, &[first], &[(1, 4)]), mode(4, &[second], &[(0, 4)])];
    sheet(horizon, vec![switching, vec![mode(8, &[other], &[])]])
}

#[test]
fn case_f() {
    let bytes = two_modes_and_one(16, (0, 2, 2, 4), (2, 2, 2, 4), (0, 4, 8, 8));
    assert_eq!(both(&bytes), (Quick::Over { length: 8, demand: 10 }, Exact::Clear));
}

#[test]
fn case_g() {
    let bytes = two_modes_and_one(8, (0, 1, 1, 4), (1, 3, 3, 4), (0, 6, 8, 8));
    let tapes = vec![vec![0, 0, 0, 0, 1, 1, 1, 1], vec![0; 8]];
    let over = Exact::Over { a: 0, b: 8, demand: 10, tapes };
    assert_eq!(both(&bytes), (Quick::Over { length: 8, demand: 13 }, over));
}

#[test]
fn case_h() {
    let bytes = sheet(1, vec![vec![mode(1, &[], &[])]]);
    assert_eq!(bytes.len(), 16);
    assert_eq!(both(&bytes), (Quick::Clear, Exact::Clear));
    let lines = "sheet modules 1 modes 1 tasks 0 switches 0 horizon 1\nquick clear\nexact clear\n";
    assert_eq!(text(&bytes), lines);
    let mut wrong = bytes.clone();
    wrong[14] = 4;
    assert_eq!(refused(&wrong), (7, 12));
    let longer = [&bytes[..], &[0]].concat();
    assert_eq!(refused(&longer), (8, 16));
    assert_eq!(refused(&[]), (1, 0));
}

/// At any horizon the quick test is over at once.
#[test]
fn case_i() {
    for horizon in [1, 2, 3, 4, 7, 8, 12] {
        assert_eq!(both(&table_1(horizon)).0, Quick::Over { length: 1, demand: 2 });
    }
    for horizon in [16, 100, 777, 1999, 2000] {
        let answer = quick(&table_1(horizon), WORK_LEN);
        assert_eq!(answer, Ok(Quick::Over { length: 1, demand: 2 }));
    }
}

/// The system of the source's Table 1: three modules, with one switch in module 0 and two in
/// module 1.
fn table_1(horizon: u16) -> Vec<u8> {
    let first =
        vec![mode(10, &[(0, 2, 6, 10), (0, 1, 5, 5)], &[(1, 10)]), mode(8, &[(2, 1, 2, 8)], &[])];
    let second = vec![mode(4, &[(0, 1, 4, 4)], &[(1, 4)]), mode(8, &[(1, 1, 1, 8)], &[(0, 8)])];
    let third = vec![mode(8, &[(2, 1, 1, 8)], &[])];
    sheet(horizon, vec![first, second, third])
}

#[test]
fn case_j() {
    let passes = sheet(4, vec![vec![mode(4, &[(1, 3, 3, 4)], &[])]]);
    assert!(judge(&passes).is_ok());
    let breaks = sheet(4, vec![vec![mode(4, &[(1, 1, 4, 4)], &[])]]);
    assert_eq!(refused(&breaks), (5, 12));
    let modes = vec![mode(8, &[(0, 1, 1, 8)], &[(1, 4)]), mode(8, &[], &[])];
    assert_eq!(refused(&sheet(4, vec![modes])), (6, 22));
}

#[test]
fn query_refusals() {
    let a = bytes_a();
    let nine = Refusal { number: 9, place: 0 };
    let ten = Refusal { number: 10, place: 0 };
    for huge in [2, 3, 1 << 32, 1 << 63, u64::MAX] {
        assert_eq!(mode_demand(&a, huge, 0, 0, 0), Err(nine));
        assert_eq!(mode_demand(&a, 1, huge, 0, 0), Err(nine));
        assert_eq!(module_demand(&a, huge, 0, WORK_LEN), Err(nine));
        assert_eq!(state_demand(&a, huge, 0, 0, 0, 0), Err(nine));
        assert_eq!(state_demand(&a, 1, huge, 0, 0, 0), Err(nine));
        assert_eq!(state_demand(&a, 1, 1, huge.max(4), 0, 0), Err(nine));
    }
    assert_eq!(mode_demand(&a, 0, 1, 0, 0), Err(nine));
    assert_eq!(mode_demand(&a, 0, 0, 2, 1), Err(nine));
    assert_eq!(mode_demand(&a, 0, 0, 0, 5), Err(nine));
    assert_eq!(mode_demand(&a, 0, 0, 4, 4), Ok(0));
    assert_eq!(state_demand(&a, 0, 0, 4, 0, WORK_LEN), Err(nine));
    assert_eq!(state_demand(&a, 0, 0, 3, 9, WORK_LEN), Err(nine));
    assert_eq!(state_demand(&a, 0, 0, 3, 8, WORK_LEN - 1), Err(ten));
    assert_eq!(state_demand(&a, 0, 0, 3, 8, u64::MAX), Ok(4));
    assert_eq!(module_demand(&a, 0, 9, 0), Err(nine));
    assert_eq!(module_demand(&a, 0, 8, 0), Err(ten));
    assert_eq!(module_demand(&a, 0, 8, WORK_LEN), Ok(4));
    assert_eq!(quick(&a, WORK_LEN - 1), Err(ten));
    assert_eq!(exact(&a, WORK_LEN - 1, 16), Err(ten));
    assert_eq!(exact(&a, WORK_LEN, 15), Err(ten));
    assert!(exact(&a, WORK_LEN, 16).is_ok());
    let cut = &a[..63];
    let one = Refusal { number: 1, place: 60 };
    assert_eq!(mode_demand(cut, 9, 9, 9, 9), Err(one));
    assert_eq!(state_demand(cut, 9, 9, 9, 9, 0), Err(one));
    assert_eq!(module_demand(cut, 9, 9, 0), Err(one));
    assert_eq!(quick(cut, 0), Err(one));
    assert_eq!(exact(cut, 0, 0), Err(one));
}

/// On a clear sheet the tape memory has to be long enough all the same.
#[test]
fn tape_memory_on_clear() {
    let mut bytes = bytes_a();
    bytes[2] = 6;
    assert_eq!(exact(&bytes, WORK_LEN, 11), Err(Refusal { number: 10, place: 0 }));
    assert_eq!(exact(&bytes, WORK_LEN, 12), Ok(Exact::Clear));
}
