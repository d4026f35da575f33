//! The queries with any arguments on good and damaged sheets: a sheet's fault
//! goes before 9, and 9 before 10; else the literal way gives the answer.

use second::generate::{damaged, sheet, Damage, Rng, Shape};
use second::{brute, encode, judge, Refusal, Sheet, WORK_LEN};

/// A number near the front, now and then a huge one.
fn number(rng: &mut Rng, most: usize) -> u64 {
    match rng.below(20) {
        0 => rng.bits(),
        1 => *rng.pick(&[u64::MAX, 1 << 16, 1 << 32, (1 << 32) + 1, 1 << 63]),
        _ => rng.between(0, most) as u64,
    }
}

/// A length of lent memory about the wanted one.
fn lent(rng: &mut Rng, wanted: u64) -> u64 {
    match rng.below(10) {
        0 => number(rng, 9),
        1 => wanted.saturating_sub(1),
        2 => wanted + 1,
        _ => wanted,
    }
}

/// The answer, if the sheet has no fault and the ranges and the memory hold.
fn expected<T>(
    bytes: &[u8],
    in_range: impl Fn(&Sheet) -> bool,
    enough: impl Fn(&Sheet) -> bool,
    answer: impl Fn(&Sheet) -> T,
) -> Result<T, Refusal> {
    if let Some(refusal) = brute::refusal(bytes) {
        return Err(refusal);
    }
    let sheet = judge(bytes).unwrap();
    if !in_range(&sheet) {
        return Err(Refusal { number: 9, place: 0 });
    }
    if !enough(&sheet) {
        return Err(Refusal { number: 10, place: 0 });
    }
    Ok(answer(&sheet))
}

/// The period of a mode, if module and mode are there.
fn period(sheet: &Sheet, module: u64, mode: u64) -> Option<u64> {
    let module = sheet.modules.get(usize::try_from(module).ok()?)?;
    let mode = module.modes.get(usize::try_from(mode).ok()?)?;
    Some(u64::from(mode.period))
}

/// Asks every query of these bytes once. Gives the refusal numbers, 0 for none.
fn ask(rng: &mut Rng, bytes: &[u8]) -> [usize; 5] {
    let (module, mode) = (number(rng, 2), number(rng, 2));
    let (a, b) = (number(rng, 4), number(rng, 6));
    let (time, length) = (number(rng, 4), number(rng, 8));
    let work = lent(rng, WORK_LEN);
    let tape_wanted = judge(bytes).map_or(0, |s| s.modules.len() as u64 * u64::from(s.horizon));
    let tape = lent(rng, tape_wanted);
    let work_enough = |_: &Sheet| work >= WORK_LEN;

    let mode_demand = second::mode_demand(bytes, module, mode, a, b);
    let mode_range = |s: &Sheet| period(s, module, mode).is_some_and(|p| a <= b && b <= p);
    let literal =
        |s: &Sheet| brute::mode_demand(&s.modules[module as usize].modes[mode as usize], a, b);
    assert_eq!(mode_demand, expected(bytes, mode_range, |_| true, literal));

    let state_demand = second::state_demand(bytes, module, mode, time, length, work);
    let state_range = |s: &Sheet| {
        period(s, module, mode).is_some_and(|p| time < p) && length <= u64::from(s.horizon)
    };
    let literal =
        |s: &Sheet| brute::state_demand(&s.modules[module as usize], (mode as usize, time), length);
    assert_eq!(state_demand, expected(bytes, state_range, work_enough, literal));

    let module_demand = second::module_demand(bytes, module, length, work);
    let module_range = |s: &Sheet| period(s, module, 0).is_some() && length <= u64::from(s.horizon);
    let literal = |s: &Sheet| brute::module_demand(&s.modules[module as usize], length);
    assert_eq!(module_demand, expected(bytes, module_range, work_enough, literal));

    let quick = second::quick(bytes, work);
    assert_eq!(quick, expected(bytes, |_| true, work_enough, brute::quick));

    let exact = second::exact(bytes, work, tape);
    let enough = |_: &Sheet| work >= WORK_LEN && tape >= tape_wanted;
    assert_eq!(exact, expected(bytes, |_| true, enough, brute::exact));

    [mode_demand.err(), state_demand.err(), module_demand.err(), quick.err(), exact.err()]
        .map(|refusal| refusal.map_or(0, |r| usize::from(r.number)))
}

#[test]
fn any_arguments() {
    let mut rng = Rng::new(20);
    let mut seen = [[0; 11]; 5];
    let mut asked = 0;
    while asked < 20_000 {
        let made = sheet(&mut rng, &Shape::small());
        let bytes = match rng.chance(30) {
            true => {
                let kind = *rng.pick(&Damage::ALL);
                damaged(&mut rng, &made, kind)
            }
            false => encode(&made),
        };
        // A damaged sheet may pass and yet be too large for the literal way.
        if judge(&bytes).is_ok_and(|s| s.horizon > 12 || !brute::fits(&s, 100)) {
            continue;
        }
        asked += 1;
        for (query, number) in ask(&mut rng, &bytes).into_iter().enumerate() {
            seen[query][number] += 1;
        }
    }
    println!("{seen:?}");
    assert!(seen[1][9] > 100 && seen[1][10] > 100 && seen[4][10] > 100 && seen[1][0] > 100);
}
