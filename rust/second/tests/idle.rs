//! Switching at idle instants: worked sheets for change request k.

mod built;

use built::{both, mode, sheet, text, Fields};
use second::generate::{Rng, Shape};
use second::sheet::{LONGEST_SHEET, MOST_MODES, MOST_SWITCHES};
use second::{
    brute, encode, generate, judge, module_demand, reached, state_demand, Exact, Kind, Mode, Quick,
    Refusal, Sheet, Switch, WORK_LEN,
};
use Kind::{Sw, Sx};

/// A mode with switches of both kinds.
fn mode_with(period: u16, tasks: &[Fields], switches: &[(Kind, u16, u16)]) -> Mode {
    let switch = |&(kind, target, period)| Switch { kind, target, period };
    Mode { switches: switches.iter().map(switch).collect(), ..mode(period, tasks, &[]) }
}

/// The refusal, by both judges; a sheet that passes is written back the same.
fn refusal(bytes: &[u8]) -> Option<(u8, usize)> {
    let judged = judge(bytes);
    assert_eq!(judged.as_ref().err().copied(), brute::refusal(bytes));
    if let Ok(good) = &judged {
        assert_eq!(encode(good), bytes);
    }
    judged.err().map(|Refusal { number, place }| (number, place))
}

/// Judges a sheet of one module with three modes, the last two without tasks and
/// switches. Gives the refusal's number, and the number of the switch it is at.
fn judged(period: u16, tasks: &[Fields], switches: &[(Kind, u16, u16)]) -> Option<(u8, usize)> {
    let modes = vec![mode_with(period, tasks, switches), mode(1, &[], &[]), mode(1, &[], &[])];
    let first_switch = 12 + 10 * tasks.len();
    refusal(&sheet(8, vec![modes])).map(|(number, place)| (number, (place - first_switch) / 6))
}

/// Which periods an SX may have in a mode with period 12 and these tasks, of the
/// divisors of 12.
fn allowed(tasks: &[Fields]) -> Vec<u16> {
    let passes = |period: &u16| match judged(12, tasks, &[(Sx, 1, *period)]) {
        None => true,
        Some(refusal) => {
            assert_eq!(refusal, (6, 0));
            false
        }
    };
    [1, 2, 3, 4, 6, 12].into_iter().filter(passes).collect()
}

#[test]
fn borders() {
    // From 4 to 7: 4 is at the release; 5 and 6 are within.
    assert_eq!(allowed(&[(4, 1, 3, 12)]), [4, 12]);
    // From 3 to 6: 3 at the release, 6 at the due tick, and 4 one after the release.
    assert_eq!(allowed(&[(3, 1, 3, 12)]), [3, 6, 12]);
    // From 3 to 7: 4 one after the release, 6 one before the due tick.
    assert_eq!(allowed(&[(3, 1, 4, 12)]), [12]);
    // From 3 to 5: 4 is both.
    assert_eq!(allowed(&[(3, 1, 2, 12)]), [3, 6, 12]);
    // From 0 to 2: the release at 0 is before every multiple.
    assert_eq!(allowed(&[(0, 1, 2, 12)]), [2, 3, 4, 6, 12]);
    // From 10 to 12: the mode period is the due tick.
    assert_eq!(allowed(&[(10, 1, 2, 12)]), [2, 3, 4, 6, 12]);
    // From 0 to 12: no multiple but the mode period is left.
    assert_eq!(allowed(&[(0, 1, 12, 12)]), [12]);
    // Nothing is strictly between neighbours.
    assert_eq!(allowed(&[(5, 1, 1, 12)]), [1, 2, 3, 4, 6, 12]);
}

#[test]
fn every_instance_counts() {
    // From 1 to 3 and from 7 to 9: 4 misses the first instance, yet 8 does not.
    assert_eq!(allowed(&[(1, 1, 2, 6)]), [3, 6, 12]);
    // From 0 to 2 and from 6 to 8: 8 is the second due tick.
    assert_eq!(allowed(&[(0, 1, 2, 6)]), [2, 3, 4, 6, 12]);
    // From 4 to 6 and from 10 to 12: 4 is the first release, 12 the second due tick.
    assert_eq!(allowed(&[(4, 1, 2, 6)]), [2, 3, 4, 6, 12]);
    // From 1 to 3, 5 to 7 and 9 to 11: 6 is within the second alone.
    assert_eq!(allowed(&[(1, 1, 2, 4)]), [4, 12]);
    // From 2 to 4, 6 to 8 and 10 to 12: of the multiples of 3 only 3 is within one.
    assert_eq!(allowed(&[(2, 1, 2, 4)]), [2, 4, 6, 12]);
    // An instance in every tick: none has anything within.
    assert_eq!(allowed(&[(0, 1, 1, 1)]), [1, 2, 3, 4, 6, 12]);
}

#[test]
fn every_task_counts() {
    let (early, late, short) = ((0, 1, 2, 6), (3, 1, 2, 12), (0, 1, 1, 1));
    for tasks in [vec![early, late], vec![late, early], vec![short, late, early, short]] {
        assert_eq!(allowed(&tasks), [3, 6, 12]);
    }
}

/// What SW may have, SX may have: the multiples of all task periods.
#[test]
fn periods_of_sw() {
    for (tasks, periods) in [
        (vec![(1, 1, 2, 3), (0, 2, 2, 2)], vec![6, 12]),
        (vec![(1, 1, 3, 4)], vec![4, 12]),
        (vec![], vec![1, 2, 3, 4, 6, 12]),
    ] {
        for period in [1, 2, 3, 4, 6, 12] {
            let sw = judged(12, &tasks, &[(Sw, 1, period)]);
            assert_eq!(sw, (!periods.contains(&period)).then_some((6, 0)));
            assert!(sw.is_some() || judged(12, &tasks, &[(Sx, 1, period)]).is_none());
        }
    }
}

/// The switch period is at least 1 and divides the mode period, with tasks or
/// without.
#[test]
fn switch_period() {
    for tasks in [&[][..], &[(0, 1, 1, 12)], &[(0, 1, 1, 1)]] {
        for period in [0, 5, 7, 8, 9, 11, 13, 24, 1024, 32_768, 65_535] {
            assert_eq!(judged(12, tasks, &[(Sx, 1, period)]), Some((6, 0)));
        }
        for period in [1, 2, 3, 4, 6, 12] {
            assert_eq!(judged(12, tasks, &[(Sx, 1, period)]), None);
        }
    }
}

/// The target is another mode of the module, named once among SW and SX.
#[test]
fn target() {
    for target in [0, 3, 4, 7, 8, 255, 256, 65_535] {
        assert_eq!(judged(12, &[], &[(Sx, target, 12)]), Some((6, 0)));
    }
    for (one, two) in [(Sw, Sx), (Sx, Sw), (Sx, Sx), (Sw, Sw)] {
        assert_eq!(judged(12, &[], &[(one, 1, 12), (two, 2, 12)]), None);
        assert_eq!(judged(12, &[], &[(one, 1, 12), (two, 1, 12)]), Some((6, 1)));
        assert_eq!(judged(12, &[], &[(one, 1, 12), (two, 1, 6)]), Some((6, 1)));
        let between = [(one, 1, 12), (Sx, 2, 6), (two, 1, 12)];
        assert_eq!(judged(12, &[], &between), Some((6, 2)));
    }
}

/// SW and SX in one mode, in either order: each keeps its own rule.
#[test]
fn both_kinds_in_one_mode() {
    let tasks = [(0, 1, 2, 6)];
    assert_eq!(judged(12, &tasks, &[(Sw, 1, 6), (Sx, 2, 4)]), None);
    assert_eq!(judged(12, &tasks, &[(Sx, 2, 4), (Sw, 1, 6)]), None);
    assert_eq!(judged(12, &tasks, &[(Sx, 2, 4), (Sw, 1, 4)]), Some((6, 1)));
    assert_eq!(judged(12, &tasks, &[(Sw, 2, 4), (Sx, 1, 4)]), Some((6, 0)));
    assert_eq!(judged(12, &tasks, &[(Sw, 1, 6), (Sx, 2, 1)]), Some((6, 1)));
}

/// SX stands where SW may stand, and no TK comes after it in its mode.
#[test]
fn order() {
    const TASK: &[u8] = b"TK\0\0\x01\0\x01\0\x04\0";
    const SX: &[u8] = b"SX\x01\0\x04\0";
    const SW: &[u8] = b"SW\x01\0\x04\0";
    let front = b"HZ\x08\0ML\x02\0MD\x04\0";
    let after = |records: &[&[u8]]| {
        let bytes = [&front[..], &records.concat()].concat();
        refusal(&bytes).map(|(number, place)| (number, place as isize - bytes.len() as isize))
    };
    assert_eq!(after(&[TASK, SX]), Some((1, 0)));
    assert_eq!(after(&[SX, TASK]), Some((3, -10)));
    assert_eq!(after(&[TASK, SX, TASK]), Some((3, -10)));
    // Fields that are cut short go before the order.
    assert_eq!(after(&[SX, &TASK[..9]]), Some((1, -9)));
    assert_eq!(after(&[SX, &SX[..5]]), Some((1, -5)));
    assert_eq!(after(&[SX, &SX[..2]]), Some((1, -2)));
    // The next mode may have tasks again, and EN has to wait for it.
    assert_eq!(after(&[SX, b"MD\x04\0", TASK]), Some((1, 0)));
    assert_eq!(after(&[SX, b"EN\x04\0"]), Some((3, -4)));
    assert_eq!(after(&[SX, b"MD\x04\0", b"EN\x05\0"]), None);
    assert_eq!(after(&[SX, b"MD\x04\0", b"EN\x05\0", SX]), Some((8, -6)));
    assert_eq!(after(&[SX, b"SY\x01\0\x04\0"]), Some((2, -6)));
    assert_eq!(after(&[SX, b"sx\x01\0\x04\0"]), Some((2, -6)));
    assert_eq!(after(&[SW, SX]), Some((6, -6)));
    assert_eq!(refusal(SX), Some((3, 0)));
    assert_eq!(refusal(&[b"HZ\x08\0", SX].concat()), Some((3, 4)));
    assert_eq!(refusal(&[b"HZ\x08\0ML\x02\0", SX].concat()), Some((3, 8)));
}

/// Eight modules of eight modes with two switches each, the number of it picking
/// the kind: 128 in all.
fn full(kind: impl Fn(usize) -> Kind) -> Sheet {
    let bare = |_| vec![mode(1, &[], &[]); MOST_MODES];
    let mut full = judge(&sheet(8, (0..8).map(bare).collect())).unwrap();
    let mut kinds = (0..).map(kind);
    for module in &mut full.modules {
        for (own, mode) in module.modes.iter_mut().enumerate() {
            let targets = [1, 2].map(|by| ((own + by) % MOST_MODES) as u16);
            let switch = |(target, kind)| Switch { kind, target, period: 1 };
            mode.switches = targets.into_iter().zip(&mut kinds).map(switch).collect();
        }
    }
    full
}

/// SW and SX count together: the 129th is 4, whichever it is and whatever its
/// fields are.
#[test]
fn switches_counted_together() {
    let by_number: [fn(usize) -> Kind; 4] = [
        |_| Sx,
        |_| Sw,
        |number| if number % 3 == 0 { Sx } else { Sw },
        |number| if number < 127 { Sw } else { Sx },
    ];
    for kind in by_number {
        let mut made = full(kind);
        assert_eq!(made.counts().switches, MOST_SWITCHES);
        let bytes = encode(&made);
        assert_eq!(refusal(&bytes), None);
        assert_eq!(bytes.len(), LONGEST_SHEET - 256 * 10);
        for (last, target, period) in [(Sx, 2, 1), (Sw, 2, 1), (Sx, 7, 0), (Sx, 0, 1), (Sw, 9, 3)] {
            let switches = &mut made.modules[7].modes[7].switches;
            switches.truncate(2);
            switches.push(Switch { kind: last, target, period });
            assert_eq!(refusal(&encode(&made)), Some((4, bytes.len() - 4)));
        }
    }
}

/// Pen, whose long mode has to be left sooner, beside one more module. Mode 0 has
/// an instance from 0 to 2 in eight ticks; in mode 1 all ticks are needed.
fn pen(switch: (Kind, u16, u16)) -> Vec<u8> {
    let pen = vec![mode_with(8, &[(0, 2, 2, 8)], &[switch]), mode(2, &[(0, 2, 2, 2)], &[])];
    sheet(8, vec![pen, vec![mode(8, &[(2, 1, 2, 8)], &[])]])
}

/// A run leaves within the task period, where the instance is due.
#[test]
fn leaving_within_a_task_period() {
    let quick = Quick::Over { length: 2, demand: 3 };
    let tapes = vec![vec![0, 0, 1, 1], vec![0; 4]];
    let over = Exact::Over { a: 2, b: 4, demand: 3, tapes };
    assert_eq!(both(&pen((Sx, 1, 2))), (quick, over));
    let printed = "sheet modules 2 modes 3 tasks 3 switches 1 horizon 8\n\
        quick over 2 demand 3\n\
        exact over 2 4 demand 3\n\
        run 0 0011\n\
        run 1 0000\n";
    assert_eq!(text(&pen((Sx, 1, 2))), printed);
    assert_eq!(both(&pen((Sx, 1, 4))), (quick, Exact::Clear));
    assert_eq!(both(&pen((Sx, 1, 8))), (quick, Exact::Clear));
    assert_eq!(both(&pen((Sw, 1, 8))), (quick, Exact::Clear));
    assert_eq!(text(&pen((Sx, 1, 1))), "refused 6 at 22\n");
    assert_eq!(text(&pen((Sw, 1, 2))), "refused 6 at 22\n");
}

/// The state demand of a sheet's module 0, checked against the literal way.
fn demand_from(bytes: &[u8], mode: usize, time: u64, length: u64) -> u64 {
    let answer = state_demand(bytes, 0, mode as u64, time, length, WORK_LEN).unwrap();
    let module = &judge(bytes).unwrap().modules[0];
    assert_eq!(brute::state_demand(module, (mode, time), length), answer);
    answer
}

/// Every state and module demand of a sheet up to its horizon, checked against the
/// literal way.
fn all_demands(bytes: &[u8]) -> Vec<u64> {
    let sheet = judge(bytes).unwrap();
    let mut all = Vec::new();
    for (module, number) in sheet.modules.iter().zip(0..) {
        for length in 0..=u64::from(sheet.horizon) {
            for (mode, time) in brute::all_states(module) {
                let answer = state_demand(bytes, number, mode as u64, time, length, WORK_LEN);
                assert_eq!(answer, Ok(brute::state_demand(module, (mode, time), length)));
                all.extend(answer);
            }
            let answer = module_demand(bytes, number, length, WORK_LEN);
            assert_eq!(answer, Ok(brute::module_demand(module, length)));
            all.extend(answer);
        }
    }
    all
}

/// What the old mode would release at the tick of leaving it does not release;
/// what is due at that tick counts.
#[test]
fn releases_at_the_tick_of_leaving() {
    let next = || mode(1, &[(0, 1, 1, 1)], &[]);
    let releasing = vec![mode_with(4, &[(2, 1, 1, 4)], &[(Sx, 1, 2)]), next()];
    let bytes = sheet(8, vec![releasing]);
    assert_eq!(demand_from(&bytes, 0, 1, 2), 1);
    assert_eq!(demand_from(&bytes, 0, 0, 4), 2);
    both(&bytes);
    let due = vec![mode_with(4, &[(0, 2, 2, 4)], &[(Sx, 1, 2)]), next()];
    let bytes = sheet(8, vec![due]);
    assert_eq!(demand_from(&bytes, 0, 0, 2), 2);
    assert_eq!(demand_from(&bytes, 0, 0, 3), 3);
    assert_eq!(demand_from(&bytes, 0, 0, 8), 8);
    both(&bytes);
}

/// Task periods and switch periods that divide none of each other: the mode times
/// of one mode period all differ.
#[test]
fn periods_that_divide_none_of_each_other() {
    let first = mode_with(12, &[(0, 1, 2, 6), (2, 1, 2, 4)], &[(Sx, 1, 4), (Sw, 2, 12)]);
    let second = mode_with(6, &[(1, 1, 1, 2)], &[(Sx, 0, 3)]);
    let third = mode_with(6, &[(2, 1, 1, 3)], &[(Sx, 1, 2), (Sx, 0, 1)]);
    let bytes = sheet(13, vec![vec![first, second, third]]);
    all_demands(&bytes);
    both(&bytes);
}

/// A mode that only an SX leads to is reached.
#[test]
fn reached_by_sx() {
    let modes = vec![
        mode_with(4, &[(0, 1, 2, 4)], &[(Sx, 2, 2)]),
        mode(2, &[], &[]),
        mode(2, &[(0, 2, 2, 2), (0, 2, 2, 2)], &[]),
    ];
    let bytes = sheet(1, vec![modes.clone()]);
    assert_eq!(both(&bytes), (Quick::Clear, Exact::Clear));
    assert_eq!(both(&sheet(2, vec![modes])).0, Quick::Over { length: 2, demand: 4 });
    assert_eq!(reached(&judge(&bytes).unwrap().modules[0]), [true, false, true]);
}

/// The number of switches in the first line counts both kinds.
#[test]
fn count_of_switches() {
    let first = mode_with(4, &[], &[(Sx, 1, 2), (Sw, 2, 4)]);
    let modes = vec![first, mode_with(2, &[], &[(Sx, 0, 1)]), mode(1, &[], &[])];
    let lines = "sheet modules 1 modes 3 tasks 0 switches 3 horizon 5\nquick clear\nexact clear\n";
    assert_eq!(text(&sheet(5, vec![modes])), lines);
}

/// The sheet with SX in place of every SW.
fn all_sx(sheet: &Sheet) -> Sheet {
    let mut turned = sheet.clone();
    let modes = turned.modules.iter_mut().flat_map(|module| &mut module.modes);
    modes.flat_map(|mode| &mut mode.switches).for_each(|switch| switch.kind = Sx);
    turned
}

/// With SX in place of every SW a sheet is good, and as long.
#[test]
fn sx_in_place_of_sw() {
    let mut rng = Rng::new(41);
    for (name, shape) in Shape::all() {
        let mut with_sw = 0;
        for _ in 0..100 {
            let made = generate::sheet(&mut rng, &shape);
            let turned = all_sx(&made);
            with_sw += usize::from(turned != made);
            assert_eq!(refusal(&encode(&turned)), None);
            assert_eq!(encode(&turned).len(), encode(&made).len());
        }
        println!("{name}: {with_sw} sheets with SW");
        assert!(with_sw >= 50, "{name}");
    }
}

/// With SX in place of every SW a sheet has the same demands and verdicts, by
/// either way. Sheets without SW are left out, and those too large for the literal
/// way.
#[test]
fn runs_read_sx_as_sw() {
    let mut rng = Rng::new(40);
    for shape in [Shape::small(), Shape::small_light()] {
        let mut compared = 0;
        for _ in 0..600 {
            let made = generate::sheet(&mut rng, &shape);
            let turned = all_sx(&made);
            if turned == made || !brute::fits(&made, 200) {
                continue;
            }
            compared += 1;
            let [before, after] = [made, turned].map(|sheet| encode(&sheet));
            assert_eq!(all_demands(&after), all_demands(&before), "{after:?}");
            assert_eq!(both(&after), both(&before), "{after:?}");
        }
        println!("{compared} sheets compared");
        assert!(compared >= 300);
    }
}
