//! Modes that are not reached, and chains of switches: worked sheets for change
//! request b.

mod built;

use built::{both, mode, sheet, text};
use second::{
    brute, judge, mode_demand, module_demand, reached, state_demand, Exact, Kind, Mode, Module,
    Quick, Switch, WORK_LEN,
};

/// Checks module demands (length, demand) of a sheet's module 0, both ways.
fn check_module_demands(bytes: &[u8], figures: &[(u64, u64)]) {
    let module = &judge(bytes).unwrap().modules[0];
    for &(length, demand) in figures {
        assert_eq!(module_demand(bytes, 0, length, WORK_LEN), Ok(demand), "length {length}");
        assert_eq!(brute::module_demand(module, length), demand);
    }
}

/// The state demand of a sheet's module 0, checked against the literal way.
fn demand_from(bytes: &[u8], mode: usize, time: u64, length: u64) -> u64 {
    let answer = state_demand(bytes, 0, mode as u64, time, length, WORK_LEN).unwrap();
    let module = &judge(bytes).unwrap().modules[0];
    assert_eq!(brute::state_demand(module, (mode, time), length), answer);
    answer
}

/// Which modes are reached, by both ways.
fn reached_modes(modes: Vec<Mode>) -> Vec<bool> {
    let module = Module { modes };
    assert_eq!(reached(&module), brute::reached(&module));
    reached(&module)
}

/// The sum at the smallest length for which the sum exceeds it, if the states of
/// all listed modes counted, as before request b.
fn over_if_all_counted(bytes: &[u8]) -> Option<(u64, u64)> {
    let sheet = judge(bytes).unwrap();
    let largest = |module: &Module, length| {
        let states = brute::all_states(module).into_iter();
        states.map(|state| brute::state_demand(module, state, length)).max().unwrap()
    };
    let sum = |length| sheet.modules.iter().map(|module| largest(module, length)).sum::<u64>();
    (1..=u64::from(sheet.horizon)).map(|n| (n, sum(n))).find(|(n, sum)| sum > n)
}

/// A panel module in daily use, and a module beside it. With `factory`, the
/// panel module has a third mode that no switch leads to.
fn panel(factory: Option<Mode>) -> Vec<u8> {
    let mut modes = vec![mode(8, &[(0, 2, 4, 8)], &[(1, 8)]), mode(8, &[(0, 1, 8, 8)], &[(0, 8)])];
    modes.extend(factory);
    sheet(16, vec![modes, vec![mode(8, &[(0, 4, 8, 8)], &[])]])
}

/// The factory mode: eight ticks of work in every four. It leads to daily use.
fn factory() -> Mode {
    mode(4, &[(0, 4, 4, 4), (0, 4, 4, 4)], &[(0, 4)])
}

#[test]
fn factory_mode() {
    let bytes = panel(Some(factory()));
    assert_eq!(over_if_all_counted(&bytes), Some((4, 8)));
    assert_eq!(both(&bytes), (Quick::Clear, Exact::Clear));
    assert_eq!(both(&panel(None)), (Quick::Clear, Exact::Clear));
    let printed = "sheet modules 2 modes 4 tasks 5 switches 3 horizon 16\n\
        quick clear\n\
        exact clear\n";
    assert_eq!(text(&bytes), printed);
    let figures = [(0, 0), (3, 0), (4, 2), (8, 2), (11, 2), (12, 4), (16, 4)];
    check_module_demands(&bytes, &figures);
    check_module_demands(&panel(None), &figures);
}

/// The factory mode itself can still be asked about.
#[test]
fn factory_mode_queries() {
    let bytes = panel(Some(factory()));
    assert_eq!(demand_from(&bytes, 2, 0, 3), 0);
    assert_eq!(demand_from(&bytes, 2, 0, 4), 8);
    assert_eq!(demand_from(&bytes, 2, 1, 6), 0);
    assert_eq!(demand_from(&bytes, 2, 1, 7), 8);
    assert_eq!(demand_from(&bytes, 2, 0, 16), 32);
    assert_eq!(mode_demand(&bytes, 0, 2, 0, 4), Ok(8));
    assert_eq!(mode_demand(&bytes, 0, 2, 1, 4), Ok(0));
}

/// One switch to the factory mode, and its work counts.
#[test]
fn factory_mode_entered() {
    let mut modules = judge(&panel(Some(factory()))).unwrap().modules;
    modules[0].modes[1].switches.push(Switch { kind: Kind::Sw, target: 2, period: 8 });
    let bytes = sheet(16, modules.into_iter().map(|module| module.modes).collect());
    // The switch comes at tick 16 at the earliest, which is not before the horizon.
    assert_eq!(both(&bytes), (Quick::Over { length: 4, demand: 8 }, Exact::Clear));
    check_module_demands(&bytes, &[(4, 8), (16, 32)]);
}

/// Sheet A with a factory mode in module 1: the verdicts, the sums and the tapes
/// are those of sheet A.
#[test]
fn factory_mode_on_an_over_sheet() {
    let bytes = sheet(
        8,
        vec![
            vec![mode(4, &[(0, 2, 3, 4)], &[])],
            vec![
                mode(4, &[(0, 1, 4, 4)], &[(1, 4)]),
                mode(4, &[(1, 2, 2, 4)], &[]),
                mode(1, &[(0, 1, 1, 1), (0, 1, 1, 1)], &[(0, 1), (1, 1)]),
            ],
        ],
    );
    let printed = "sheet modules 2 modes 4 tasks 5 switches 3 horizon 8\n\
        quick over 3 demand 4\n\
        exact over 4 7 demand 4\n\
        run 0 0000000\n\
        run 1 0000111\n";
    assert_eq!(over_if_all_counted(&bytes), Some((1, 2)));
    assert_eq!(text(&bytes), printed);
    both(&bytes);
}

/// Orders of eight modes for chains of seven switches.
const ORDERS: [[u16; 8]; 4] = [
    [0, 1, 2, 3, 4, 5, 6, 7],
    [0, 7, 6, 5, 4, 3, 2, 1],
    [0, 4, 1, 5, 2, 6, 3, 7],
    [0, 3, 7, 2, 5, 1, 6, 4],
];

/// A chain of seven switches in this order, two ticks in each mode, and twice
/// too much work in the last one.
fn chain(order: &[u16; 8]) -> Vec<Mode> {
    let mut modes = vec![mode(2, &[], &[]); 8];
    for pair in order.windows(2) {
        modes[usize::from(pair[0])] = mode(2, &[], &[(pair[1], 2)]);
    }
    modes[usize::from(order[7])] = mode(2, &[(0, 2, 2, 2), (0, 2, 2, 2)], &[]);
    modes
}

/// A run that takes every switch at once is in the last mode from tick 14 on.
#[test]
fn chain_of_seven() {
    let over = Quick::Over { length: 2, demand: 4 };
    for order in ORDERS {
        assert_eq!(reached_modes(chain(&order)), [true; 8]);
        let tapes = vec![order.iter().flat_map(|&mode| [mode as u8; 2]).collect()];
        let at_the_end = Exact::Over { a: 14, b: 16, demand: 4, tapes };
        assert_eq!(both(&sheet(16, vec![chain(&order)])), (over, at_the_end));
        // The quick test counts the last mode however far it is.
        for horizon in [2, 13, 14, 15] {
            assert_eq!(both(&sheet(horizon, vec![chain(&order)])), (over, Exact::Clear));
        }
        check_module_demands(&sheet(15, vec![chain(&order)]), &[(1, 0), (2, 4), (3, 4), (15, 28)]);
    }
}

/// With any one of its switches left out, the rest of the chain is not reached.
#[test]
fn broken_chain() {
    for order in ORDERS {
        for broken in 0..7 {
            let mut modes = chain(&order);
            modes[usize::from(order[broken])].switches.clear();
            let place = |mode: u16| order.iter().position(|&other| other == mode);
            let before: Vec<bool> = (0..8).map(|mode| place(mode) <= Some(broken)).collect();
            assert_eq!(reached_modes(modes.clone()), before);
            let bytes = sheet(15, vec![modes]);
            assert_eq!(over_if_all_counted(&bytes), Some((2, 4)));
            assert_eq!(both(&bytes), (Quick::Clear, Exact::Clear));
            check_module_demands(&bytes, &[(2, 0), (15, 0)]);
            assert_eq!(demand_from(&bytes, usize::from(order[7]), 0, 15), 28);
        }
    }
}

/// Mode 1 is not reached and lists the two that are. Runs that begin in mode 1
/// do not count, wherever they go.
#[test]
fn unreached_mode_lists_reached_ones() {
    let leading_in = mode(2, &[(0, 2, 2, 2)], &[(0, 2), (2, 2)]);
    let modes =
        vec![mode(4, &[(0, 1, 4, 4)], &[(2, 4)]), leading_in, mode(4, &[(3, 1, 1, 4)], &[])];
    assert_eq!(reached_modes(modes.clone()), [true, false, true]);
    let bytes = sheet(9, vec![modes]);
    // From mode 1 most is released by staying there.
    assert_eq!(demand_from(&bytes, 1, 0, 6), 6);
    assert_eq!(demand_from(&bytes, 1, 1, 5), 4);
    // From mode 2, time 3, an instance at once and every four ticks.
    check_module_demands(&bytes, &[(0, 0), (1, 1), (4, 1), (5, 2), (8, 2), (9, 3)]);
    assert_eq!(both(&bytes), (Quick::Clear, Exact::Clear));
}

/// Modes that list each other are not reached unless mode 0 leads to one.
#[test]
fn unreached_modes_list_each_other() {
    let ring = |first: &[(u16, u16)]| {
        vec![
            mode(3, &[], first),
            mode(2, &[(0, 2, 2, 2)], &[(2, 2)]),
            mode(4, &[(0, 2, 2, 2)], &[(3, 4), (0, 2)]),
            mode(6, &[(0, 2, 2, 2)], &[(1, 6)]),
        ]
    };
    assert_eq!(reached_modes(ring(&[])), [true, false, false, false]);
    check_module_demands(&sheet(5, vec![ring(&[])]), &[(2, 0), (5, 0)]);
    for entry in 1..=3 {
        assert_eq!(reached_modes(ring(&[(entry, 3)])), [true; 4]);
        check_module_demands(&sheet(5, vec![ring(&[(entry, 3)])]), &[(2, 2), (5, 4)]);
    }
}

/// Mode 1 is entered at tick 4, where the horizon ends, and its only task is
/// released 5 ticks later: all its mode times count all the same.
#[test]
fn every_mode_time_counts() {
    let modes = vec![mode(4, &[], &[(1, 4)]), mode(8, &[(5, 2, 2, 8), (5, 1, 1, 8)], &[])];
    let bytes = sheet(4, vec![modes]);
    check_module_demands(&bytes, &[(1, 1), (2, 3), (4, 3)]);
    assert_eq!(both(&bytes), (Quick::Over { length: 2, demand: 3 }, Exact::Clear));
}
