//! The two ways against each other on made-up small sheets, and the table way
//! against a plain table and against its own witness on larger ones.

mod kinds;

use kinds::Kinds;
use second::generate::{sheet, Rng, Shape};
use second::{brute, encode, judge, reached, table, Exact, Module, Quick, Sheet};

/// How often each pair of answers came, so that a test that meets only one
/// kind of sheet is noticed.
#[derive(Default, Debug)]
struct Seen {
    both_clear: usize,
    quick_only: usize,
    both_over: usize,
    /// Both clear, yet quick over if modes that are not reached counted; not
    /// counted for large sheets.
    spared: usize,
    /// Exact answers with an a above 0.
    late: usize,
    /// Tapes with more than one mode.
    switching: usize,
    kinds: Kinds,
}

impl Seen {
    /// Counts a sheet with its answers. Every quick clear is an exact clear.
    fn note(&mut self, sheet: &Sheet, quick: &Quick, exact: &Exact) {
        self.kinds.note(sheet);
        match (quick, exact) {
            (Quick::Clear, Exact::Clear) => self.both_clear += 1,
            (Quick::Clear, _) => panic!("quick clear, exact over: {sheet:?}"),
            (_, Exact::Clear) => self.quick_only += 1,
            _ => self.both_over += 1,
        }
        if let Exact::Over { a, tapes, .. } = exact {
            self.late += usize::from(*a > 0);
            self.switching += tapes.iter().filter(|t| t.iter().any(|&m| m != 0)).count();
        }
    }

    /// Whether every kind came at least so often.
    fn all_at_least(&self, least: usize) -> bool {
        let kinds = [self.both_clear, self.quick_only, self.both_over, self.late, self.switching];
        kinds.into_iter().all(|count| count >= least)
    }
}

/// Every mode demand of a module, both ways.
fn check_mode_demands(module: &Module) {
    for mode in &module.modes {
        for b in 0..=u64::from(mode.period) {
            for a in 0..=b {
                assert_eq!(table::mode_demand(mode, a, b), brute::mode_demand(mode, a, b));
            }
        }
    }
}

/// Every state and module demand of a module, both ways. Gives for each length
/// the largest state demand over all listed modes, reached or not.
fn check_demands(module: &Module, horizon: u64) -> Vec<u64> {
    let reached = brute::reached(module);
    assert_eq!(table::reached(module), reached, "{module:?}");
    let mut of_listed = Vec::new();
    for length in 0..=horizon {
        let mut by_mode = vec![0; reached.len()];
        for (mode, time) in brute::all_states(module) {
            let literal = brute::state_demand(module, (mode, time), length);
            let tabled = table::state_demand(module, mode, time as usize, length as usize);
            assert_eq!(tabled, literal, "mode {mode} time {time} length {length}");
            by_mode[mode] = literal.max(by_mode[mode]);
        }
        let of_reached = by_mode.iter().zip(&reached).filter(|(_, r)| **r).map(|(d, _)| *d).max();
        assert_eq!(Some(table::module_demand(module, length as usize)), of_reached);
        of_listed.extend(by_mode.into_iter().max());
    }
    of_listed
}

/// Every demand of a sheet, both ways. Tells whether the quick test would be
/// over if all listed modes counted.
fn check_sheet_demands(sheet: &Sheet) -> bool {
    let horizon = usize::from(sheet.horizon);
    let mut sums = vec![0; horizon + 1];
    for module in &sheet.modules {
        check_mode_demands(module);
        let demands = check_demands(module, horizon as u64);
        sums.iter_mut().zip(demands).for_each(|(sum, demand)| *sum += demand);
    }
    (1..=horizon).any(|length| sums[length] > length as u64)
}

/// Makes so many small sheets and compares every answer.
fn compare(shape: &Shape, seed: u64, count: usize, most_runs: u64) -> Seen {
    let mut rng = Rng::new(seed);
    let mut seen = Seen::default();
    let mut done = 0;
    while done < count {
        let made = sheet(&mut rng, shape);
        if !brute::fits(&made, most_runs) {
            continue;
        }
        done += 1;
        let over_if_all_counted = check_sheet_demands(&made);
        let (quick, exact) = (table::quick(&made), table::exact(&made));
        assert_eq!(quick, brute::quick(&made), "{made:?}");
        assert_eq!(exact, brute::exact(&made), "{made:?}");
        seen.note(&made, &quick, &exact);
        seen.spared += usize::from(quick == Quick::Clear && over_if_all_counted);
    }
    println!("{count} sheets: {seen:?}");
    seen
}

#[test]
fn small_sheets() {
    let seen = compare(&Shape::small(), 1, 6000, 200);
    assert!(seen.both_over > 1000 && seen.spared > 100 && seen.kinds.all_at_least(50, 7));
}

#[test]
fn small_light_sheets() {
    let seen = compare(&Shape::small_light(), 2, 6000, 200);
    assert!(seen.all_at_least(100) && seen.spared > 100 && seen.kinds.all_at_least(50, 7));
}

/// Nothing but chains, with time enough to come to the end of many.
#[test]
fn small_chains() {
    let shape =
        Shape { horizon: (7, 13), modules: (1, 2), chain_percent: 100, ..Shape::small_light() };
    let seen = compare(&shape, 8, 300, 600);
    assert!(seen.all_at_least(10) && seen.kinds.all_at_least(10, 7) && seen.kinds.all_walked(3));
}

/// The quick test by plain tables, with these module demands.
fn plain_quick(
    modules: &[Plain],
    horizon: usize,
    module_demand: impl Fn(&Plain, usize) -> u64,
) -> Quick {
    for length in 1..=horizon {
        let demand = modules.iter().map(|module| module_demand(module, length)).sum();
        if demand > length as u64 {
            return Quick::Over { length: length as u64, demand };
        }
    }
    Quick::Clear
}

/// The exact test by plain tables: unfolded states, every reached state, every
/// interval, no rows shared.
fn plain_exact(modules: &[Plain], horizon: usize) -> Exact {
    for b in 1..=horizon {
        for a in (0..b).rev() {
            let demand: u64 = modules.iter().map(|module| module.largest(a, b)).sum();
            if demand > (b - a) as u64 {
                let tapes = modules.iter().map(|module| module.tape(a, b)).collect();
                return Exact::Over { a: a as u64, b: b as u64, demand, tapes };
            }
        }
    }
    Exact::Clear
}

/// The plain table of one module.
struct Plain {
    states: Vec<brute::State>,
    after: Vec<Vec<usize>>,
    /// For each length and state the demand.
    demand: Vec<Vec<u64>>,
    /// For each tick the states reached.
    reached: Vec<Vec<usize>>,
    /// The modes runs come to, however late.
    reached_modes: Vec<bool>,
}

impl Plain {
    fn of(module: &Module, horizon: usize) -> Plain {
        let states = brute::all_states(module);
        let find = |state| states.iter().position(|s| *s == state).unwrap();
        let after: Vec<Vec<usize>> = states
            .iter()
            .map(|&s| brute::states_after(module, s).into_iter().map(find).collect())
            .collect();
        let mut demand = vec![vec![0; states.len()]];
        for length in 1..=horizon {
            let shorter = &demand[length - 1];
            let value = |s: usize| {
                let now = brute::instances(module, &[states[s]]);
                let best: u64 = after[s].iter().map(|&n| shorter[n]).max().unwrap();
                brute::demand(&now, 0, length as u64) + best
            };
            let column = (0..states.len()).map(value).collect();
            demand.push(column);
        }
        let mut reached = vec![vec![0]];
        for tick in 1..horizon {
            let mut next: Vec<usize> =
                reached[tick - 1].iter().flat_map(|&s: &usize| after[s].clone()).collect();
            next.sort_unstable();
            next.dedup();
            reached.push(next);
        }
        Plain { states, after, demand, reached, reached_modes: brute::reached(module) }
    }

    /// The largest demand of any state of a mode that runs come to.
    fn largest_of_reached(&self, length: usize) -> u64 {
        let demands = self.states.iter().zip(&self.demand[length]);
        demands.filter(|((mode, _), _)| self.reached_modes[*mode]).map(|(_, d)| *d).max().unwrap()
    }

    /// The largest demand of any state of any listed mode.
    fn largest_of_listed(&self, length: usize) -> u64 {
        self.demand[length].iter().copied().max().unwrap()
    }

    fn largest(&self, a: usize, b: usize) -> u64 {
        self.reached[a].iter().map(|&s| self.demand[b - a][s]).max().unwrap()
    }

    /// The first tape: up to tick a the lowest mode that can still come to a
    /// state with the largest demand, from there on the lowest that keeps it.
    fn tape(&self, a: usize, b: usize) -> Vec<u8> {
        let wanted = self.largest(a, b);
        let mut good = vec![vec![false; self.states.len()]; b];
        for &s in &self.reached[a] {
            good[a][s] = self.demand[b - a][s] == wanted;
        }
        for tick in (0..a).rev() {
            for s in 0..self.states.len() {
                good[tick][s] = self.after[s].iter().any(|&n| good[tick + 1][n]);
            }
        }
        let mut at = 0;
        let mut tape = vec![0];
        for (tick, good) in good.iter().enumerate().skip(1) {
            let ahead = &self.demand[b - tick];
            let best = self.after[at].iter().map(|&n| ahead[n]).max();
            let goes_on = |n: &usize| if tick <= a { good[*n] } else { Some(ahead[*n]) == best };
            let choices = self.after[at].iter().copied().filter(goes_on);
            at = choices.min_by_key(|&n| self.states[n].0).unwrap();
            tape.push(self.states[at].0 as u8);
        }
        tape
    }
}

#[test]
fn medium_sheets() {
    let mut rng = Rng::new(3);
    let mut seen = Seen::default();
    for _ in 0..1500 {
        let made = sheet(&mut rng, &Shape::medium());
        let horizon = usize::from(made.horizon);
        let plain: Vec<Plain> = made.modules.iter().map(|m| Plain::of(m, horizon)).collect();
        let (quick, exact) = (table::quick(&made), table::exact(&made));
        let wanted = plain_quick(&plain, horizon, Plain::largest_of_reached);
        let if_all_counted = plain_quick(&plain, horizon, Plain::largest_of_listed);
        assert_eq!(quick, wanted, "{made:?}");
        assert_eq!(exact, plain_exact(&plain, horizon), "{made:?}");
        seen.note(&made, &quick, &exact);
        seen.spared += usize::from(quick == Quick::Clear && if_all_counted != Quick::Clear);
    }
    println!("1500 sheets: {seen:?}");
    assert!(seen.all_at_least(20) && seen.spared > 20);
    assert!(seen.kinds.all_at_least(20, 7) && seen.kinds.all_walked(5));
}

/// The run a tape tells, or none if the tape is not one of a run.
fn run_of(module: &Module, tape: &[u8]) -> Option<brute::Run> {
    let mut run = vec![(0, 0)];
    for &mode in &tape[1..] {
        let after = brute::states_after(module, run[run.len() - 1]);
        let next = after.into_iter().find(|state| state.0 == usize::from(mode))?;
        run.push(next);
    }
    (tape[0] == 0).then_some(run)
}

/// The tapes are runs, and their demands add up to the sum.
fn check_witness(sheet: &Sheet, exact: &Exact) {
    if let Exact::Over { a, b, demand, tapes } = exact {
        let mut sum = 0;
        for (module, tape) in sheet.modules.iter().zip(tapes) {
            assert_eq!(tape.len() as u64, *b);
            let run = run_of(module, tape).expect("a tape is a run");
            sum += brute::demand(&brute::instances(module, &run), *a, *b);
        }
        assert_eq!(sum, *demand);
        assert!(sum > b - a);
    }
}

/// The sheet with no task in any mode that is not reached.
fn without_unreached_work(sheet: &Sheet) -> Sheet {
    let mut lighter = sheet.clone();
    for module in &mut lighter.modules {
        let reached = reached(module);
        for (mode, _) in module.modes.iter_mut().zip(reached).filter(|(_, reached)| !reached) {
            mode.tasks.clear();
        }
    }
    lighter
}

/// Large sheets: the witness holds, the exact test does not depend on the
/// horizon once it is past b, and is clear just before; and the work of modes
/// that are not reached plays no part.
#[test]
fn large_sheets() {
    for (seed, shape, count) in [
        (4, Shape::realistic(), 25),
        (5, Shape::wide(), 60),
        (6, Shape::wide_light(), 60),
        (7, Shape::fullest(), 25),
    ] {
        let mut rng = Rng::new(seed);
        let mut seen = Seen::default();
        for _ in 0..count {
            let mut made = sheet(&mut rng, &shape);
            assert_eq!(judge(&encode(&made)).as_ref(), Ok(&made));
            let (quick, exact) = (table::quick(&made), table::exact(&made));
            seen.note(&made, &quick, &exact);
            check_witness(&made, &exact);
            let lighter = without_unreached_work(&made);
            assert_eq!((table::quick(&lighter), table::exact(&lighter)), (quick, exact.clone()));
            if let Exact::Over { b, .. } = exact {
                made.horizon = b as u16;
                assert_eq!(table::exact(&made), exact);
                made.horizon = b as u16 - 1;
                assert!(b == 1 || table::exact(&made) == Exact::Clear);
            }
        }
        println!("{count} sheets: {seen:?}");
        assert!(seen.kinds.unreached > 10 && seen.kinds.heavy > 10);
    }
}
