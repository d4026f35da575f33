//! The table way: dynamic programming over states and ticks, for sheets up to
//! the limits.
//!
//! Three facts keep it quick:
//!
//! * **Folding.** All task periods and switch periods of a mode divide its
//!   period, and so does their least common multiple, the mode's *cycle*. So
//!   mode times that leave the same rest by the cycle have the same releases,
//!   the same switches and the same tapes ahead of them. A state is a mode and
//!   a mode time below the cycle.
//! * **Releases only.** If no instance is released in a state, its demand for
//!   a length is the largest demand of a state after it for one tick less. So
//!   the largest demand of any run in a to b is that in a + 1 to b, or that of
//!   a releasing state reached at tick a.
//! * **Same set, same row.** The demands from tick a on depend on nothing but
//!   the set of states reached at tick a, and few different sets occur.
//!
//! No demand of one module exceeds 32,000: the instances of one task never
//! overlap, all are due by the time their mode is left, each costs at most its
//! LET, a mode has at most 16 tasks and the horizon is at most 2,000. So the
//! tables hold numbers of 16 bits.

use crate::sheet::{Mode, Module, Sheet, Task};
use crate::{Exact, Quick};
use std::collections::HashMap;

/// The demand of a mode between mode times a and b, by counting: the first
/// instance's number rounds up, the number after the last one rounds down.
pub fn mode_demand(mode: &Mode, a: u64, b: u64) -> u64 {
    mode.tasks.iter().map(|task| u64::from(task.cost) * instances_between(task, a, b)).sum()
}

/// How many instances of a task are released at or after mode time a and due
/// at or before b.
fn instances_between(task: &Task, a: u64, b: u64) -> u64 {
    let period = u64::from(task.period);
    let offset = u64::from(task.offset);
    let released_before = a.saturating_sub(offset).div_ceil(period);
    let first_due = offset + u64::from(task.let_ticks);
    let due = if b < first_due { 0 } else { (b - first_due) / period + 1 };
    due.saturating_sub(released_before)
}

/// The state demand.
pub fn state_demand(module: &Module, mode: usize, time: usize, length: usize) -> u64 {
    let states = States::of(module);
    let state = states.number(mode, time);
    u64::from(Demands::up_to(&states, length).now[state])
}

/// Which modes of a module are reached from mode 0, mode by mode: mode 0 is, and
/// so is the target of every switch that a reached mode lists. The horizon plays
/// no part. The module has to be one of a well-formed sheet.
///
/// Only states of these modes count in the module demand and in the quick test.
pub fn reached(module: &Module) -> Vec<bool> {
    let mut reached = vec![false; module.modes.len()];
    let mut open = vec![0];
    while let Some(mode) = open.pop() {
        if !reached[mode] {
            reached[mode] = true;
            open.extend(module.modes[mode].switches.iter().map(|s| usize::from(s.target)));
        }
    }
    reached
}

/// The module demand, over the states of the reached modes.
pub fn module_demand(module: &Module, length: usize) -> u64 {
    let states = States::of(module);
    Demands::up_to(&states, length).largest()
}

/// The quick test: all modules' demands together, length by length. As in the
/// module demand, only states of reached modes count.
pub fn quick(sheet: &Sheet) -> Quick {
    let states: Vec<States> = sheet.modules.iter().map(States::of).collect();
    let mut demands: Vec<Demands> = states.iter().map(Demands::new).collect();
    for length in 1..=u64::from(sheet.horizon) {
        demands.iter_mut().for_each(Demands::lengthen);
        let demand = demands.iter().map(Demands::largest).sum();
        if demand > length {
            return Quick::Over { length, demand };
        }
    }
    Quick::Clear
}

/// The exact test. Whether an interval is over depends on nothing beyond its
/// end, so short bounds are tried first and the horizon last.
pub fn exact(sheet: &Sheet) -> Exact {
    let horizon = usize::from(sheet.horizon);
    let states: Vec<States> = sheet.modules.iter().map(States::of).collect();
    let mut bound = horizon.min(32);
    loop {
        if let Some((a, b, demand)) = first_over(&states, bound) {
            let tapes = states.iter().map(|module| first_tape(module, a, b)).collect();
            return Exact::Over { a: a as u64, b: b as u64, demand, tapes };
        }
        if bound == horizon {
            return Exact::Clear;
        }
        bound = horizon.min(bound * 4);
    }
}

/// A module's states, numbered: mode by mode, in each mode by the folded mode
/// time. What comes after each, and what each releases.
struct States {
    modes: Vec<Span>,
    /// Every chance to switch: the state it is taken in and the state after.
    exits: Vec<(usize, usize)>,
    /// For each LET, the releases with that LET: state and cost.
    by_let: Vec<Vec<(usize, u16)>>,
    /// For each state its releases: LET and cost.
    by_state: Vec<Vec<(usize, u16)>>,
}

/// The states of one mode: the first one's number, how many there are, and
/// whether the mode is reached from mode 0.
#[derive(Clone, Copy)]
struct Span {
    first: usize,
    cycle: usize,
    reached: bool,
}

impl Span {
    /// The number after the last state's.
    fn end(&self) -> usize {
        self.first + self.cycle
    }
}

/// The least common multiple.
fn common_multiple(a: usize, b: usize) -> usize {
    let (mut x, mut y) = (a, b);
    while y != 0 {
        (x, y) = (y, x % y);
    }
    a / x * b
}

/// The number of mode times that can be told apart in a mode.
fn cycle(mode: &Mode) -> usize {
    let switches = mode.switches.iter().map(|s| usize::from(s.period));
    let tasks = mode.tasks.iter().map(|t| usize::from(t.period));
    tasks.chain(switches).fold(1, common_multiple)
}

/// The spans of a module's modes, one after the other.
fn spans(module: &Module) -> Vec<Span> {
    let mut first = 0;
    let mut all = Vec::new();
    for (mode, reached) in module.modes.iter().zip(reached(module)) {
        let span = Span { first, cycle: cycle(mode), reached };
        first = span.end();
        all.push(span);
    }
    all
}

impl States {
    /// Numbers a module's states.
    fn of(module: &Module) -> States {
        let modes = spans(module);
        let count = modes.last().map_or(0, Span::end);
        let longest = module.modes.iter().flat_map(|m| &m.tasks).map(|t| t.let_ticks).max();
        let mut states = States {
            exits: Vec::new(),
            by_let: vec![Vec::new(); usize::from(longest.unwrap_or(0)) + 1],
            by_state: vec![Vec::new(); count],
            modes,
        };
        for (mode, span) in module.modes.iter().zip(states.modes.clone()) {
            states.add_mode(mode, span);
        }
        states.exits.sort_unstable();
        states
    }

    /// Enters a mode's exits and releases.
    fn add_mode(&mut self, mode: &Mode, span: Span) {
        for switch in &mode.switches {
            let period = usize::from(switch.period);
            let after = self.modes[usize::from(switch.target)].first;
            let chances = (span.first + period - 1..span.end()).step_by(period);
            self.exits.extend(chances.map(|state| (state, after)));
        }
        for task in &mode.tasks {
            let let_ticks = usize::from(task.let_ticks);
            let from = span.first + usize::from(task.offset);
            for state in (from..span.end()).step_by(usize::from(task.period)) {
                self.by_let[let_ticks].push((state, task.cost));
                self.by_state[state].push((let_ticks, task.cost));
            }
        }
    }

    /// How many states there are.
    fn count(&self) -> usize {
        self.by_state.len()
    }

    /// The number of a state given as mode and mode time.
    fn number(&self, mode: usize, time: usize) -> usize {
        self.modes[mode].first + time % self.modes[mode].cycle
    }

    /// The mode of a state.
    fn mode_of(&self, state: usize) -> usize {
        self.modes.partition_point(|span| span.end() <= state)
    }

    /// The state after one tick without a switch.
    fn stay(&self, state: usize) -> usize {
        let span = self.modes[self.mode_of(state)];
        if state + 1 < span.end() {
            state + 1
        } else {
            span.first
        }
    }

    /// The exits that can be taken in a state.
    fn exits_of(&self, state: usize) -> &[(usize, usize)] {
        let from = self.exits.partition_point(|exit| exit.0 < state);
        let to = self.exits.partition_point(|exit| exit.0 <= state);
        &self.exits[from..to]
    }

    /// For each state, the largest value of the states after it.
    fn best_after(&self, values: &[u16], best: &mut [u16]) {
        for span in &self.modes {
            let last = span.end() - 1;
            best[span.first..last].copy_from_slice(&values[span.first + 1..=last]);
            best[last] = values[span.first];
        }
        for &(state, after) in &self.exits {
            best[state] = best[state].max(values[after]);
        }
    }

    /// The states reached one tick after these.
    fn reached_after(&self, reached: &[bool], next: &mut [bool]) {
        for span in &self.modes {
            let last = span.end() - 1;
            next[span.first + 1..=last].copy_from_slice(&reached[span.first..last]);
            next[span.first] = reached[last];
        }
        for &(state, after) in &self.exits {
            next[after] |= reached[state];
        }
    }
}

/// The state demands of all states for one length, and the step to the next.
struct Demands<'a> {
    states: &'a States,
    length: usize,
    /// The demand of each state for the length.
    now: Vec<u16>,
    /// The cost each state releases that is due within the length.
    released: Vec<u16>,
    /// Room for the next length's demands.
    next: Vec<u16>,
}

impl<'a> Demands<'a> {
    /// The demands for the length 0.
    fn new(states: &'a States) -> Demands<'a> {
        let zeros = vec![0; states.count()];
        Demands { states, length: 0, now: zeros.clone(), released: zeros.clone(), next: zeros }
    }

    /// The demands for a length.
    fn up_to(states: &'a States, length: usize) -> Demands<'a> {
        let mut demands = Demands::new(states);
        (0..length).for_each(|_| demands.lengthen());
        demands
    }

    /// Goes to the length one greater: what is released now and due within
    /// it, and the best that can come after with one tick less.
    fn lengthen(&mut self) {
        self.length += 1;
        for &(state, cost) in self.states.by_let.get(self.length).into_iter().flatten() {
            self.released[state] += cost;
        }
        self.states.best_after(&self.now, &mut self.next);
        for (value, released) in self.next.iter_mut().zip(&self.released) {
            *value += released;
        }
        std::mem::swap(&mut self.now, &mut self.next);
    }

    /// The largest of all states of the reached modes: the module demand.
    fn largest(&self) -> u64 {
        let reached = self.states.modes.iter().filter(|span| span.reached);
        let largest_of = |span: &Span| self.now[span.first..span.end()].iter().copied().max();
        u64::from(reached.filter_map(largest_of).max().unwrap_or(0))
    }
}

/// For each mode, the demands of its first state for every length to a bound.
fn entry_rows(states: &States, bound: usize) -> Vec<Vec<u16>> {
    let mut rows = vec![vec![0]; states.modes.len()];
    let mut demands = Demands::new(states);
    for _ in 0..bound {
        demands.lengthen();
        for (row, span) in rows.iter_mut().zip(&states.modes) {
            row.push(demands.now[span.first]);
        }
    }
    rows
}

/// Raises each value to the other's where that is larger.
fn raise(values: &mut [u16], others: &[u16]) {
    for (value, &other) in values.iter_mut().zip(others) {
        *value = (*value).max(other);
    }
}

/// For each releasing state, in order, its demands for every length to a
/// bound. The rows of the modes' first states come length by length; every
/// other row follows from these and the row of the state after it, so each
/// mode is gone through from its last state to its first.
fn releasing_rows(states: &States, bound: usize) -> Vec<Vec<u16>> {
    let entries = entry_rows(states, bound);
    let mut rows = Vec::new();
    for (span, entry) in states.modes.iter().zip(&entries).rev() {
        let mut row = entry.clone();
        for state in (span.first..span.end()).rev() {
            row.copy_within(..bound, 1);
            row[0] = 0;
            for &(_, target) in states.exits_of(state) {
                raise(&mut row[1..], &entries[states.mode_of(target)]);
            }
            for &(let_ticks, cost) in &states.by_state[state] {
                row.iter_mut().skip(let_ticks).for_each(|value| *value += cost);
            }
            if !states.by_state[state].is_empty() {
                rows.push(row.clone());
            }
        }
    }
    rows.reverse();
    rows
}

/// For every tick below a bound, the row of the releasing states reached
/// then: entry n is the largest demand of these states for the length n. Ticks
/// with the same such states share a row.
struct ReachedRows {
    row_at: Vec<usize>,
    rows: Vec<Vec<u16>>,
}

impl ReachedRows {
    /// Builds the rows, ticks ascending, so that the first tick of a set, whose
    /// intervals are the longest, decides the row's width.
    fn build(states: &States, bound: usize) -> ReachedRows {
        let releasing: Vec<usize> =
            (0..states.count()).filter(|&state| !states.by_state[state].is_empty()).collect();
        let demands = releasing_rows(states, bound);
        let mut seen: HashMap<Vec<u64>, usize> = HashMap::new();
        let mut built = ReachedRows { row_at: Vec::new(), rows: Vec::new() };
        let mut reached = vec![false; states.count()];
        let mut next = reached.clone();
        reached[0] = true;
        for tick in 0..bound {
            let set = set_of(&releasing, &reached);
            let index = seen.get(&set).copied().unwrap_or(built.rows.len());
            if index == built.rows.len() {
                built.rows.push(largest_row(&set, &demands, bound - tick + 1));
                seen.insert(set, index);
            }
            built.row_at.push(index);
            states.reached_after(&reached, &mut next);
            std::mem::swap(&mut reached, &mut next);
        }
        built
    }

    /// The row of a tick.
    fn at(&self, tick: usize) -> &[u16] {
        &self.rows[self.row_at[tick]]
    }
}

/// Which of the releasing states are reached, one bit each.
fn set_of(releasing: &[usize], reached: &[bool]) -> Vec<u64> {
    let word = |states: &[usize]| {
        states.iter().rev().fold(0, |bits, &state| bits << 1 | u64::from(reached[state]))
    };
    releasing.chunks(64).map(word).collect()
}

/// The largest of the rows in a set, length by length.
fn largest_row(set: &[u64], rows: &[Vec<u16>], width: usize) -> Vec<u16> {
    let mut largest = vec![0; width];
    for (index, row) in rows.iter().enumerate() {
        if set[index / 64] >> (index % 64) & 1 == 1 {
            raise(&mut largest, row);
        }
    }
    largest
}

/// Raises a module's largest demands, and the sums by as much.
fn raise_sums(sums: &mut [u32], largest: &mut [u16], row: &[u16]) {
    for ((sum, most), &demand) in sums.iter_mut().zip(largest).zip(row) {
        let more = demand.saturating_sub(*most);
        *most += more;
        *sum += u32::from(more);
    }
}

/// The first interval whose sum exceeds it, with b at most the bound: the
/// smallest b, for it the largest a, and the sum. As a goes down, entry b of
/// `largest` is a module's largest demand in a to b, and entry b of `sums`
/// the sum of these.
fn first_over(modules: &[States], bound: usize) -> Option<(usize, usize, u64)> {
    let reached: Vec<_> = modules.iter().map(|m| ReachedRows::build(m, bound)).collect();
    let mut largest = vec![vec![0; bound + 1]; modules.len()];
    let mut sums = vec![0; bound + 1];
    let mut found = None;
    // Only a smaller b can still take the place of what is found.
    let mut end = bound + 1;
    for a in (0..bound).rev() {
        for (module, most) in reached.iter().zip(&mut largest) {
            raise_sums(&mut sums[a..end], &mut most[a..end], module.at(a));
        }
        if let Some(length) = (1..end - a).find(|&n| sums[a + n] as usize > n) {
            end = a + length;
            found = Some((a, end, u64::from(sums[end])));
        }
    }
    found
}

/// The first tape in dictionary order of a run with the largest demand in a to
/// b. Row t of the table holds for each state the best still to come from tick
/// t on; the run then takes at every tick the lowest mode that keeps the best.
fn first_tape(states: &States, a: usize, b: usize) -> Vec<u8> {
    let count = states.count();
    let best = best_to_come(states, a, b);
    let mut state = 0;
    let mut tape = vec![0];
    for tick in 1..b {
        let value = |state: usize| best[tick * count + state];
        let exits = states.exits_of(state).iter().map(|exit| exit.1);
        let after: Vec<usize> = exits.chain([states.stay(state)]).collect();
        let most = after.iter().map(|&next| value(next)).max();
        let lowest = after.into_iter().filter(|&next| Some(value(next)) == most).min();
        state = lowest.expect("every state has one after it");
        tape.push(states.mode_of(state) as u8);
    }
    tape
}

/// For every tick to b - 1 and every state, the largest demand in a to b that
/// can still be released from that tick on.
fn best_to_come(states: &States, a: usize, b: usize) -> Vec<u16> {
    let count = states.count();
    let mut best = vec![0; count * b];
    let mut demands = Demands::new(states);
    for tick in (a..b).rev() {
        demands.lengthen();
        best[tick * count..][..count].copy_from_slice(&demands.now);
    }
    for tick in (0..a).rev() {
        let (head, tail) = best.split_at_mut((tick + 1) * count);
        states.best_after(&tail[..count], &mut head[tick * count..]);
    }
    best
}
