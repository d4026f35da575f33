//! The literal way: every run is listed, every instance of a run is listed,
//! and tapes are put in dictionary order by comparing them. Only for small
//! sheets; [`fits`] tells whether a sheet is small enough.
//!
//! The judge here is a second one too: it keeps no running counts, but looks
//! through all records before the one in question.

use crate::sheet::{read_record, Mark, Mode, Module, Record, Refusal, Sheet};
use crate::{Exact, Quick};

/// A module's state: a mode and a mode time.
pub type State = (usize, u64);

/// A run: a state for every tick.
pub type Run = Vec<State>;

/// One instance of a task in a run.
#[derive(Clone, Copy, Debug, PartialEq, Eq)]
pub struct Instance {
    pub release: u64,
    pub due: u64,
    pub cost: u64,
}

/// The states after one tick, by the paper's three cases.
pub fn states_after(module: &Module, (mode, d): State) -> Vec<State> {
    let period = u64::from(module.modes[mode].period);
    let mut after = Vec::new();
    if d + 1 < period {
        after.push((mode, d + 1));
    }
    if d + 1 == period {
        after.push((mode, 0));
    }
    for switch in &module.modes[mode].switches {
        if (d + 1) % u64::from(switch.period) == 0 {
            after.push((usize::from(switch.target), 0));
        }
    }
    after
}

/// All runs of so many ticks from a state.
pub fn runs(module: &Module, from: State, ticks: u64) -> Vec<Run> {
    let mut all = vec![Run::new()];
    for _ in 0..ticks {
        let mut longer = Vec::new();
        for run in all {
            let choices = match run.last() {
                Some(&state) => states_after(module, state),
                None => vec![from],
            };
            longer.extend(choices.into_iter().map(|next| [&run[..], &[next]].concat()));
        }
        all = longer;
    }
    all
}

/// Whether no state of any module has more than `most` runs to the horizon.
pub fn fits(sheet: &Sheet, most: u64) -> bool {
    sheet.modules.iter().all(|module| {
        all_states(module)
            .iter()
            .all(|&state| count_runs(module, state, u64::from(sheet.horizon), most) <= most)
    })
}

/// The number of runs of so many ticks from a state, or some number above
/// `most` if it is above.
fn count_runs(module: &Module, from: State, ticks: u64, most: u64) -> u64 {
    if ticks <= 1 {
        return 1;
    }
    let mut sum = 0;
    for next in states_after(module, from) {
        sum += count_runs(module, next, ticks - 1, most);
        if sum > most {
            break;
        }
    }
    sum
}

/// All states of all listed modes of a module.
pub fn all_states(module: &Module) -> Vec<State> {
    let modes = module.modes.iter().enumerate();
    modes.flat_map(|(m, mode)| (0..u64::from(mode.period)).map(move |d| (m, d))).collect()
}

/// Which modes are reached: those that some run from tick 0 is in at some tick,
/// with no regard to the horizon. Of the runs only the states at each tick are
/// kept, since what can come after depends on nothing else.
///
/// A run that comes to a mode can do so by a chain of switches that passes no
/// mode twice, and can leave each mode before it by the end of one period. So as
/// many ticks as all mode periods together are enough.
pub fn reached(module: &Module) -> Vec<bool> {
    let ticks: u64 = module.modes.iter().map(|mode| u64::from(mode.period)).sum();
    let mut reached = vec![false; module.modes.len()];
    let mut states = vec![(0, 0)];
    for _ in 0..ticks {
        states.iter().for_each(|&(mode, _)| reached[mode] = true);
        states = states.into_iter().flat_map(|state| states_after(module, state)).collect();
        states.sort_unstable();
        states.dedup();
    }
    reached
}

/// The instances that one tick of a mode releases.
fn released_at(mode: &Mode, d: u64, tick: u64) -> Vec<Instance> {
    let releasing =
        mode.tasks.iter().filter(|task| d % u64::from(task.period) == u64::from(task.offset));
    releasing
        .map(|task| Instance {
            release: tick,
            due: tick + u64::from(task.let_ticks),
            cost: u64::from(task.cost),
        })
        .collect()
}

/// All instances of a run.
pub fn instances(module: &Module, run: &[State]) -> Vec<Instance> {
    let ticks = run.iter().zip(0..);
    ticks.flat_map(|(&(mode, d), tick)| released_at(&module.modes[mode], d, tick)).collect()
}

/// The demand in the interval from a to b.
pub fn demand(instances: &[Instance], a: u64, b: u64) -> u64 {
    let inside = instances.iter().filter(|i| i.release >= a && i.due <= b);
    inside.map(|i| i.cost).sum()
}

/// The mode demand: the instances of one stay of one mode period.
pub fn mode_demand(mode: &Mode, a: u64, b: u64) -> u64 {
    let stay: Vec<Instance> =
        (0..u64::from(mode.period)).flat_map(|d| released_at(mode, d, d)).collect();
    demand(&stay, a, b)
}

/// The state demand: the largest over all runs from the state.
pub fn state_demand(module: &Module, from: State, length: u64) -> u64 {
    let all = runs(module, from, length);
    all.iter().map(|run| demand(&instances(module, run), 0, length)).max().unwrap_or(0)
}

/// The module demand: the largest over all states of the reached modes.
pub fn module_demand(module: &Module, length: u64) -> u64 {
    let reached = reached(module);
    let states = all_states(module).into_iter().filter(|&(mode, _)| reached[mode]);
    states.map(|state| state_demand(module, state, length)).max().unwrap_or(0)
}

/// The quick test, by the module demands, so of the reached modes only.
pub fn quick(sheet: &Sheet) -> Quick {
    for length in 1..=u64::from(sheet.horizon) {
        let demand = sheet.modules.iter().map(|module| module_demand(module, length)).sum();
        if demand > length {
            return Quick::Over { length, demand };
        }
    }
    Quick::Clear
}

/// A module's runs from tick 0 to the horizon, each with its instances.
type Listed = Vec<(Run, Vec<Instance>)>;

/// Lists a module's runs from tick 0.
fn list(module: &Module, horizon: u64) -> Listed {
    let all = runs(module, (0, 0), horizon);
    all.into_iter().map(|run| (run.clone(), instances(module, &run))).collect()
}

/// The largest demand in a to b of any listed run.
fn largest(listed: &Listed, a: u64, b: u64) -> u64 {
    listed.iter().map(|(_, instances)| demand(instances, a, b)).max().unwrap_or(0)
}

/// The first tape in dictionary order among the runs that reach the largest
/// demand in a to b.
fn first_tape(listed: &Listed, a: u64, b: u64) -> Vec<u8> {
    let most = largest(listed, a, b);
    let reaching = listed.iter().filter(|(_, instances)| demand(instances, a, b) == most);
    let tapes = reaching.map(|(run, _)| tape(&run[..b as usize]));
    tapes.min().unwrap_or_default()
}

/// One byte a tick, the mode's number.
pub fn tape(run: &[State]) -> Vec<u8> {
    run.iter().map(|&(mode, _)| mode as u8).collect()
}

/// The exact test, b from the smallest and a from the largest.
pub fn exact(sheet: &Sheet) -> Exact {
    let horizon = u64::from(sheet.horizon);
    let modules: Vec<Listed> = sheet.modules.iter().map(|module| list(module, horizon)).collect();
    for b in 1..=horizon {
        for a in (0..b).rev() {
            let demand = modules.iter().map(|listed| largest(listed, a, b)).sum();
            if demand > b - a {
                let tapes = modules.iter().map(|listed| first_tape(listed, a, b)).collect();
                return Exact::Over { a, b, demand, tapes };
            }
        }
    }
    Exact::Clear
}

/// The refusal of these bytes, if there is one.
pub fn refusal(bytes: &[u8]) -> Option<Refusal> {
    let mut before: Vec<Record> = Vec::new();
    let mut place = 0;
    loop {
        let number = match read_record(&bytes[place..]) {
            Err(number) => Some(number),
            Ok(record) => {
                let number = record_refusal(&before, &record);
                before.push(record);
                number
            }
        };
        if let Some(number) = number {
            return Some(Refusal { number, place });
        }
        let last = before[before.len() - 1].mark;
        place += last.record_len();
        if last == Mark::En {
            return (place < bytes.len()).then_some(Refusal { number: 8, place });
        }
    }
}

/// The refusal number of a whole record, given all records before it.
fn record_refusal(before: &[Record], record: &Record) -> Option<u8> {
    if out_of_order(before, record.mark) {
        return Some(3);
    }
    if too_many(before, record.mark) {
        return Some(4);
    }
    let [first, second, third, fourth] = record.fields.map(u64::from);
    let module = since(before, Mark::Ml);
    let mode = since(before, Mark::Md);
    match record.mark {
        Mark::Hz => (first == 0 || first > 2000).then_some(5),
        Mark::Ml => (first == 0 || first > 8).then_some(5),
        Mark::Md => (first == 0 || first > 1024).then_some(5),
        Mark::Tk => {
            let broken = second < 1
                || second > third
                || first + third > fourth
                || u64::from(mode[0].fields[0]) % fourth != 0;
            broken.then_some(5)
        }
        Mark::Sw | Mark::Sx => switch_broken(module, mode, record).then_some(6),
        Mark::En => (first != before.len() as u64).then_some(7),
    }
}

/// How many records bear the mark.
fn count(records: &[Record], mark: Mark) -> usize {
    records.iter().filter(|record| record.mark == mark).count()
}

/// The records from the last one with this mark on; none if there is none.
fn since(records: &[Record], mark: Mark) -> &[Record] {
    match records.iter().rposition(|record| record.mark == mark) {
        Some(at) => &records[at..],
        None => &[],
    }
}

/// Whether the mark is out of order after these records.
fn out_of_order(before: &[Record], mark: Mark) -> bool {
    let last = before.last().map(|record| record.mark);
    let module = since(before, Mark::Ml);
    let lacking = match module.first() {
        Some(opening) => usize::from(opening.fields[0]) - count(module, Mark::Md),
        None => 0,
    };
    match (mark, last) {
        (Mark::Hz, last) => last.is_some(),
        (_, None) => true,
        (Mark::Ml, _) => lacking > 0,
        (Mark::Md, _) => lacking == 0,
        (Mark::Tk, Some(last)) => !matches!(last, Mark::Md | Mark::Tk),
        (Mark::Sw | Mark::Sx, Some(last)) => matches!(last, Mark::Hz | Mark::Ml | Mark::En),
        (Mark::En, _) => module.is_empty() || lacking > 0,
    }
}

/// Whether the record would be one too many after these.
fn too_many(before: &[Record], mark: Mark) -> bool {
    let seen = count(before, mark);
    match mark {
        Mark::Ml => seen >= 8,
        Mark::Tk => seen >= 256 || count(since(before, Mark::Md), Mark::Tk) >= 16,
        Mark::Sw | Mark::Sx => count(before, Mark::Sw) + count(before, Mark::Sx) >= 128,
        _ => false,
    }
}

/// Whether a switch breaks a rule, given the records of its module and mode. The
/// mode's MD comes first among these, so a switch period of 0 meets no task.
fn switch_broken(module: &[Record], mode: &[Record], switch: &Record) -> bool {
    let [target, period, ..] = switch.fields.map(usize::from);
    let itself = count(module, Mark::Md) - 1;
    let mode_period = usize::from(mode[0].fields[0]);
    let fault = |record: &Record| match record.mark {
        Mark::Md => period == 0 || mode_period % period != 0,
        Mark::Tk if switch.mark == Mark::Sx => cuts_instance(record, period, mode_period),
        Mark::Tk => !period.is_multiple_of(usize::from(record.fields[3])),
        _ => usize::from(record.fields[0]) == target,
    };
    target >= usize::from(module[0].fields[0]) || target == itself || mode.iter().any(fault)
}

/// Whether a multiple of the switch period falls within an instance of the task:
/// all ticks strictly between a release and its due tick are marked, then every
/// multiple is looked up. Ticks are mode times here, and no instance is due after
/// the mode period.
fn cuts_instance(task: &Record, switch_period: usize, mode_period: usize) -> bool {
    let [offset, _, let_ticks, period] = task.fields.map(usize::from);
    let mut within = vec![false; mode_period + 1];
    for number in 0..mode_period / period {
        let release = number * period + offset;
        within[release + 1..release + let_ticks].fill(true);
    }
    (1..=mode_period / switch_period).any(|number| within[number * switch_period])
}
