//! Counts of the kinds of modules and switches that come, so that a test that misses one is
//! noticed.

use second::sheet::MOST_MODES;
use second::{reached, Kind, Mode, Module, Sheet, Switch, Task};

/// How many modules of each kind came, and how many sheets with each kind of
/// switches. Of a row, entry n counts chains of n switches.
#[derive(Default, Debug)]
pub struct Kinds {
    pub switches: Switches,
    /// With more than one mode.
    pub several: usize,
    /// Of these, with a mode that is not reached.
    pub unreached: usize,
    /// With a mode that is not reached and lists one that is.
    pub leading_in: usize,
    /// With a mode that is not reached and lists another that is not.
    pub leading_on: usize,
    /// With a mode that is not reached and is over by itself.
    pub heavy: usize,
    /// Whose reached modes form a chain.
    pub chains: [usize; MOST_MODES],
    /// The same, where some run comes to the end before the horizon.
    pub walked: [usize; MOST_MODES],
    /// The same, where modes of the module are not in the chain.
    pub not_alone: [usize; MOST_MODES],
    /// The same, where the chain's numbers do not ascend.
    pub not_ascending: [usize; MOST_MODES],
}

/// How many sheets with each kind of switches came.
#[derive(Default, Debug)]
pub struct Switches {
    /// With an SX.
    pub sx: usize,
    /// With an SX that could not be an SW.
    pub sx_alone: usize,
    /// The same, where a multiple before the mode period is a release.
    pub at_release: usize,
    /// The same, where a multiple before the mode period is a due tick.
    pub at_due: usize,
    /// With a mode that has SW and no SX.
    pub sw_mode: usize,
    /// With a mode that has SX and no SW.
    pub sx_mode: usize,
    /// With a mode that has both.
    pub mixed_mode: usize,
}

impl Switches {
    /// Counts a sheet.
    fn note(&mut self, sheet: &Sheet) {
        let has = |mode: &Mode, kind: Kind| mode.switches.iter().any(|s| s.kind == kind);
        let some = |holds: &dyn Fn(&Mode) -> bool| usize::from(sheet.modes().any(holds));
        self.sx += some(&|mode| has(mode, Kind::Sx));
        self.sx_alone += some(&|mode| sx_alone(mode).next().is_some());
        self.at_release += some(&|mode| sx_alone(mode).any(|s| meets(mode, s, 0)));
        self.at_due += some(&|mode| sx_alone(mode).any(|s| meets(mode, s, 1)));
        self.sw_mode += some(&|mode| has(mode, Kind::Sw) && !has(mode, Kind::Sx));
        self.sx_mode += some(&|mode| has(mode, Kind::Sx) && !has(mode, Kind::Sw));
        self.mixed_mode += some(&|mode| has(mode, Kind::Sw) && has(mode, Kind::Sx));
    }

    /// Whether every kind came so often.
    fn all_at_least(&self, least: usize) -> bool {
        let alone = [self.sx_alone, self.at_release, self.at_due];
        let modes = [self.sw_mode, self.sx_mode, self.mixed_mode];
        alone.into_iter().chain(modes).all(|count| count >= least)
    }
}

/// The switches of a mode that could not be SW.
fn sx_alone(mode: &Mode) -> impl Iterator<Item = &Switch> {
    mode.switches.iter().filter(|switch| !mode.task_periods_divide(switch.period))
}

/// Whether a multiple before the mode period is a release (0 times the LET after
/// it) or a due tick (once).
fn meets(mode: &Mode, switch: &Switch, times: u16) -> bool {
    let mut multiples = (switch.period..mode.period).step_by(usize::from(switch.period));
    let border = |task: &Task, tick: u16| {
        tick.checked_sub(task.offset + times * task.let_ticks)
            .is_some_and(|after| after.is_multiple_of(task.period))
    };
    multiples.any(|tick| mode.tasks.iter().any(|task| border(task, tick)))
}

impl Kinds {
    /// Counts a sheet and its modules.
    pub fn note(&mut self, sheet: &Sheet) {
        self.switches.note(sheet);
        for module in sheet.modules.iter().filter(|module| module.modes.len() > 1) {
            self.several += 1;
            self.note_unreached(module);
            if let Some(chain) = chain(module) {
                self.note_chain(module, &chain, sheet.horizon);
            }
        }
    }

    fn note_unreached(&mut self, module: &Module) {
        let reached = reached(module);
        let modes = module.modes.iter().zip(&reached);
        let unreached: Vec<&Mode> = modes.filter(|(_, r)| !**r).map(|(mode, _)| mode).collect();
        let listed: Vec<usize> = unreached.iter().copied().flat_map(targets).collect();
        self.unreached += usize::from(!unreached.is_empty());
        self.leading_in += usize::from(listed.iter().any(|&target| reached[target]));
        self.leading_on += usize::from(listed.iter().any(|&target| !reached[target]));
        self.heavy += usize::from(unreached.into_iter().any(over_by_itself));
    }

    fn note_chain(&mut self, module: &Module, chain: &[usize], horizon: u16) {
        let length = chain.len() - 1;
        let end_comes_at: u16 = chain.windows(2).map(|w| first_exit(module, w[0], w[1])).sum();
        self.chains[length] += 1;
        self.walked[length] += usize::from(end_comes_at < horizon);
        self.not_alone[length] += usize::from(chain.len() < module.modes.len());
        self.not_ascending[length] += usize::from(!chain.is_sorted());
    }

    /// Whether every kind came so often, chains being those of up to so many
    /// switches.
    pub fn all_at_least(&self, least: usize, longest: usize) -> bool {
        let counts = [self.several, self.unreached, self.leading_in, self.leading_on, self.heavy];
        let chains_came = (1..=longest).all(|n| {
            self.chains[n] >= least
                // Eight modes leave none out, and one switch always ascends.
                && (self.not_alone[n] >= least || n + 1 == MOST_MODES)
                && (self.not_ascending[n] >= least || n == 1)
        });
        let others_came = counts.into_iter().all(|count| count >= least);
        chains_came && others_came && self.switches.all_at_least(least)
    }

    /// Whether chains of every length were walked to the end so often.
    pub fn all_walked(&self, least: usize) -> bool {
        self.walked[1..].iter().all(|&count| count >= least)
    }
}

/// The targets of a mode's switches.
fn targets(mode: &Mode) -> impl Iterator<Item = usize> + '_ {
    mode.switches.iter().map(|switch| usize::from(switch.target))
}

/// The first multiple of the switch's period from one mode to another.
fn first_exit(module: &Module, from: usize, to: usize) -> u16 {
    let switches = &module.modes[from].switches;
    switches.iter().find(|switch| usize::from(switch.target) == to).unwrap().period
}

/// Whether two tasks of the mode are released together and are too much.
fn over_by_itself(mode: &Mode) -> bool {
    matches!(&mode.tasks[..], [one, two, ..] if one == two && one.cost == one.let_ticks)
}

/// The chain of a module's reached modes, if they form one: from mode 0 on each
/// lists one mode that is new, and the last one none.
fn chain(module: &Module) -> Option<Vec<usize>> {
    let mut chain = vec![0];
    loop {
        let new = targets(&module.modes[chain[chain.len() - 1]]).filter(|t| !chain.contains(t));
        match new.collect::<Vec<usize>>()[..] {
            [] => return Some(chain),
            [next] => chain.push(next),
            _ => return None,
        }
    }
}
