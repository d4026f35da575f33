//! How many calls of each kind were compared, and what they gave.

use crate::answer::Answer;
use crate::query::{Query, KINDS};
use second::sheet::{Mark, MOST_MODES};
use second::{reached, Exact, Kind, Mode, Module, Quick, Refusal, Sheet};
use std::fmt;

/// The counts of a comparison.
#[derive(Clone, Debug, Default, PartialEq, Eq)]
pub struct Tally {
    /// For each call of [`KINDS`] how often it was answered, and refused by each number. The judge
    /// is called once for each sheet.
    pub calls: [[u64; 11]; KINDS.len()],
    /// Quick tests that said clear, and over.
    pub quick: [u64; 2],
    /// Exact tests that said clear, and over.
    pub exact: [u64; 2],
    /// Exact tests that said over from a start above 0.
    pub late_starts: u64,
    /// Exact tests that said over with a tape of more than one mode.
    pub switching: u64,
    /// The ticks of the longest tape.
    pub longest_tape: usize,
    /// Accepted sheets with a mode that is not reached from mode 0.
    pub unreached: u64,
    /// Accepted sheets by how many switches it takes at least to the farthest reached mode.
    pub farthest: [u64; MOST_MODES],
    /// State demands answered about a mode that is not reached.
    pub unreached_states: u64,
    /// Accepted sheets with an SX.
    pub sx: u64,
    /// Accepted sheets with an SX that could not be an SW.
    pub sx_alone: u64,
    /// Exact tests that said over with a tape that leaves a mode where no SW could.
    pub left_by_sx: u64,
    /// Byte lists refused at an SX, by number.
    pub refused_at_sx: [u64; 11],
    /// Byte lists refused for the order at a TK behind an SX.
    pub task_behind_sx: u64,
}

impl Tally {
    /// Counts an accepted sheet that every call is made on.
    pub fn count_sheet(&mut self, sheet: &Sheet) {
        let all_reached = |module: &Module| reached(module).into_iter().all(|mode| mode);
        self.unreached += u64::from(!sheet.modules.iter().all(all_reached));
        self.farthest[sheet.modules.iter().map(farthest).max().unwrap_or(0)] += 1;
        self.sx += u64::from(sheet.switches().any(|switch| switch.kind == Kind::Sx));
        self.sx_alone += u64::from(sheet.modes().any(has_sx_alone));
    }

    /// Counts the tapes of an exact test that said over of the sheet.
    pub fn count_tapes(&mut self, sheet: &Sheet, tapes: &[Vec<u8>]) {
        let mut taped = sheet.modules.iter().zip(tapes);
        self.left_by_sx += u64::from(taped.any(|(module, tape)| leaves_by_sx(module, tape)));
    }

    /// Counts a refusal of these bytes by the judge.
    pub fn count_refused(&mut self, bytes: &[u8], refusal: &Refusal) {
        let Refusal { number, place } = *refusal;
        let stands = |mark: Mark, at: usize| bytes[at..].starts_with(&mark.bytes());
        if stands(Mark::Sx, place) {
            self.refused_at_sx[usize::from(number)] += 1;
        }
        let before = place.checked_sub(Mark::Sx.record_len());
        let behind_sx = before.is_some_and(|at| stands(Mark::Sx, at));
        self.task_behind_sx += u64::from(number == 3 && behind_sx && stands(Mark::Tk, place));
    }

    /// Counts a state demand that was answered about the sheet.
    pub fn count_state(&mut self, sheet: &Sheet, module: usize, mode: usize) {
        self.unreached_states += u64::from(!reached(&sheet.modules[module])[mode]);
    }

    /// Counts an answer that both sides gave.
    pub fn count(&mut self, query: &Query, answer: &Answer) {
        self.calls[query.kind()][answer.number()] += 1;
        match answer {
            Answer::Quick(verdict) => self.quick[usize::from(*verdict != Quick::Clear)] += 1,
            Answer::Exact(Exact::Clear) => self.exact[0] += 1,
            Answer::Exact(Exact::Over { a, b, tapes, .. }) => {
                self.exact[1] += 1;
                self.late_starts += u64::from(*a > 0);
                self.switching += u64::from(tapes.iter().flatten().any(|&mode| mode != 0));
                self.longest_tape = self.longest_tape.max(*b as usize);
            }
            _ => {}
        }
    }
}

/// Whether a mode of an accepted sheet has an SX whose period no SW could have.
fn has_sx_alone(mode: &Mode) -> bool {
    mode.switches.iter().any(|switch| !mode.task_periods_divide(switch.period))
}

/// Whether a tape leaves a mode after a stay that is no multiple of all its task periods, as
/// every stay is that an SW ends. Each stretch of one mode but the last is such a stay.
fn leaves_by_sx(module: &Module, tape: &[u8]) -> bool {
    let stretches: Vec<&[u8]> = tape.chunk_by(|mode, next| mode == next).collect();
    stretches[..stretches.len() - 1].iter().any(|stay| {
        let mut tasks = module.modes[usize::from(stay[0])].tasks.iter();
        tasks.any(|task| !stay.len().is_multiple_of(task.period.into()))
    })
}

/// How many switches it takes at least to the farthest reached mode.
fn farthest(module: &Module) -> usize {
    let mut come = vec![0];
    let mut switches = 0;
    loop {
        let listed = come.iter().flat_map(|&mode: &usize| &module.modes[mode].switches);
        let targets = listed.map(|switch| usize::from(switch.target));
        let mut more: Vec<usize> = targets.filter(|target| !come.contains(target)).collect();
        if more.is_empty() {
            return switches;
        }
        come.append(&mut more);
        switches += 1;
    }
}

impl fmt::Display for Tally {
    fn fmt(&self, f: &mut fmt::Formatter<'_>) -> fmt::Result {
        let [accepted, refused @ ..] = &self.calls[0];
        writeln!(f, "sheets: {accepted} accepted, {} refused", refused.iter().sum::<u64>())?;
        write!(f, "{:14}{:>11}", "call", "answered")?;
        (1..=10).try_for_each(|number| write!(f, "{:>11}", format!("refused {number}")))?;
        writeln!(f)?;
        for (name, counts) in KINDS.iter().zip(&self.calls) {
            write!(f, "{name:14}")?;
            counts.iter().try_for_each(|count| write!(f, "{count:>11}"))?;
            writeln!(f)?;
        }
        let ([quick_clear, quick_over], [exact_clear, exact_over]) = (self.quick, self.exact);
        writeln!(f, "quick test: {quick_clear} clear, {quick_over} over")?;
        write!(f, "exact test: {exact_clear} clear, {exact_over} over, ")?;
        write!(f, "of these {} from a start above 0, ", self.late_starts)?;
        writeln!(f, "{} with a switch on a tape", self.switching)?;
        writeln!(f, "longest tape: {} ticks", self.longest_tape)?;
        write!(f, "modes that are not reached: on {} sheets, ", self.unreached)?;
        writeln!(f, "{} state demands answered about one", self.unreached_states)?;
        writeln!(f, "sheets by the switches to the farthest mode: {:?}", self.farthest)?;
        write!(f, "SX: on {} sheets, on {} where no SW could be, ", self.sx, self.sx_alone)?;
        writeln!(f, "{} exact tests over with a mode left there", self.left_by_sx)?;
        let [_, _, _, order, count, _, value, ..] = self.refused_at_sx;
        write!(f, "byte lists refused at an SX: {order} by 3, {count} by 4, {value} by 6; ")?;
        writeln!(f, "by 3 at a TK behind one: {}", self.task_behind_sx)
    }
}
