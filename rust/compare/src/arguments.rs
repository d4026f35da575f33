//! The arguments of calls: in range, at its edges and past it; and the lengths of lent memory:
//! enough and too short.

use crate::memory::SPARE;
use crate::query::{tape_len, Query};
use second::generate::Rng;
use second::{Mode, Sheet};

const WORK_LEN: usize = tyvasuri::Sheet::WORK_LEN;
const REPORT_LEN: usize = tyvasuri::Sheet::REPORT_LEN;

/// A number from 0 to `top`, often one of the two; now and then one past it, or one that would
/// be in range if only its low bits were read.
fn around(rng: &mut Rng, top: usize) -> usize {
    let inside = rng.between(0, top);
    match rng.below(32) {
        0 => top + 1,
        1 => usize::MAX,
        2 => inside + *rng.pick(&[1 << 8, 1 << 16, 1 << 32, 1 << 63]),
        3..=6 => top,
        7..=9 => 0,
        _ => inside,
    }
}

/// Memory as long as is wanted, or longer.
fn enough(rng: &mut Rng, wanted: usize) -> usize {
    if rng.chance(75) {
        wanted
    } else {
        wanted + rng.between(1, SPARE)
    }
}

/// Memory that is one cell too short, or any number of cells.
fn too_short(rng: &mut Rng, wanted: usize) -> usize {
    if rng.chance(75) {
        wanted - 1
    } else {
        rng.below(wanted)
    }
}

/// Memory that is enough, now and then too short.
fn lent(rng: &mut Rng, wanted: usize) -> usize {
    if rng.chance(90) {
        enough(rng, wanted)
    } else {
        too_short(rng, wanted)
    }
}

/// A module's number and a mode's, and the mode if it is there, else some mode.
fn module_and_mode<'s>(rng: &mut Rng, sheet: &'s Sheet) -> (usize, usize, &'s Mode) {
    let module = around(rng, sheet.modules.len() - 1);
    let modes = &sheet.modules.get(module).unwrap_or(&sheet.modules[0]).modes;
    let mode = around(rng, modes.len() - 1);
    (module, mode, modes.get(mode).unwrap_or(&modes[0]))
}

fn mode_demand(rng: &mut Rng, sheet: &Sheet) -> Query {
    let (module, mode, found) = module_and_mode(rng, sheet);
    let period = usize::from(found.period);
    let to = around(rng, period);
    let top = if rng.chance(90) { to.min(period) } else { period };
    let from = around(rng, top);
    Query::ModeDemand { module, mode, from, to }
}

fn state_demand(rng: &mut Rng, sheet: &Sheet) -> Query {
    let (module, mode, found) = module_and_mode(rng, sheet);
    let time = around(rng, usize::from(found.period) - 1);
    let length = around(rng, usize::from(sheet.horizon));
    Query::StateDemand { module, mode, time, length, work: lent(rng, WORK_LEN) }
}

fn module_demand(rng: &mut Rng, sheet: &Sheet) -> Query {
    let module = around(rng, sheet.modules.len() - 1);
    let length = around(rng, usize::from(sheet.horizon));
    Query::ModuleDemand { module, length, work: lent(rng, WORK_LEN) }
}

/// The working, tape and output memory that the report of a sheet wants.
fn wanted(sheet: &Sheet) -> [usize; 3] {
    [WORK_LEN, tape_len(sheet), REPORT_LEN]
}

/// Each test and the report, with memory enough.
fn with_enough(rng: &mut Rng, sheet: &Sheet) -> [Query; 3] {
    let [work, tape, out] = wanted(sheet).map(|wanted| enough(rng, wanted));
    [Query::QuickTest { work }, Query::ExactTest { work, tape }, Query::Report { work, tape, out }]
}

/// Working, tape and output memory, where one of the first `kinds` is too short.
fn one_too_short(rng: &mut Rng, sheet: &Sheet, kinds: usize) -> [usize; 3] {
    let mut lens = wanted(sheet).map(|wanted| lent(rng, wanted));
    let short = rng.below(kinds);
    lens[short] = too_short(rng, wanted(sheet)[short]);
    lens
}

/// Each test and the report, with too little memory.
fn with_too_little(rng: &mut Rng, sheet: &Sheet) -> [Query; 3] {
    let [work, ..] = one_too_short(rng, sheet, 1);
    let quick = Query::QuickTest { work };
    let [work, tape, _] = one_too_short(rng, sheet, 2);
    let exact = Query::ExactTest { work, tape };
    let [work, tape, out] = one_too_short(rng, sheet, 3);
    [quick, exact, Query::Report { work, tape, out }]
}

/// Calls of every kind, the judge's first, with arguments about those that this sheet allows.
pub fn calls(rng: &mut Rng, sheet: &Sheet) -> Vec<Query> {
    let mut calls = vec![Query::Judge];
    for _ in 0..2 {
        calls.extend([
            mode_demand(rng, sheet),
            state_demand(rng, sheet),
            module_demand(rng, sheet),
        ]);
    }
    calls.extend(with_enough(rng, sheet));
    calls.extend(with_too_little(rng, sheet));
    calls
}
