//! The sheets of the benchmark, each of eight modules at horizon 2,000.
//!
//! Three are those of a pen display: pen, touch, panel, light, storage, radio, battery and keys,
//! each with a mode without tasks in which it is suspended. The others are made to be hard.

use second::{Kind, Mode, Module, Sheet, Switch, Task};
use std::iter::once;
use std::path::{Path, PathBuf};

/// The folder of the sheets' files.
pub fn folder() -> PathBuf {
    Path::new(env!("CARGO_MANIFEST_DIR")).join("../../bench/sheets")
}

/// The name of each sheet's file without its ending, and the sheet.
pub fn all() -> [(&'static str, Sheet); 5] {
    [
        ("ordinary_clear", ordinary_clear()),
        ("quick_over_exact_clear", quick_over_exact_clear()),
        ("over_late", over_late()),
        ("adversarial", adversarial(BEYOND)),
        ("adversarial_over", adversarial(WITHIN)),
    ]
}

/// A mode from its period, its tasks (offset, cost, LET, period) and its SW switches (target,
/// period).
pub fn mode(period: u16, tasks: &[[u16; 4]], switches: &[[u16; 2]]) -> Mode {
    let task =
        |&[offset, cost, let_ticks, period]: &[u16; 4]| Task { offset, cost, let_ticks, period };
    let switch = |&[target, period]: &[u16; 2]| Switch { kind: Kind::Sw, target, period };
    Mode {
        period,
        tasks: tasks.iter().map(task).collect(),
        switches: switches.iter().map(switch).collect(),
    }
}

/// A sheet at horizon 2,000.
fn sheet(modules: [Vec<Mode>; 8]) -> Sheet {
    Sheet { horizon: 2000, modules: modules.map(|modes| Module { modes }).to_vec() }
}

/// Away, hover, draw (a sample every 4 ticks), suspended.
fn pen() -> Vec<Mode> {
    vec![
        mode(20, &[[0, 1, 20, 20]], &[[1, 20], [3, 20]]),
        mode(40, &[[0, 1, 10, 10], [0, 1, 40, 40]], &[[0, 40], [2, 40]]),
        mode(40, &[[0, 1, 4, 4], [0, 2, 20, 20]], &[[1, 20], [0, 40]]),
        mode(100, &[], &[[0, 5]]),
    ]
}

/// Slow scan, fast scan, suspended while the pen is near.
fn touch() -> Vec<Mode> {
    vec![
        mode(25, &[[0, 1, 25, 25]], &[[1, 25], [2, 25]]),
        mode(10, &[[0, 1, 10, 10]], &[[0, 10], [2, 10]]),
        mode(50, &[], &[[0, 10]]),
    ]
}

/// Full refresh, partial refresh, suspended.
fn panel() -> Vec<Mode> {
    vec![
        mode(50, &[[0, 4, 50, 50], [0, 1, 25, 25]], &[[1, 50], [2, 50]]),
        mode(20, &[[0, 2, 20, 20]], &[[0, 20], [2, 20]]),
        mode(200, &[], &[[0, 20]]),
    ]
}

/// Steady, fade, off.
fn light() -> Vec<Mode> {
    vec![
        mode(100, &[[0, 1, 100, 100]], &[[1, 100], [2, 100]]),
        mode(20, &[[0, 1, 20, 20]], &[[0, 20], [2, 20]]),
        mode(100, &[], &[[1, 20]]),
    ]
}

/// Suspended at first, read, write.
fn storage() -> Vec<Mode> {
    vec![
        mode(100, &[], &[[1, 10], [2, 50]]),
        mode(50, &[[0, 4, 50, 50]], &[[0, 50], [2, 50]]),
        mode(100, &[[0, 8, 80, 100]], &[[0, 100], [1, 100]]),
    ]
}

/// Off at first, listening, transfer.
fn radio() -> Vec<Mode> {
    vec![
        mode(250, &[], &[[1, 50]]),
        mode(200, &[[50, 5, 100, 200]], &[[0, 200], [2, 200]]),
        mode(50, &[[0, 4, 50, 50]], &[[1, 50], [0, 50]]),
    ]
}

/// Discharging, charging, suspended.
fn battery() -> Vec<Mode> {
    vec![
        mode(250, &[[0, 2, 100, 250]], &[[1, 250], [2, 250]]),
        mode(125, &[[25, 2, 100, 125]], &[[0, 125]]),
        mode(500, &[], &[[0, 125]]),
    ]
}

/// Scanned, suspended.
fn keys() -> Vec<Mode> {
    vec![mode(40, &[[0, 1, 40, 40]], &[[1, 40]]), mode(80, &[], &[[0, 8]])]
}

/// Every task is due at its period's end or has time to spare, and the load is below 1: both
/// tests say clear.
fn ordinary_clear() -> Sheet {
    sheet([pen(), touch(), panel(), light(), storage(), radio(), battery(), keys()])
}

/// A frame of 20 ticks has a slot of 5 for each of pen, touch, panel and storage, and every mode
/// begins with a frame. The quick test adds up slots that never coincide, and says over.
fn quick_over_exact_clear() -> Sheet {
    sheet([
        vec![
            mode(20, &[[0, 2, 5, 20]], &[[1, 20], [2, 20]]),
            mode(20, &[[0, 4, 5, 20]], &[[0, 20]]),
            mode(100, &[], &[[0, 20]]),
        ],
        vec![
            mode(40, &[[5, 3, 4, 20]], &[[1, 20], [2, 40]]),
            mode(80, &[[5, 2, 4, 40]], &[[0, 40]]),
            mode(60, &[], &[[0, 20]]),
        ],
        vec![
            mode(20, &[[10, 4, 5, 20]], &[[1, 20]]),
            mode(100, &[[10, 4, 5, 100], [0, 1, 100, 100]], &[[0, 100], [2, 100]]),
            mode(200, &[], &[[0, 40]]),
        ],
        vec![
            mode(100, &[], &[[1, 20]]),
            mode(40, &[[15, 3, 5, 40]], &[[0, 40], [2, 40]]),
            mode(100, &[[15, 4, 5, 20]], &[[0, 20]]),
        ],
        vec![
            mode(100, &[[0, 1, 100, 100]], &[[1, 100]]),
            mode(40, &[[0, 1, 40, 40]], &[[0, 40], [2, 40]]),
            mode(100, &[], &[[0, 20]]),
        ],
        vec![
            mode(200, &[], &[[1, 100]]),
            mode(100, &[[0, 3, 100, 100]], &[[0, 100], [2, 100]]),
            mode(200, &[[0, 4, 180, 200]], &[[1, 200]]),
        ],
        vec![mode(200, &[[0, 2, 200, 200]], &[[1, 200]]), mode(500, &[], &[[0, 100]])],
        vec![mode(40, &[[0, 1, 40, 40]], &[[1, 40]]), mode(80, &[], &[[0, 20]])],
    ])
}

/// As the first sheet, but storage comes to write back at tick 1,000 at the earliest, and radio
/// to update at 1,600. Each goes well alone; together they are over.
fn over_late() -> Sheet {
    let write_back = vec![
        mode(500, &[], &[[1, 500]]),
        mode(500, &[[0, 4, 50, 50]], &[[2, 500]]),
        mode(200, &[[0, 20, 80, 100]], &[[0, 200]]),
    ];
    let update = vec![
        mode(800, &[], &[[1, 800]]),
        mode(800, &[[50, 5, 100, 200]], &[[2, 800]]),
        mode(100, &[[0, 20, 80, 100]], &[[0, 100]]),
    ];
    sheet([pen(), touch(), panel(), light(), write_back, update, battery(), keys()])
}

/// Mode times of the bursts of [`adversarial`]: past the horizon in every run, or just before it.
const BEYOND: u16 = 980;
const WITHIN: u16 = 960;

/// The longest sheet there is. In each module
///
/// - mode 0 has no task, and leads to the modes 1 to 5 at every tick;
/// - the modes 1 to 5 release at every 8th tick, which is all that eight modules can bear;
/// - mode 6 does so too, is entered at every tick from 1,025 on, and has bursts at mode time
///   `burst`;
/// - mode 7 has 16 tasks that release at every tick, and is entered past the horizon only.
///
/// So the quick test's sum exceeds every length, with mode 7 and without it, and the exact test
/// finds no interval over until a run comes to the bursts.
fn adversarial(burst: u16) -> Sheet {
    const STEADY: [u16; 4] = [0, 1, 8, 8];
    let bursts = (0..10).map(|n| [burst, 1 + 4 * n, 1 + 4 * n, 1024]);
    let late: Vec<[u16; 4]> = once(STEADY).chain(bursts).collect();
    let mut modes = vec![mode(1024, &[STEADY], &[[0, 1024], [6, 1024]]); 8];
    modes[0] = mode(1024, &[], &[1, 2, 3, 4, 5].map(|target| [target, 1]));
    modes[6] = mode(1024, &late, &[[7, 1024]]);
    modes[7] = mode(1024, &[[0, 1, 1, 1]; 16], &[]);
    sheet([(); 8].map(|()| modes.clone()))
}
