//! Times the state demand, the quick and the exact test of the archive and of the second
//! implementation on the sheets of `bench/sheets`, and prints the times as tables:
//!
//! `cargo run --release --bin bench [-- NAME ...]`
//!
//! Without names all sheets are timed.

use compare::answer::Answer;
use compare::sheets::folder;
use second::{Exact, WORK_LEN};
use std::path::{Path, PathBuf};
use std::time::{Duration, Instant};
use std::{fs, io};
use tyvasuri::Sheet;

/// A time is the best of at most so many calls.
const MOST_CALLS: usize = 25;
/// No further call is begun after so long a time of calls.
const MOST_TIME: Duration = Duration::from_secs(10);
/// The horizons of the exact test; the last is that of the sheets.
const HORIZONS: [u16; 3] = [500, 1000, 2000];

/// What both sides answer, and how long each takes.
struct Timed {
    verdict: String,
    archive: Duration,
    second: Duration,
}

/// The times of one sheet: the demand of the first state of the first module up to the horizon,
/// the quick test, and the exact test at each horizon.
struct Times {
    name: String,
    state: Timed,
    quick: Timed,
    exact: [Timed; HORIZONS.len()],
}

fn main() -> io::Result<()> {
    let mut times = Vec::new();
    for path in paths()? {
        times.push(time_sheet(&path)?);
    }
    println!(
        "Each time is the best of at most {MOST_CALLS} calls, none begun after {} s of calls, by \
         the wall clock. Both sides were built for release and ran in one thread of this one run, \
         call by call in turn, on {} {}. A call judges the sheet and works out the answer; the lent \
         memory is not cleared between calls.",
        MOST_TIME.as_secs(),
        std::env::consts::ARCH,
        std::env::consts::OS
    );
    print_tests(&times);
    print_growth(&times);
    Ok(())
}

/// The sheets' files, by name: those that the arguments name, or all.
fn paths() -> io::Result<Vec<PathBuf>> {
    let named: Vec<String> = std::env::args().skip(1).collect();
    let files = fs::read_dir(folder())?.map(|entry| Ok(entry?.path()));
    let mut paths = files.collect::<io::Result<Vec<PathBuf>>>()?;
    paths.retain(|path| path.extension().is_some_and(|ending| ending == "sheet"));
    paths.retain(|path| named.is_empty() || named.contains(&stem(path)));
    paths.sort();
    Ok(paths)
}

/// A file's name without its ending.
fn stem(path: &Path) -> String {
    path.file_stem().unwrap_or_default().to_string_lossy().into_owned()
}

fn time_sheet(path: &Path) -> io::Result<Times> {
    let bytes = fs::read(path)?;
    let name = stem(path);
    eprintln!("{name}");
    let exact = HORIZONS.map(|horizon| time_exact(&with_horizon(&bytes, horizon)));
    Ok(Times { name, state: time_state(&bytes), quick: time_quick(&bytes), exact })
}

/// The same sheet with another horizon.
fn with_horizon(bytes: &[u8], horizon: u16) -> Vec<u8> {
    let mut changed = bytes.to_vec();
    changed[2..4].copy_from_slice(&horizon.to_le_bytes());
    changed
}

fn time_state(bytes: &[u8]) -> Timed {
    let length = HORIZONS[HORIZONS.len() - 1];
    let mut work = vec![0; Sheet::WORK_LEN];
    let archive = || {
        tyvasuri::state_demand(bytes, 0, 0, 0, length.into(), &mut work)
            .map_or_else(Answer::from, Answer::from)
    };
    let second = || {
        second::state_demand(bytes, 0, 0, 0, length.into(), WORK_LEN)
            .map_or_else(Answer::Refused, Answer::Demand)
    };
    time_both(archive, second)
}

fn time_quick(bytes: &[u8]) -> Timed {
    let mut work = vec![0; Sheet::WORK_LEN];
    let archive = || tyvasuri::quick_test(bytes, &mut work).map_or_else(Answer::from, Answer::from);
    let second = || second::quick(bytes, WORK_LEN).map_or_else(Answer::Refused, Answer::Quick);
    time_both(archive, second)
}

fn time_exact(bytes: &[u8]) -> Timed {
    let (mut work, mut tape) = (vec![0; Sheet::WORK_LEN], vec![0; Sheet::MOST_TAPE_LEN]);
    let tape_len = tape.len() as u64;
    let archive = || {
        tyvasuri::exact_test(bytes, &mut work, &mut tape).map_or_else(Answer::from, Answer::from)
    };
    let second =
        || second::exact(bytes, WORK_LEN, tape_len).map_or_else(Answer::Refused, Answer::Exact);
    time_both(archive, second)
}

/// Times both sides, whose answers have to be the same. Their calls take turns, so that other load
/// bears on both alike.
fn time_both(archive: impl FnMut() -> Answer, second: impl FnMut() -> Answer) -> Timed {
    let (mut archive, mut second) = (Side::of(archive), Side::of(second));
    for _ in 1..MOST_CALLS {
        archive.call_again();
        second.call_again();
    }
    let (given, wanted) = (archive.answer, second.answer);
    assert!(given == wanted, "the archive says {given}, the second implementation {wanted}");
    Timed { verdict: words(&given), archive: archive.shortest, second: second.shortest }
}

/// One side's calls so far: the shortest time, the time of all, and the answer.
struct Side<F> {
    call: F,
    shortest: Duration,
    spent: Duration,
    answer: Answer,
}

impl<F: FnMut() -> Answer> Side<F> {
    /// After the first call.
    fn of(mut call: F) -> Side<F> {
        let (time, answer) = timed(&mut call);
        Side { call, shortest: time, spent: time, answer }
    }

    /// Calls once more, unless the time for it is over.
    fn call_again(&mut self) {
        if self.spent < MOST_TIME {
            let (time, _) = timed(&mut self.call);
            self.shortest = self.shortest.min(time);
            self.spent += time;
        }
    }
}

/// How long a call takes, and its answer.
fn timed(call: &mut impl FnMut() -> Answer) -> (Duration, Answer) {
    let start = Instant::now();
    let answer = call();
    (start.elapsed(), answer)
}

/// The verdict without its tapes.
fn words(answer: &Answer) -> String {
    match answer {
        Answer::Exact(Exact::Over { a, b, demand, .. }) => format!("over {a} {b} demand {demand}"),
        other => other.to_string(),
    }
}

fn print_tests(times: &[Times]) {
    println!("\n| Sheet | Call | Answer | Archive | Second | Archive / second |");
    println!("|---|---|---|---|---|---|");
    for Times { name, state, quick, exact } in times {
        println!("| {name} | state demand | {} |", cells(state));
        println!("| {name} | quick | {} |", cells(quick));
        println!("| {name} | exact | {} |", cells(&exact[HORIZONS.len() - 1]));
    }
}

fn print_growth(times: &[Times]) {
    println!("\nThe exact test of the same sheets at other horizons:");
    println!("\n| Sheet | Horizon | Verdict | Archive | Second | Archive / second |");
    println!("|---|---|---|---|---|---|");
    for Times { name, exact, .. } in times {
        for (horizon, timed) in HORIZONS.iter().zip(exact) {
            println!("| {name} | {horizon} | {} |", cells(timed));
        }
    }
}

/// The verdict, the two times and their ratio.
fn cells(Timed { verdict, archive, second }: &Timed) -> String {
    let ratio = archive.as_secs_f64() / second.as_secs_f64();
    format!("{verdict} | {} | {} | {ratio:.1}", in_ms(*archive), in_ms(*second))
}

fn in_ms(time: Duration) -> String {
    format!("{:.2} ms", time.as_secs_f64() * 1000.0)
}
