//! The morning build's check of the joined sheet.
//!
//! `morning_build SHEET [REPORT]` checks the sheet in the file SHEET and says in
//! words what it found. To the file REPORT it writes the lines of the sheet
//! program.
//!
//! Exit status: 0 where the sheet is clear, 1 where it is over, 2 where there is
//! no verdict: the sheet is refused, or a file cannot be read or written.

use std::fs::{self, File};
use std::io::{self, Read};
use std::path::{Path, PathBuf};
use std::process::ExitCode;
use tyvasuri::{Counts, Exact, Memory, Quick, Refusal, Sheet, Tapes};

fn main() -> ExitCode {
    let paths: Vec<PathBuf> = std::env::args_os().skip(1).map(PathBuf::from).collect();
    let checked = match &paths[..] {
        [sheet] => check(sheet, None),
        [sheet, report] => check(sheet, Some(report)),
        _ => Err("it is called as `morning_build SHEET [REPORT]`".into()),
    };
    match checked {
        Ok(true) => ExitCode::SUCCESS,
        Ok(false) => ExitCode::from(1),
        Err(message) => {
            eprintln!("morning_build: {message}");
            ExitCode::from(2)
        }
    }
}

/// Checks the sheet in a file: whether it is clear, or why there is no verdict.
fn check(path: &Path, report: Option<&PathBuf>) -> Result<bool, String> {
    let bytes =
        read(path).map_err(|error| format!("{} cannot be read: {error}", path.display()))?;
    let judged = Sheet::judge(&bytes);
    let mut memory = Memory::new();
    if let Some(report) = report {
        fs::write(report, lines(&judged, &mut memory))
            .map_err(|error| format!("{} cannot be written: {error}", report.display()))?;
    }
    let sheet = judged.map_err(|refusal| format!("{}: {refusal}", path.display()))?;
    print_counts(path, sheet.counts());
    print_quick(sheet.quick_test_in(&mut memory));
    let exact = sheet.exact_test_in(&mut memory);
    print_exact(exact, sheet.horizon());
    Ok(exact.is_clear())
}

/// The file's bytes, one more than the longest sheet has at most.
fn read(path: &Path) -> io::Result<Vec<u8>> {
    let mut bytes = Vec::new();
    File::open(path)?.take(Sheet::MOST_BYTES as u64 + 1).read_to_end(&mut bytes)?;
    Ok(bytes)
}

/// The lines of the sheet program.
fn lines(judged: &Result<Sheet, Refusal>, memory: &mut Memory) -> String {
    match judged {
        Ok(sheet) => sheet.report_in(memory).into(),
        Err(refusal) => format!("{}\n", refusal.line()),
    }
}

fn print_counts(path: &Path, counts: Counts) {
    let Counts { modules, modes, tasks, switches, horizon, .. } = counts;
    println!("{}:", path.display());
    println!("  modules {modules}, modes {modes}, tasks {tasks}, switches {switches}");
    println!("  horizon {horizon}");
}

fn print_quick(verdict: Quick) {
    match verdict {
        Quick::Clear => println!("quick test: clear"),
        Quick::Over { length, demand, .. } => {
            println!("quick test: over, the modules can demand {demand} in {length} ticks");
        }
    }
}

fn print_exact(verdict: Exact, horizon: usize) {
    match verdict {
        Exact::Clear => {
            println!("exact test: clear");
            println!("Every deadline up to tick {horizon} is met, whatever switches are made.");
        }
        Exact::Over { start, end, demand, tapes, .. } => {
            println!(
                "exact test: over, the modules can demand {demand} from tick {start} to {end}"
            );
            println!("In these runs, at full cost, a deadline up to tick {end} is missed:");
            print_runs(tapes);
        }
    }
}

fn print_runs(tapes: Tapes) {
    for (module, tape) in tapes.into_iter().enumerate() {
        println!("  module {module}: {}", stretches(tape).join(", "));
    }
}

/// The stretches of one mode that a tape shows, each by the tick where it begins.
fn stretches(tape: &[u8]) -> Vec<String> {
    let begins = |&tick: &usize| tick == 0 || tape[tick - 1] != tape[tick];
    let words = |tick: usize| format!("mode {} from tick {tick}", tape[tick]);
    (0..tape.len()).filter(begins).map(words).collect()
}
