//! The program of the morning build, run on the sheets of the folder `examples`.

use crate::examples::folder;
use std::fs;
use std::path::PathBuf;
use std::process::{Command, Output};

/// The program, which `cargo test` builds beside the tests.
fn program() -> Command {
    let tests = std::env::current_exe().unwrap();
    let built = tests.ancestors().nth(2).unwrap().join("examples/morning_build");
    assert!(built.is_file(), "`cargo build --examples` builds {built:?}");
    Command::new(built)
}

/// A sheet of the folder `examples`.
fn sheet(name: &str) -> PathBuf {
    folder().join(name).with_extension("sheet")
}

/// A path for a report of its own for each test.
fn report(test: &str) -> PathBuf {
    PathBuf::from(env!("CARGO_TARGET_TMPDIR")).join(test)
}

/// Checks the exit status, and that each of the lines is printed on its own.
fn check(output: &Output, status: i32, lines: &[&str]) {
    let text = String::from_utf8_lossy(&output.stdout);
    assert_eq!(output.status.code(), Some(status), "{text}");
    for line in lines {
        assert!(text.lines().any(|printed| printed == *line), "{line:?} is not in\n{text}");
    }
}

#[test]
fn clear_is_0() {
    let output = program().arg(sheet("b_shorter_horizon")).output().unwrap();
    let lines = [
        "  modules 2, modes 3, tasks 3, switches 1",
        "  horizon 6",
        "quick test: over, the modules can demand 4 in 3 ticks",
        "exact test: clear",
        "Every deadline up to tick 6 is met, whatever switches are made.",
    ];
    check(&output, 0, &lines);
}

#[test]
fn over_is_1_and_shows_the_runs() {
    let output = program().arg(sheet("a_two_modules")).output().unwrap();
    let lines = [
        "exact test: over, the modules can demand 4 from tick 4 to 7",
        "In these runs, at full cost, a deadline up to tick 7 is missed:",
        "  module 0: mode 0 from tick 0",
        "  module 1: mode 0 from tick 0, mode 1 from tick 4",
    ];
    check(&output, 1, &lines);
}

#[test]
fn refusal_is_2_in_words() {
    let output = program().arg(sheet("damaged_cut_short")).output().unwrap();
    check(&output, 2, &[]);
    let said = String::from_utf8_lossy(&output.stderr);
    assert!(said.contains("the sheet ends where a mark or a field is wanted"), "{said}");
}

#[test]
fn unreadable_is_2_in_words() {
    let output = program().arg(sheet("no_such")).output().unwrap();
    check(&output, 2, &[]);
    let said = String::from_utf8_lossy(&output.stderr);
    assert!(said.contains("no_such.sheet cannot be read: "), "{said}");
}

#[test]
fn unwritable_report_is_2() {
    let output = program().arg(sheet("h_smallest")).arg(folder()).output().unwrap();
    check(&output, 2, &[]);
    assert!(String::from_utf8_lossy(&output.stderr).contains("cannot be written: "));
}

#[test]
fn no_sheet_named_is_2() {
    check(&program().output().unwrap(), 2, &[]);
}

#[test]
fn report_has_the_printed_lines() {
    for name in ["a_two_modules", "f_alternating", "damaged_cut_short"] {
        let report = report(name);
        program().arg(sheet(name)).arg(&report).output().unwrap();
        let printed = fs::read(sheet(name).with_extension("out")).unwrap();
        assert_eq!(fs::read(report).unwrap(), printed, "{name}");
    }
}

/// A file longer than any sheet is refused, and not read to its end.
#[test]
fn longer_files_are_2() {
    let long = report("long.sheet");
    let bytes = fs::read(sheet("h_smallest")).unwrap();
    fs::write(&long, [&bytes[..], &[0; 5000]].concat()).unwrap();
    let output = program().arg(long).output().unwrap();
    check(&output, 2, &[]);
    assert!(String::from_utf8_lossy(&output.stderr).contains("bytes stand after EN, from byte 16"));
}
