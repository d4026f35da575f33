//! The sheets of the folder `examples`, each with what is printed for it.

use crate::sheets::{
    sheet_a, sheet_b, sheet_f, sheet_factory, sheet_g, sheet_h, sheet_leave_by_sw,
    sheet_leave_by_sx, sheet_leave_by_sx_over,
};
use std::ffi::OsStr;
use std::fs;
use std::path::{Path, PathBuf};
use tyvasuri::{Memory, Sheet};

/// The folder of the sheets.
pub fn folder() -> PathBuf {
    Path::new(env!("CARGO_MANIFEST_DIR")).join("../../examples")
}

/// The files of the folder with this ending, in order.
fn files(ending: &str) -> Vec<PathBuf> {
    let entries = fs::read_dir(folder()).unwrap();
    let mut paths: Vec<PathBuf> = entries.map(|entry| entry.unwrap().path()).collect();
    paths.retain(|path| path.extension() == Some(OsStr::new(ending)));
    paths.sort();
    paths
}

#[test]
fn every_sheet_prints_its_lines() {
    let sheets = files("sheet");
    assert!(sheets.len() >= 11);
    let printed: Vec<PathBuf> = sheets.iter().map(|path| path.with_extension("out")).collect();
    assert_eq!(files("out"), printed);
    let mut memory = Memory::new();
    for path in sheets {
        let bytes = fs::read(&path).unwrap();
        let lines = match Sheet::judge(&bytes) {
            Ok(sheet) => sheet.report_in(&mut memory).to_string(),
            Err(refusal) => refusal.line() + "\n",
        };
        assert_eq!(lines, fs::read_to_string(path.with_extension("out")).unwrap(), "{path:?}");
    }
}

#[test]
fn sheets_are_the_worked_ones() {
    for (name, bytes) in [
        ("a_two_modules", sheet_a()),
        ("b_shorter_horizon", sheet_b()),
        ("f_alternating", sheet_f()),
        ("g_alternating_over", sheet_g()),
        ("h_smallest", sheet_h()),
        ("factory_mode", sheet_factory()),
        ("leave_by_sw", sheet_leave_by_sw()),
        ("leave_by_sx", sheet_leave_by_sx()),
        ("leave_by_sx_over", sheet_leave_by_sx_over()),
    ] {
        assert_eq!(fs::read(folder().join(name).with_extension("sheet")).unwrap(), bytes, "{name}");
    }
}
