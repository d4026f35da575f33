//! The files of the benchmark's sheets: they are what the generator makes, and the second
//! implementation gives the verdicts that `bench/README.md` names.

use compare::comparison::Comparison;
use compare::sheets::{all, folder};
use compare::wanted::Way;
use second::generate::Rng;
use second::{encode, report};

const VERDICTS: [(&str, [&str; 2]); 5] = [
    ("ordinary_clear", ["quick clear", "exact clear"]),
    ("quick_over_exact_clear", ["quick over 5 demand 15", "exact clear"]),
    ("over_late", ["quick over 80 demand 90", "exact over 1600 1680 demand 90"]),
    ("adversarial", ["quick over 1 demand 128", "exact clear"]),
    ("adversarial_over", ["quick over 1 demand 128", "exact over 1985 1986 demand 8"]),
];

#[test]
fn files_are_as_made() {
    for (name, sheet) in all() {
        let file = std::fs::read(folder().join(name).with_extension("sheet")).unwrap();
        assert!(file == encode(&sheet), "{name}");
        assert!(tyvasuri::judge(&file).is_ok(), "{name}");
    }
}

#[test]
fn verdicts_are_as_named() {
    let readme = include_str!("../../../bench/README.md");
    for ((name, sheet), (wanted_name, wanted)) in all().into_iter().zip(VERDICTS) {
        assert_eq!(name, wanted_name);
        let lines = String::from_utf8(report(&encode(&sheet))).unwrap();
        assert!(lines.lines().skip(1).take(2).eq(wanted), "{name}: {lines}");
        let row = readme.lines().find(|line| line.starts_with(&format!("| `{name}.sheet`")));
        assert!(row.is_some_and(|row| wanted.iter().all(|verdict| row.contains(verdict))));
    }
}

/// Every call on the sheets that are not made to be hard: late ends and long tapes.
#[test]
fn both_sides_agree() {
    let mut comparison = Comparison::default();
    for (name, sheet) in &all()[..3] {
        let bytes = encode(sheet);
        let compared = comparison.every_call(&mut Rng::new(0), &bytes, Way::Table, sheet);
        assert_eq!(compared, Ok(()), "{name}");
    }
    assert_eq!(comparison.tally.longest_tape, 1680);
}

#[test]
fn adversarial_sheets_are_the_longest() {
    for (_, sheet) in &all()[3..] {
        assert_eq!(encode(sheet).len(), 3624);
        assert!(sheet.modes().all(|mode| mode.period == 1024));
        let counts = sheet.counts();
        assert_eq!((counts.modes, counts.tasks, counts.switches), (64, 256, 128));
    }
}
