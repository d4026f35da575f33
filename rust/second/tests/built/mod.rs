//! Sheets built by hand, and their answers by both ways.

use second::{
    brute, encode, exact, judge, quick, report, Exact, Kind, Mode, Module, Quick, Sheet, Switch,
    Task, WORK_LEN,
};

/// The fields of a task in the paper's order.
pub type Fields = (u16, u16, u16, u16);

/// A task from its fields.
fn task((offset, cost, let_ticks, period): Fields) -> Task {
    Task { offset, cost, let_ticks, period }
}

/// A mode with tasks in the paper's order of fields, and SW switches (target,
/// period).
pub fn mode(period: u16, tasks: &[Fields], switches: &[(u16, u16)]) -> Mode {
    let switch = |&(target, period)| Switch { kind: Kind::Sw, target, period };
    Mode {
        period,
        tasks: tasks.iter().copied().map(task).collect(),
        switches: switches.iter().map(switch).collect(),
    }
}

/// A sheet's bytes from its horizon and its modules' modes.
pub fn sheet(horizon: u16, modules: Vec<Vec<Mode>>) -> Vec<u8> {
    let modules = modules.into_iter().map(|modes| Module { modes }).collect();
    encode(&Sheet { horizon, modules })
}

/// The text of the report.
pub fn text(bytes: &[u8]) -> String {
    String::from_utf8(report(bytes)).unwrap()
}

/// The quick and the exact test, by the table way, checked against the literal
/// way.
pub fn both(bytes: &[u8]) -> (Quick, Exact) {
    let sheet = judge(bytes).unwrap();
    let tape_len = sheet.modules.len() as u64 * u64::from(sheet.horizon);
    let answers = (quick(bytes, WORK_LEN).unwrap(), exact(bytes, WORK_LEN, tape_len).unwrap());
    assert_eq!(answers, (brute::quick(&sheet), brute::exact(&sheet)));
    answers
}
