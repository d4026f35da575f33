//! The sheet: its parts, its limits, its judge and its encoder.

/// At most this many modules in a sheet.
pub const MOST_MODULES: usize = 8;
/// At most this many modes in a module.
pub const MOST_MODES: usize = 8;
/// At most this many tasks in a mode.
pub const MOST_TASKS_IN_MODE: usize = 16;
/// At most this many tasks in a sheet.
pub const MOST_TASKS: usize = 256;
/// At most this many switches in a sheet.
pub const MOST_SWITCHES: usize = 128;
/// The largest horizon.
pub const LONGEST_HORIZON: u16 = 2000;
/// The largest mode period.
pub const LONGEST_PERIOD: u16 = 1024;
/// Bytes of the longest well-formed sheet.
pub const LONGEST_SHEET: usize = 3624;

/// A task: released where the mode time leaves `offset` in `period`, due
/// `let_ticks` later.
#[derive(Clone, Copy, Debug, PartialEq, Eq)]
pub struct Task {
    pub offset: u16,
    pub cost: u16,
    /// The paper's LET; the bare word is a keyword of the language.
    pub let_ticks: u16,
    pub period: u16,
}

/// The kind of a switch, by its mark. Runs read both alike; the rules of the
/// switch period differ.
#[derive(Clone, Copy, Debug, PartialEq, Eq)]
pub enum Kind {
    /// SW: the switch period is a multiple of every task period of the mode.
    Sw,
    /// SX: no multiple of the switch period falls within an instance.
    Sx,
}

impl Kind {
    /// The mark of such a switch.
    pub fn mark(self) -> Mark {
        match self {
            Kind::Sw => Mark::Sw,
            Kind::Sx => Mark::Sx,
        }
    }
}

/// A switch to mode `target` at every multiple of `period`.
#[derive(Clone, Copy, Debug, PartialEq, Eq)]
pub struct Switch {
    pub kind: Kind,
    pub target: u16,
    pub period: u16,
}

/// A mode: its period, its tasks and its switches.
#[derive(Clone, Debug, Default, PartialEq, Eq)]
pub struct Mode {
    pub period: u16,
    pub tasks: Vec<Task>,
    pub switches: Vec<Switch>,
}

impl Mode {
    /// Whether the switch period is a multiple of every task period of the mode: the
    /// rule that SW keeps and SX lifts.
    pub fn task_periods_divide(&self, switch_period: u16) -> bool {
        self.tasks.iter().all(|task| switch_period.is_multiple_of(task.period))
    }
}

/// A module: its modes, numbered from 0, mode 0 being the initial one.
#[derive(Clone, Debug, Default, PartialEq, Eq)]
pub struct Module {
    pub modes: Vec<Mode>,
}

/// A sheet: its horizon and its modules.
#[derive(Clone, Debug, Default, PartialEq, Eq)]
pub struct Sheet {
    pub horizon: u16,
    pub modules: Vec<Module>,
}

/// The counts the first line of the report gives.
#[derive(Clone, Copy, Debug, PartialEq, Eq)]
pub struct Counts {
    pub modules: usize,
    pub modes: usize,
    pub tasks: usize,
    pub switches: usize,
}

impl Sheet {
    /// Every mode of every module, in order.
    pub fn modes(&self) -> impl Iterator<Item = &Mode> {
        self.modules.iter().flat_map(|module| &module.modes)
    }

    /// Every task of the sheet, in order.
    pub fn tasks(&self) -> impl Iterator<Item = &Task> {
        self.modes().flat_map(|mode| &mode.tasks)
    }

    /// Every switch of the sheet, in order.
    pub fn switches(&self) -> impl Iterator<Item = &Switch> {
        self.modes().flat_map(|mode| &mode.switches)
    }

    /// How many modules, modes, tasks and switches there are.
    pub fn counts(&self) -> Counts {
        Counts {
            modules: self.modules.len(),
            modes: self.modes().count(),
            tasks: self.tasks().count(),
            switches: self.switches().count(),
        }
    }
}

/// A refusal: its number in the paper's table, and its place.
#[derive(Clone, Copy, Debug, PartialEq, Eq)]
pub struct Refusal {
    pub number: u8,
    pub place: usize,
}

/// The seven marks of the list.
#[derive(Clone, Copy, Debug, PartialEq, Eq)]
pub enum Mark {
    Hz,
    Ml,
    Md,
    Tk,
    Sw,
    Sx,
    En,
}

impl Mark {
    /// All marks, in the order of the paper's table; SX, which came later, is
    /// next to SW.
    pub const ALL: [Mark; 7] =
        [Mark::Hz, Mark::Ml, Mark::Md, Mark::Tk, Mark::Sw, Mark::Sx, Mark::En];

    /// The two ASCII bytes of the mark.
    pub fn bytes(self) -> [u8; 2] {
        *match self {
            Mark::Hz => b"HZ",
            Mark::Ml => b"ML",
            Mark::Md => b"MD",
            Mark::Tk => b"TK",
            Mark::Sw => b"SW",
            Mark::Sx => b"SX",
            Mark::En => b"EN",
        }
    }

    /// The mark these two bytes are, if they are one.
    pub fn read(bytes: [u8; 2]) -> Option<Mark> {
        Mark::ALL.into_iter().find(|mark| mark.bytes() == bytes)
    }

    /// How many fields follow the mark.
    pub fn fields(self) -> usize {
        match self {
            Mark::Tk => 4,
            Mark::Sw | Mark::Sx => 2,
            _ => 1,
        }
    }

    /// Bytes of a whole record with this mark.
    pub fn record_len(self) -> usize {
        2 + 2 * self.fields()
    }
}

/// One record: its mark, and its fields (those past the mark's number are 0).
#[derive(Clone, Copy, Debug, PartialEq, Eq)]
pub struct Record {
    pub mark: Mark,
    pub fields: [u16; 4],
}

/// Reads the record at the front of `rest`, or gives the refusal number: too
/// few bytes for a mark (1), an unknown mark (2), fields cut short (1).
pub fn read_record(rest: &[u8]) -> Result<Record, u8> {
    if rest.len() < 2 {
        return Err(1);
    }
    let mark = Mark::read([rest[0], rest[1]]).ok_or(2)?;
    if rest.len() < mark.record_len() {
        return Err(1);
    }
    let mut fields = [0; 4];
    for (field, pair) in fields.iter_mut().zip(rest[2..mark.record_len()].chunks(2)) {
        *field = u16::from_le_bytes([pair[0], pair[1]]);
    }
    Ok(Record { mark, fields })
}

/// What the judge has seen of a sheet so far.
struct Judging {
    sheet: Sheet,
    /// The mark of the record accepted last; none at the front.
    last: Option<Mark>,
    /// The number of modes the open module has to have.
    stated_modes: usize,
    tasks: usize,
    switches: usize,
    records: usize,
}

/// Judges a sheet: the whole of it, or the first refusal from the front.
pub fn judge(bytes: &[u8]) -> Result<Sheet, Refusal> {
    let mut judging = Judging {
        sheet: Sheet::default(),
        last: None,
        stated_modes: 0,
        tasks: 0,
        switches: 0,
        records: 0,
    };
    let mut place = 0;
    while judging.last != Some(Mark::En) {
        let refuse = |number| Refusal { number, place };
        let record = read_record(&bytes[place..]).map_err(refuse)?;
        judging.accept(&record).map_err(refuse)?;
        place += record.mark.record_len();
    }
    if place < bytes.len() {
        return Err(Refusal { number: 8, place });
    }
    Ok(judging.sheet)
}

impl Judging {
    /// Takes in one record, or gives its refusal number: order before counts,
    /// counts before values.
    fn accept(&mut self, record: &Record) -> Result<(), u8> {
        if !self.in_order(record.mark) {
            return Err(3);
        }
        if self.exceeds(record.mark) {
            return Err(4);
        }
        self.check_values(record)?;
        self.add(record);
        Ok(())
    }

    /// Whether a module is open and has all its stated modes.
    fn module_full(&self) -> bool {
        match self.sheet.modules.last() {
            Some(module) => module.modes.len() == self.stated_modes,
            None => false,
        }
    }

    /// Whether the mark may stand here.
    fn in_order(&self, mark: Mark) -> bool {
        match mark {
            Mark::Hz => self.last.is_none(),
            Mark::Ml => self.last == Some(Mark::Hz) || self.module_full(),
            Mark::Md => !self.sheet.modules.is_empty() && !self.module_full(),
            Mark::Tk => matches!(self.last, Some(Mark::Md | Mark::Tk)),
            Mark::Sw | Mark::Sx => {
                matches!(self.last, Some(Mark::Md | Mark::Tk | Mark::Sw | Mark::Sx))
            }
            Mark::En => self.module_full(),
        }
    }

    /// Whether one more such record would be the ninth ML, the 17th TK of the
    /// mode, the 257th TK or the 129th of SW and SX together.
    fn exceeds(&self, mark: Mark) -> bool {
        match mark {
            Mark::Ml => self.sheet.modules.len() == MOST_MODULES,
            Mark::Tk => {
                self.open_mode().tasks.len() == MOST_TASKS_IN_MODE || self.tasks == MOST_TASKS
            }
            Mark::Sw | Mark::Sx => self.switches == MOST_SWITCHES,
            _ => false,
        }
    }

    /// The mode that is open; only asked where the order has shown there is one.
    fn open_mode(&self) -> &Mode {
        let module = self.sheet.modules.last().expect("a module is open");
        module.modes.last().expect("a mode is open")
    }

    /// The rules of the fields: 5 for HZ, ML, MD and TK, 6 for SW and SX, 7 for
    /// EN.
    fn check_values(&self, record: &Record) -> Result<(), u8> {
        let field = record.fields[0];
        let (good, number) = match record.mark {
            Mark::Hz => ((1..=LONGEST_HORIZON).contains(&field), 5),
            Mark::Ml => ((1..=MOST_MODES as u16).contains(&field), 5),
            Mark::Md => ((1..=LONGEST_PERIOD).contains(&field), 5),
            Mark::Tk => (task_good(&task_of(record), self.open_mode()), 5),
            Mark::Sw | Mark::Sx => (self.switch_good(&switch_of(record)), 6),
            Mark::En => (usize::from(field) == self.records, 7),
        };
        good.then_some(()).ok_or(number)
    }

    /// The switch rules, against the open mode and its module's stated modes.
    fn switch_good(&self, switch: &Switch) -> bool {
        let mode = self.open_mode();
        let own = self.sheet.modules.last().map_or(0, |m| m.modes.len() - 1);
        let target = usize::from(switch.target);
        target < self.stated_modes
            && target != own
            && mode.switches.iter().all(|s| s.target != switch.target)
            && switch.period >= 1
            && mode.period.is_multiple_of(switch.period)
            && match switch.kind {
                Kind::Sw => mode.task_periods_divide(switch.period),
                Kind::Sx => idle_at_multiples(mode, switch.period),
            }
    }

    /// Enters a record that has passed.
    fn add(&mut self, record: &Record) {
        let sheet = &mut self.sheet;
        match record.mark {
            Mark::Hz => sheet.horizon = record.fields[0],
            Mark::Ml => {
                self.stated_modes = usize::from(record.fields[0]);
                sheet.modules.push(Module::default());
            }
            Mark::Md | Mark::Tk | Mark::Sw | Mark::Sx => {
                let module = sheet.modules.last_mut().expect("a module is open");
                add_to_module(module, record);
            }
            Mark::En => {}
        }
        self.tasks += usize::from(record.mark == Mark::Tk);
        self.switches += usize::from(matches!(record.mark, Mark::Sw | Mark::Sx));
        self.records += 1;
        self.last = Some(record.mark);
    }
}

/// Enters an MD, TK, SW or SX record in the open module.
fn add_to_module(module: &mut Module, record: &Record) {
    if record.mark == Mark::Md {
        let period = record.fields[0];
        module.modes.push(Mode { period, ..Mode::default() });
        return;
    }
    let mode = module.modes.last_mut().expect("a mode is open");
    match record.mark {
        Mark::Tk => mode.tasks.push(task_of(record)),
        _ => mode.switches.push(switch_of(record)),
    }
}

/// The task rules. They make the period at least 1 by themselves: the LET is
/// at least the cost, the cost at least 1, and the period at least the LET.
fn task_good(task: &Task, mode: &Mode) -> bool {
    task.cost >= 1
        && task.cost <= task.let_ticks
        && u32::from(task.offset) + u32::from(task.let_ticks) <= u32::from(task.period)
        && mode.period.is_multiple_of(task.period)
}

/// The rule of an SX: no positive multiple of its period up to the mode period
/// falls strictly between the release and the due tick of an instance that a task
/// of the mode releases in one mode period. The switch period is not 0 here.
fn idle_at_multiples(mode: &Mode, switch_period: u16) -> bool {
    let multiples: Vec<u16> =
        (1..=mode.period / switch_period).map(|n| n * switch_period).collect();
    mode.tasks.iter().all(|task| {
        let mut releases = (task.offset..mode.period).step_by(usize::from(task.period));
        releases.all(|release| {
            let due = release + task.let_ticks;
            !multiples.iter().any(|&tick| release < tick && tick < due)
        })
    })
}

/// The fields of a TK record, named.
fn task_of(record: &Record) -> Task {
    let [offset, cost, let_ticks, period] = record.fields;
    Task { offset, cost, let_ticks, period }
}

/// The kind and the fields of an SW or SX record, named.
fn switch_of(record: &Record) -> Switch {
    let [target, period, ..] = record.fields;
    let kind = if record.mark == Mark::Sx { Kind::Sx } else { Kind::Sw };
    Switch { kind, target, period }
}

/// Writes the sheet's bytes. It judges nothing: a sheet that breaks a rule or
/// a limit is written as it is, so that faults can be made on purpose.
pub fn encode(sheet: &Sheet) -> Vec<u8> {
    let mut out = Vec::new();
    let mut records = 0u16;
    let mut put = |mark: Mark, fields: &[u16]| {
        out.extend(mark.bytes());
        out.extend(fields.iter().flat_map(|field| field.to_le_bytes()));
        records = records.wrapping_add(1);
        records
    };
    let mut before = put(Mark::Hz, &[sheet.horizon]);
    for module in &sheet.modules {
        before = put(Mark::Ml, &[module.modes.len() as u16]);
        for mode in &module.modes {
            before = put(Mark::Md, &[mode.period]);
            for t in &mode.tasks {
                before = put(Mark::Tk, &[t.offset, t.cost, t.let_ticks, t.period]);
            }
            for s in &mode.switches {
                before = put(s.kind.mark(), &[s.target, s.period]);
            }
        }
    }
    put(Mark::En, &[before]);
    out
}
