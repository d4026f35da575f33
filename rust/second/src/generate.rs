//! Made-up sheets: well-formed ones of a given shape, and damaged ones. All
//! come from a seed, and the same seed always gives the same sheets.

use crate::sheet::*;

/// A pseudo-random generator (splitmix64).
#[derive(Clone, Debug)]
pub struct Rng(u64);

impl Rng {
    /// A generator with this seed.
    pub fn new(seed: u64) -> Rng {
        Rng(seed)
    }

    /// The next 64 bits.
    pub fn bits(&mut self) -> u64 {
        self.0 = self.0.wrapping_add(0x9E37_79B9_7F4A_7C15);
        let mut z = self.0;
        z = (z ^ (z >> 30)).wrapping_mul(0xBF58_476D_1CE4_E5B9);
        z = (z ^ (z >> 27)).wrapping_mul(0x94D0_49BB_1331_11EB);
        z ^ (z >> 31)
    }

    /// A number below `bound`, which must not be 0.
    pub fn below(&mut self, bound: usize) -> usize {
        (self.bits() % bound as u64) as usize
    }

    /// A number from `low` to `high`, both included.
    pub fn between(&mut self, low: usize, high: usize) -> usize {
        low + self.below(high - low + 1)
    }

    /// True in so many of a hundred cases.
    pub fn chance(&mut self, percent: usize) -> bool {
        self.below(100) < percent
    }

    /// One of the items, which must not be none.
    pub fn pick<'a, T>(&mut self, items: &'a [T]) -> &'a T {
        &items[self.below(items.len())]
    }
}

/// The shape of the sheets to make. Pairs are the least and the most.
#[derive(Clone, Debug)]
pub struct Shape {
    pub horizon: (usize, usize),
    pub modules: (usize, usize),
    /// Modes in a module; a chain may need more.
    pub modes: (usize, usize),
    /// Tasks in a mode; a heavy one has two at least, an idle one one.
    pub tasks: (usize, usize),
    /// Switches in a mode; there are never more than modes it may lead to.
    pub switches: (usize, usize),
    /// The mode periods to choose from.
    pub periods: Vec<u16>,
    /// Task periods are at least this where the mode period allows it.
    pub shortest_task_period: u16,
    /// The LET is at least this share of the task period, in percent.
    pub let_percent: usize,
    /// The cost is at most the LET divided by this, and at least 1.
    pub cost_divisor: usize,
    /// So many percent of the modules have a chain: mode 0 and those after it
    /// list the next one each, and perhaps earlier ones. Up to two more modes,
    /// or what the module lacks of its least number, are kept out of it.
    pub chain_percent: usize,
    /// Switches in a chain, at most seven.
    pub chain: (usize, usize),
    /// The mode periods to choose from in a module with a chain: short enough
    /// for runs to come to the end of many chains within the horizon.
    pub chain_periods: Vec<u16>,
    /// In so many percent of the other modules with more than one mode, some
    /// modes are kept out: none but these lists them, so they are not reached.
    /// In further modules some are not reached by chance.
    pub unreached_percent: usize,
}

/// So many percent of the modes with switches are idle ones, in every shape: their
/// tasks are put between the multiples of a switch period that need not be a
/// multiple of any task period. All switches of such a mode are SX, or half of
/// them; of the other modes' switches a few are.
const IDLE_PERCENT: usize = 40;

impl Shape {
    /// All the shapes below, with their names.
    pub fn all() -> [(&'static str, Shape); 7] {
        [
            ("small", Shape::small()),
            ("small_light", Shape::small_light()),
            ("medium", Shape::medium()),
            ("realistic", Shape::realistic()),
            ("wide", Shape::wide()),
            ("wide_light", Shape::wide_light()),
            ("fullest", Shape::fullest()),
        ]
    }

    /// Sheets small enough for the literal way.
    pub fn small() -> Shape {
        Shape {
            horizon: (1, 11),
            modules: (1, 3),
            modes: (1, 3),
            tasks: (0, 3),
            switches: (0, 2),
            periods: (1..=8).collect(),
            shortest_task_period: 1,
            let_percent: 0,
            cost_divisor: 1,
            chain_percent: 12,
            chain: (1, 7),
            chain_periods: vec![1, 1, 2, 3],
            unreached_percent: 12,
        }
    }

    /// Small sheets that are seldom over at once: few, cheap tasks.
    pub fn small_light() -> Shape {
        Shape {
            horizon: (4, 14),
            tasks: (0, 1),
            periods: vec![2, 3, 4, 5, 6, 8, 10, 12],
            shortest_task_period: 3,
            let_percent: 40,
            cost_divisor: 1,
            ..Shape::small()
        }
    }

    /// Sheets of some tens of ticks and states.
    pub fn medium() -> Shape {
        Shape {
            horizon: (20, 90),
            modules: (1, 4),
            modes: (1, 4),
            tasks: (0, 2),
            switches: (0, 3),
            periods: vec![4, 6, 8, 9, 10, 12, 15, 16, 20, 24, 30],
            shortest_task_period: 4,
            let_percent: 50,
            cost_divisor: 4,
            chain_percent: 12,
            chain: (1, 7),
            chain_periods: vec![4, 6, 8, 9, 10, 12],
            unreached_percent: 12,
        }
    }

    /// Eight modules with periods as they are in use, at horizon 2,000.
    pub fn realistic() -> Shape {
        Shape {
            horizon: (2000, 2000),
            modules: (8, 8),
            modes: (2, 4),
            tasks: (1, 2),
            switches: (1, 2),
            periods: vec![100, 200, 250, 400, 500, 1000],
            shortest_task_period: 50,
            let_percent: 80,
            cost_divisor: 8,
            chain_percent: 12,
            chain: (1, 3),
            chain_periods: vec![100, 200, 250, 400, 500, 1000],
            unreached_percent: 20,
        }
    }

    /// Any sheet within the limits, large ones among them.
    pub fn wide() -> Shape {
        Shape {
            horizon: (1, 2000),
            modules: (1, 8),
            modes: (1, 8),
            tasks: (0, 16),
            switches: (0, 7),
            periods: (1..=1024).collect(),
            shortest_task_period: 1,
            let_percent: 0,
            cost_divisor: 1,
            chain_percent: 12,
            chain: (1, 7),
            chain_periods: (1..=256).collect(),
            unreached_percent: 20,
        }
    }

    /// Any number of parts within the limits, but longer task periods and lower
    /// costs, so that not all are over at once.
    pub fn wide_light() -> Shape {
        Shape {
            horizon: (200, 2000),
            tasks: (0, 3),
            switches: (0, 3),
            shortest_task_period: 40,
            let_percent: 60,
            cost_divisor: 7,
            ..Shape::wide()
        }
    }

    /// The longest sheets: every limit is met, 3,624 bytes. So no module has a
    /// chain, where mode 0 lists but one switch.
    pub fn fullest() -> Shape {
        Shape {
            horizon: (2000, 2000),
            modules: (8, 8),
            modes: (8, 8),
            tasks: (4, 4),
            switches: (2, 2),
            periods: vec![240, 360, 480, 720, 840, 960, 1000, 1008, 1024],
            shortest_task_period: 120,
            let_percent: 50,
            cost_divisor: 9,
            chain_percent: 0,
            chain: (7, 7),
            chain_periods: vec![240, 360, 480, 720, 840, 960, 1000, 1008, 1024],
            unreached_percent: 12,
        }
    }

    /// A switch period that only SX may have is at least this.
    fn shortest_sx_period(&self) -> u16 {
        (self.shortest_task_period / 2).max(1)
    }
}

/// A well-formed sheet of this shape.
pub fn sheet(rng: &mut Rng, shape: &Shape) -> Sheet {
    let horizon = rng.between(shape.horizon.0, shape.horizon.1) as u16;
    let mut sheet = Sheet { horizon, modules: Vec::new() };
    for _ in 0..rng.between(shape.modules.0, shape.modules.1) {
        let Counts { tasks, switches, .. } = sheet.counts();
        let mut left = (MOST_TASKS - tasks, MOST_SWITCHES - switches);
        let plan = Plan::draw(rng, shape);
        let modes = (0..plan.order.len()).map(|own| mode(rng, shape, &plan, own, &mut left));
        let module = Module { modes: modes.collect() };
        sheet.modules.push(module);
    }
    sheet
}

/// Where the switches of a module may lead.
struct Plan {
    /// The modes in an order that begins with mode 0.
    order: Vec<usize>,
    /// So many from the front list none but each other; the rest is kept out.
    inside: usize,
    ways: Ways,
}

/// How the modes inside list each other.
#[derive(Clone, Copy, PartialEq, Eq)]
enum Ways {
    /// Any one any other.
    Any,
    /// Each the next.
    Chain,
    /// Each the next, and perhaps earlier ones.
    ChainAndBack,
}

impl Plan {
    /// A plan for a module of this shape.
    fn draw(rng: &mut Rng, shape: &Shape) -> Plan {
        if rng.chance(shape.chain_percent) {
            return Plan::chain(rng, shape);
        }
        let modes = rng.between(shape.modes.0, shape.modes.1);
        let mut inside = modes;
        if modes > 1 && rng.chance(shape.unreached_percent) {
            // Enough inside for the least number of switches, where that leaves one out.
            inside = rng.between((shape.switches.0 + 1).min(modes - 1), modes - 1);
        }
        Plan { order: order(rng, modes), inside, ways: Ways::Any }
    }

    /// A plan for a chain, with or without modes that are kept out of it.
    fn chain(rng: &mut Rng, shape: &Shape) -> Plan {
        let inside = rng.between(shape.chain.0, shape.chain.1) + 1;
        let outside = rng.between(0, 2.min(MOST_MODES - inside));
        let modes = (inside + outside).max(shape.modes.0);
        let ways = *rng.pick(&[Ways::Chain, Ways::Chain, Ways::ChainAndBack]);
        Plan { order: order(rng, modes), inside, ways }
    }

    /// A mode's place in the order.
    fn place(&self, mode: usize) -> usize {
        self.order.iter().position(|&other| other == mode).expect("every mode has a place")
    }

    /// Targets for a mode's switches, so many where there are enough of them and
    /// the sheet may still have as many. The next mode of a chain is always one.
    fn targets(&self, rng: &mut Rng, own: usize, wanted: usize, left: usize) -> Vec<usize> {
        let place = self.place(own);
        let inside = &self.order[..self.inside];
        let (next, others) = match (place < self.inside, self.ways) {
            (false, _) => (None, &self.order[..]),
            (true, Ways::Any) => (None, inside),
            (true, Ways::Chain) => (inside.get(place + 1), &[][..]),
            (true, Ways::ChainAndBack) => (inside.get(place + 1), &inside[..place]),
        };
        let mut others: Vec<usize> = others.iter().copied().filter(|&mode| mode != own).collect();
        shuffle(rng, &mut others);
        let mut targets: Vec<usize> = next.copied().into_iter().chain(others).collect();
        targets.truncate(wanted.max(usize::from(next.is_some())).min(left));
        shuffle(rng, &mut targets);
        targets
    }

    /// Whether to make a mode heavy: half of those kept out, where the work must
    /// not count, and some ends of chains, where it must, however far they are.
    fn heavy(&self, rng: &mut Rng, own: usize) -> bool {
        let place = self.place(own);
        let ends_chain = self.ways != Ways::Any && place + 1 == self.inside;
        place >= self.inside && rng.chance(50) || ends_chain && rng.chance(25)
    }
}

/// An order of so many modes that begins with mode 0: the numbers ascend, or
/// descend from the second on, or come as they may.
fn order(rng: &mut Rng, modes: usize) -> Vec<usize> {
    let mut order: Vec<usize> = (0..modes).collect();
    match rng.below(4) {
        0 => {}
        1 => order[1..].reverse(),
        _ => shuffle(rng, &mut order[1..]),
    }
    order
}

/// Puts the items in any order.
fn shuffle(rng: &mut Rng, items: &mut [usize]) {
    for place in 1..items.len() {
        items.swap(place, rng.between(0, place));
    }
}

/// A mode of a module with this plan. `left` is how many tasks and switches the
/// sheet may still have.
fn mode(rng: &mut Rng, shape: &Shape, plan: &Plan, own: usize, left: &mut (usize, usize)) -> Mode {
    let periods = if plan.ways == Ways::Any { &shape.periods } else { &shape.chain_periods };
    let period = *rng.pick(periods);
    let wanted = rng.between(shape.switches.0, shape.switches.1);
    let targets = plan.targets(rng, own, wanted, left.1);
    let heavy = plan.heavy(rng, own);
    let idle = !targets.is_empty() && rng.chance(IDLE_PERCENT);
    let least = if heavy { 2 } else { usize::from(idle) };
    let count = rng.between(shape.tasks.0, shape.tasks.1).max(least).min(left.0);
    *left = (left.0 - count, left.1 - targets.len());
    let room = match targets.is_empty() {
        true => Room { period, grain: period },
        false => Room::between_switches(rng, shape, period, idle),
    };
    let tasks = match heavy {
        true => heavy_tasks(rng, shape, &room, count),
        false => (0..count).map(|_| task(rng, shape, &room)).collect(),
    };
    let sx_percent = if idle { *rng.pick(&[100, 50]) } else { *rng.pick(&[0, 0, 0, 50]) };
    let mut mode = Mode { period, tasks, switches: Vec::new() };
    let periods = SwitchPeriods::of(shape, &mode);
    let switch = |target| periods.switch(rng, target as u16, sx_percent);
    mode.switches = targets.into_iter().map(switch).collect();
    mode
}

/// The switch periods to choose from in a mode.
struct SwitchPeriods {
    /// Those that SW may have; SX may have them too.
    sw: Vec<u16>,
    /// Those that only SX may have.
    sx_alone: Vec<u16>,
}

impl SwitchPeriods {
    /// Those for a mode, by its period and its tasks. SX may have one if every
    /// instance ends in the slot it begins in.
    fn of(shape: &Shape, mode: &Mode) -> SwitchPeriods {
        let in_one_slot = |grain: u16, task: &Task| {
            let slot = common_divisor(grain, task.period);
            task.offset % slot + task.let_ticks <= slot
        };
        let for_sw = |grain: &u16| mode.task_periods_divide(*grain);
        let for_sx = |grain: &u16| mode.tasks.iter().all(|task| in_one_slot(*grain, task));
        let mut sw = divisors(mode.period, shape.shortest_task_period);
        sw.retain(for_sw);
        let mut sx_alone = divisors(mode.period, shape.shortest_sx_period());
        sx_alone.retain(|grain| !for_sw(grain) && for_sx(grain));
        SwitchPeriods { sw, sx_alone }
    }

    /// A switch to this mode, SX in so many percent, and then with a period that
    /// no SW may have, mostly, where there is one.
    fn switch(&self, rng: &mut Rng, target: u16, sx_percent: usize) -> Switch {
        let kind = if rng.chance(sx_percent) { Kind::Sx } else { Kind::Sw };
        let alone = kind == Kind::Sx && !self.sx_alone.is_empty() && rng.chance(75);
        let period = *rng.pick(if alone { &self.sx_alone } else { &self.sw });
        Switch { kind, target, period }
    }
}

/// Where tasks have room: their periods divide `period`, and no multiple of
/// `grain` falls within an instance.
struct Room {
    period: u16,
    grain: u16,
}

impl Room {
    /// Room in a mode with this period and with switches: for SW the task periods
    /// divide the grain as well; with `idle` they need not.
    fn between_switches(rng: &mut Rng, shape: &Shape, period: u16, idle: bool) -> Room {
        if idle {
            let mut grains = divisors(period, shape.shortest_sx_period());
            // With the period itself SX would allow no more than SW.
            grains.truncate((grains.len() - 1).max(1));
            return Room { period, grain: *rng.pick(&grains) };
        }
        let grain = *rng.pick(&divisors(period, shape.shortest_task_period));
        Room { period: grain, grain }
    }

    /// A task period: mostly one that does not divide the grain, where there is one.
    fn task_period(&self, rng: &mut Rng, shape: &Shape) -> u16 {
        let all = divisors(self.period, shape.shortest_task_period);
        let (dividing, others): (Vec<u16>, Vec<u16>) =
            all.into_iter().partition(|&period| self.grain.is_multiple_of(period));
        let other = dividing.is_empty() || !others.is_empty() && rng.chance(75);
        *rng.pick(if other { &others } else { &dividing })
    }
}

/// So many times the same task at full cost: with two, the demand for a length
/// of its LET is twice that length.
fn heavy_tasks(rng: &mut Rng, shape: &Shape, room: &Room, count: usize) -> Vec<Task> {
    let one = task(rng, shape, room);
    vec![Task { cost: one.let_ticks, ..one }; count]
}

/// A task in this room. Counted from the start of its task period, each multiple
/// of the grain falls on one of the common divisor of the two, and on each of
/// these a multiple falls in some task period. So that divisor parts the task
/// period into slots, and every instance stays in one, often up to its borders.
fn task(rng: &mut Rng, shape: &Shape, room: &Room) -> Task {
    let period = room.task_period(rng, shape);
    let slot = usize::from(common_divisor(room.grain, period));
    let let_ticks = rng.between((slot * shape.let_percent).div_ceil(100).max(1), slot);
    let any = rng.between(0, slot - let_ticks);
    let after_border = *rng.pick(&[0, slot - let_ticks, any, any]);
    let offset = slot * rng.below(usize::from(period) / slot) + after_border;
    let cost = rng.between(1, (let_ticks / shape.cost_divisor).max(1));
    let [offset, cost, let_ticks] = [offset, cost, let_ticks].map(|v| v as u16);
    Task { offset, cost, let_ticks, period }
}

/// The divisors of a number from `least` on, or the number alone if it is less;
/// ascending.
fn divisors(number: u16, least: u16) -> Vec<u16> {
    (least.min(number)..=number).filter(|&d| number.is_multiple_of(d)).collect()
}

/// The greatest common divisor.
fn common_divisor(a: u16, b: u16) -> u16 {
    let (mut x, mut y) = (a, b);
    while y != 0 {
        (x, y) = (y, x % y);
    }
    x
}

/// The ways to damage a sheet.
#[derive(Clone, Copy, Debug, PartialEq, Eq)]
pub enum Damage {
    /// Cut at any byte.
    Truncate,
    /// Any byte changed.
    ChangeByte,
    /// A field pushed to the edge of its range or out of it.
    PushField,
    /// A record left out.
    RemoveRecord,
    /// A record put twice.
    DoubleRecord,
    /// Two records that change places.
    SwapRecords,
    /// Two records' marks that change places, the other bytes staying.
    ExchangeMarks,
    /// A mark put in place of another, the other bytes staying.
    ReplaceMark,
    /// One to sixteen bytes after EN, or a whole record.
    Append,
    /// SX's mark put in place of SW's, or SW's in place of SX's.
    OtherKind,
    /// A TK put behind an SW or SX.
    TaskAfterSwitch,
    /// Nine modules.
    NinthModule,
    /// A mode with 17 tasks.
    SeventeenthTask,
    /// A sheet with 257 tasks, none of its modes with more than 16.
    Task257,
    /// A sheet with 129 switches, of both kinds.
    Switch129,
    /// A mode with an SX of which a multiple is at a release or a due tick, which
    /// is no damage, or a tick within.
    IdleBorder,
    /// A mode with two switches to the same target, one of them SX at least.
    TargetTwice,
    /// A module's number of modes that is not the number that follows.
    ModeCount,
    /// Two to four of the others, one after the other.
    Several,
}

impl Damage {
    /// All ways: first those that any bytes can be damaged in, last of all the one
    /// that is made up of others.
    pub const ALL: [Damage; 19] = [
        Damage::Truncate,
        Damage::ChangeByte,
        Damage::PushField,
        Damage::RemoveRecord,
        Damage::DoubleRecord,
        Damage::SwapRecords,
        Damage::ExchangeMarks,
        Damage::ReplaceMark,
        Damage::Append,
        Damage::OtherKind,
        Damage::TaskAfterSwitch,
        Damage::NinthModule,
        Damage::SeventeenthTask,
        Damage::Task257,
        Damage::Switch129,
        Damage::IdleBorder,
        Damage::TargetTwice,
        Damage::ModeCount,
        Damage::Several,
    ];

    /// How many from the front of `ALL` any bytes can be damaged in.
    const ON_ANY_BYTES: usize = 11;
}

/// The bytes of a sheet, damaged in this way. Most are refused, but not all: a
/// byte may be changed to another good value, say.
pub fn damaged(rng: &mut Rng, sheet: &Sheet, damage: Damage) -> Vec<u8> {
    match damage {
        Damage::NinthModule => encode(&ninth_module(rng, sheet)),
        Damage::SeventeenthTask => encode(&seventeenth_task(rng, sheet)),
        Damage::Task257 => encode(&task_257(sheet)),
        Damage::Switch129 => encode(&switch_129(rng, sheet)),
        Damage::IdleBorder => encode(&idle_border(rng, sheet)),
        Damage::TargetTwice => encode(&target_twice(rng, sheet)),
        Damage::Several => several(rng, sheet),
        bytewise => damage_bytes(rng, &encode(sheet), bytewise),
    }
}

/// Several damages, the first of any kind, the rest on the bytes it leaves.
fn several(rng: &mut Rng, sheet: &Sheet) -> Vec<u8> {
    let first = *rng.pick(&Damage::ALL[..Damage::ALL.len() - 1]);
    let mut bytes = damaged(rng, sheet, first);
    for _ in 0..rng.between(1, 3) {
        let next = *rng.pick(&Damage::ALL[..Damage::ON_ANY_BYTES]);
        bytes = damage_bytes(rng, &bytes, next);
    }
    bytes
}

/// The bytes, split into records where they can be; what cannot is one last
/// piece.
pub fn split(bytes: &[u8]) -> Vec<Vec<u8>> {
    let mut pieces = Vec::new();
    let mut rest = bytes;
    while !rest.is_empty() {
        let len = read_record(rest).map_or(rest.len(), |record| record.mark.record_len());
        pieces.push(rest[..len].to_vec());
        rest = &rest[len..];
    }
    pieces
}

/// Damages bytes that need not be a good sheet any more.
fn damage_bytes(rng: &mut Rng, bytes: &[u8], damage: Damage) -> Vec<u8> {
    let mut pieces = split(bytes);
    if pieces.is_empty() {
        return vec![rng.bits() as u8];
    }
    let (one, two) = (rng.below(pieces.len()), rng.below(pieces.len()));
    match damage {
        Damage::Truncate => return bytes[..rng.below(bytes.len())].to_vec(),
        Damage::ChangeByte => return change_byte(rng, bytes),
        Damage::PushField => push_field(rng, &mut pieces[one]),
        Damage::RemoveRecord => drop(pieces.remove(one)),
        Damage::DoubleRecord => pieces.insert(one, pieces[one].clone()),
        Damage::SwapRecords => pieces.swap(one, two),
        Damage::ExchangeMarks => exchange_marks(&mut pieces, one, two),
        Damage::ReplaceMark => put_mark(&mut pieces[one], rng.pick(&Mark::ALL).bytes()),
        Damage::OtherKind => other_kind(rng, &mut pieces),
        Damage::TaskAfterSwitch => task_after_switch(rng, &mut pieces),
        Damage::ModeCount => wrong_mode_count(rng, &mut pieces),
        _ => pieces.push(appended(rng)),
    }
    pieces.concat()
}

/// Changes one byte to another value, often to a near one.
fn change_byte(rng: &mut Rng, bytes: &[u8]) -> Vec<u8> {
    let mut changed = bytes.to_vec();
    let place = rng.below(bytes.len());
    let any = rng.between(1, 255) as u8;
    let by = *rng.pick(&[1, 255, 128, any]);
    changed[place] = changed[place].wrapping_add(by);
    changed
}

/// Sets one field of a record to a value at or past an edge of some range.
fn push_field(rng: &mut Rng, piece: &mut [u8]) {
    let fields = (piece.len() / 2).saturating_sub(1);
    if fields == 0 {
        return;
    }
    let at = 2 + 2 * rng.below(fields);
    let old = u16::from_le_bytes([piece[at], piece[at + 1]]);
    let near = [old.wrapping_add(1), old.wrapping_sub(1), old.wrapping_mul(2), old / 2];
    let edges = [0, 1, 7, 8, 9, 1024, 1025, 2000, 2001, 32_768, 65_535];
    let new = if rng.chance(50) { *rng.pick(&near) } else { *rng.pick(&edges) };
    piece[at..at + 2].copy_from_slice(&new.to_le_bytes());
}

/// Puts a mark over a piece's first two bytes, if it has two.
fn put_mark(piece: &mut [u8], mark: [u8; 2]) {
    if let Some(front) = piece.get_mut(..2) {
        front.copy_from_slice(&mark);
    }
}

/// Exchanges two pieces' marks.
fn exchange_marks(pieces: &mut [Vec<u8>], one: usize, two: usize) {
    if let (&[a, b, ..], &[c, d, ..]) = (&pieces[one][..], &pieces[two][..]) {
        put_mark(&mut pieces[one], [c, d]);
        put_mark(&mut pieces[two], [a, b]);
    }
}

/// Where some SW or SX stands among the pieces, if there is one.
fn some_switch(rng: &mut Rng, pieces: &[Vec<u8>]) -> Option<usize> {
    let is_switch = |at: &usize| pieces[*at].starts_with(b"SW") || pieces[*at].starts_with(b"SX");
    let places: Vec<usize> = (0..pieces.len()).filter(is_switch).collect();
    (!places.is_empty()).then(|| *rng.pick(&places))
}

/// Makes an SX of some SW, or an SW of some SX.
fn other_kind(rng: &mut Rng, pieces: &mut [Vec<u8>]) {
    if let Some(at) = some_switch(rng, pieces) {
        let other = if pieces[at][1] == b'W' { Mark::Sx } else { Mark::Sw };
        put_mark(&mut pieces[at], other.bytes());
    }
}

/// Puts a TK with good values, or one that stands elsewhere, behind some switch.
fn task_after_switch(rng: &mut Rng, pieces: &mut Vec<Vec<u8>>) {
    if let Some(at) = some_switch(rng, pieces) {
        let elsewhere = pieces.iter().find(|piece| piece.starts_with(b"TK")).cloned();
        let least = b"TK\0\0\x01\0\x01\0\x01\0".to_vec();
        let task = elsewhere.filter(|_| rng.chance(50)).unwrap_or(least);
        pieces.insert(at + 1, task);
    }
}

/// Changes the number of modes some ML states.
fn wrong_mode_count(rng: &mut Rng, pieces: &mut [Vec<u8>]) {
    let opens = |piece: &&mut Vec<u8>| piece.starts_with(b"ML") && piece.len() == 4;
    let mut openings: Vec<&mut Vec<u8>> = pieces.iter_mut().filter(opens).collect();
    if openings.is_empty() {
        return;
    }
    let index = rng.below(openings.len());
    let by = *rng.pick(&[1, 2, 255, 254]);
    openings[index][2] = openings[index][2].wrapping_add(by);
}

/// Bytes to put at the end: a record of some kind, or any bytes.
fn appended(rng: &mut Rng) -> Vec<u8> {
    let len = rng.between(1, 16);
    let mut bytes: Vec<u8> = (0..len).map(|_| rng.bits() as u8).collect();
    if rng.chance(40) {
        put_mark(&mut bytes, rng.pick(&Mark::ALL).bytes());
    }
    bytes
}

/// Records with any marks in any order, most fields being small. HZ opens, so
/// that more than the first record is judged.
pub fn any_records(rng: &mut Rng, count: usize) -> Vec<u8> {
    let mut bytes = b"HZ\x08\0".to_vec();
    for before in 1..=count {
        let mark = *rng.pick(&Mark::ALL);
        bytes.extend(mark.bytes());
        for _ in 0..mark.fields() {
            let small = *rng.pick(&[0, 1, 1, 1, 2, 2, 4, 8]);
            let field = if mark == Mark::En && rng.chance(80) { before as u16 } else { small };
            bytes.extend(field.to_le_bytes());
        }
    }
    bytes
}

/// The least task there is; its period divides every period.
const LEAST_TASK: Task = Task { offset: 0, cost: 1, let_ticks: 1, period: 1 };

/// Nine modules or more, by putting the sheet's own again.
fn ninth_module(rng: &mut Rng, sheet: &Sheet) -> Sheet {
    let mut more = sheet.clone();
    let bare = Module { modes: vec![Mode { period: 1, ..Mode::default() }] };
    more.modules.resize(9 + rng.below(2), bare);
    more
}

/// One mode with 17 tasks or more.
fn seventeenth_task(rng: &mut Rng, sheet: &Sheet) -> Sheet {
    let mut more = sheet.clone();
    let modules = more.modules.len();
    let module = &mut more.modules[rng.below(modules)];
    let modes = module.modes.len();
    let tasks = &mut module.modes[rng.below(modes)].tasks;
    tasks.resize(17 + rng.below(2), LEAST_TASK);
    more
}

/// The sheet with eight modules of eight modes: new modes have period 1.
fn filled(sheet: &Sheet) -> Sheet {
    let mut full = sheet.clone();
    full.modules.resize(MOST_MODULES, Module::default());
    for module in &mut full.modules {
        module.modes.resize(MOST_MODES, Mode { period: 1, ..Mode::default() });
    }
    full
}

/// A sheet with 257 tasks, the new ones in the modes from the front.
fn task_257(sheet: &Sheet) -> Sheet {
    let mut full = filled(sheet);
    let mut lacking = (MOST_TASKS + 1).saturating_sub(full.counts().tasks);
    for mode in full.modules.iter_mut().flat_map(|module| &mut module.modes) {
        let more = lacking.min(MOST_TASKS_IN_MODE.saturating_sub(mode.tasks.len()));
        mode.tasks.extend(vec![LEAST_TASK; more]);
        lacking -= more;
    }
    full
}

/// A sheet with 129 switches, the new ones at the ends of the mode periods, where
/// both kinds are allowed.
fn switch_129(rng: &mut Rng, sheet: &Sheet) -> Sheet {
    let mut full = filled(sheet);
    let mut lacking = (MOST_SWITCHES + 1).saturating_sub(full.counts().switches);
    for module in &mut full.modules {
        for (own, mode) in module.modes.iter_mut().enumerate() {
            for target in (0..MOST_MODES as u16).filter(|&t| usize::from(t) != own) {
                let named = mode.switches.iter().any(|s| s.target == target);
                if lacking > 0 && !named {
                    let kind = *rng.pick(&[Kind::Sw, Kind::Sx]);
                    mode.switches.push(Switch { kind, target, period: mode.period });
                    lacking -= 1;
                }
            }
        }
    }
    full
}

/// Some mode of the sheet, and the number of another mode of its module, which is
/// given one if it has no other.
fn some_mode<'a>(rng: &mut Rng, sheet: &'a mut Sheet) -> (&'a mut Mode, u16) {
    let modules = sheet.modules.len();
    let modes = &mut sheet.modules[rng.below(modules)].modes;
    if modes.len() == 1 {
        modes.push(Mode { period: 1, ..Mode::default() });
    }
    let own = rng.below(modes.len());
    let other = (own + rng.between(1, modes.len() - 1)) % modes.len();
    (&mut modes[own], other as u16)
}

/// The sheet with a mode in place of another whose SX is at a border of its rule.
fn idle_border(rng: &mut Rng, sheet: &Sheet) -> Sheet {
    let mut near = sheet.clone();
    let (mode, target) = some_mode(rng, &mut near);
    let period = *rng.pick(&[2, 3, 4, 6, 8, 12, 24, 60, 360, 1000]);
    let grains = divisors(period, 1);
    let grain = *rng.pick(&grains[..grains.len() - 1]);
    let mut tasks = vec![border_task(rng, period, grain)];
    if rng.chance(40) {
        // An instance of one tick has nothing strictly within, wherever it is.
        tasks.insert(rng.below(2), LEAST_TASK);
    }
    *mode =
        Mode { period, tasks, switches: vec![Switch { kind: Kind::Sx, target, period: grain }] };
    near
}

/// A task for a mode with this mode period and an SX with this switch period. In
/// some task period a multiple of the switch period is at its release, at its due
/// tick, one tick after its release or one before its due tick; or it is due at
/// the end of the task period. No other multiple falls within an instance.
fn border_task(rng: &mut Rng, mode_period: u16, grain: u16) -> Task {
    let mut periods = divisors(mode_period, 1);
    periods.retain(|&period| !grain.is_multiple_of(period));
    let period = *rng.pick(&periods);
    let slot = common_divisor(grain, period);
    let border = slot * rng.between(1, usize::from(period / slot) - 1) as u16;
    let ticks = rng.between(1, usize::from(slot)) as u16;
    let (release, due) = match rng.below(5) {
        0 => (border, border + ticks),
        1 => (border - ticks, border),
        2 => (border - 1, border + ticks),
        3 => (border - ticks, border + 1),
        _ => (period - ticks, period),
    };
    let cost = rng.between(1, usize::from(due - release)) as u16;
    Task { offset: release, cost, let_ticks: due - release, period }
}

/// The sheet with a mode that names a target twice, at the end of the mode period
/// both times: by SX and SW, in either order, or by SX and SX.
fn target_twice(rng: &mut Rng, sheet: &Sheet) -> Sheet {
    let mut twice = sheet.clone();
    let (mode, target) = some_mode(rng, &mut twice);
    mode.switches.retain(|switch| switch.target != target);
    for kind in *rng.pick(&[[Kind::Sw, Kind::Sx], [Kind::Sx, Kind::Sw], [Kind::Sx, Kind::Sx]]) {
        let at = rng.between(0, mode.switches.len());
        mode.switches.insert(at, Switch { kind, target, period: mode.period });
    }
    twice
}
