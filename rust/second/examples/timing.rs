//! Times the table way on made-up sheets, and on the hardest known ones.
//!
//! `cargo run --release --example timing [count]`

use second::generate::{sheet, Rng, Shape};
use second::{encode, judge, table, Exact, Kind, Mode, Module, Quick, Sheet, Switch, Task};
use std::time::{Duration, Instant};

/// The time of one call, and its answer.
fn timed<T>(call: impl FnOnce() -> T) -> (Duration, T) {
    let start = Instant::now();
    let answer = call();
    (start.elapsed(), answer)
}

/// A few words on an answer.
fn word(exact: &Exact) -> String {
    match exact {
        Exact::Clear => "clear".into(),
        Exact::Over { a, b, demand, .. } => format!("over {a} {b} demand {demand}"),
    }
}

/// Times so many sheets of a shape: the median and the longest.
fn time_shape(name: &str, shape: &Shape, count: usize) {
    let mut rng = Rng::new(77);
    let mut quick_times = Vec::new();
    let mut exact_times = Vec::new();
    let (mut quick_clear, mut exact_clear, mut late) = (0, 0, 0);
    for _ in 0..count {
        let made = sheet(&mut rng, shape);
        let (time, quick) = timed(|| table::quick(&made));
        quick_times.push(time);
        quick_clear += usize::from(quick == Quick::Clear);
        let (time, exact) = timed(|| table::exact(&made));
        exact_times.push(time);
        exact_clear += usize::from(exact == Exact::Clear);
        late += usize::from(matches!(exact, Exact::Over { b, .. } if b > 500));
    }
    quick_times.sort();
    exact_times.sort();
    println!(
        "{name}: {count} sheets, quick clear {quick_clear}, exact clear {exact_clear}, over after \
         500 {late}; quick median {:?} longest {:?}; exact median {:?} longest {:?}",
        quick_times[count / 2],
        quick_times[count - 1],
        exact_times[count / 2],
        exact_times[count - 1]
    );
}

/// Eight modules whose reached states are many and whose sets of them seldom
/// repeat. Mode 0 lasts 512 ticks; modes 1 and 2, of periods `one` and `two`,
/// lead to each other and on; the other five, of period 1,024, have a release
/// every `grain` ticks. No interval that ends by tick 512 is over, so the whole
/// horizon has to be worked up.
fn hard(one: u16, two: u16, grain: u16) -> Sheet {
    let task = Task { offset: 0, cost: 1, let_ticks: 1, period: grain };
    let switch = |period| move |target| Switch { kind: Kind::Sw, target, period };
    let long = |_| Mode { period: 1024, tasks: vec![task], switches: vec![switch(1024)(1)] };
    let mut modes = vec![
        Mode { period: 512, tasks: vec![], switches: vec![switch(512)(1)] },
        Mode { period: one, tasks: vec![], switches: (2..8).map(switch(one)).collect() },
        Mode { period: two, tasks: vec![], switches: [1, 3, 4, 5].map(switch(two)).to_vec() },
    ];
    modes.extend((3..8).map(long));
    Sheet { horizon: 2000, modules: vec![Module { modes }; 8] }
}

fn main() {
    let count = std::env::args().nth(1).and_then(|n| n.parse().ok()).unwrap_or(50);
    time_shape("realistic", &Shape::realistic(), count);
    time_shape("realistic, light", &Shape { cost_divisor: 15, ..Shape::realistic() }, count);
    time_shape("wide", &Shape::wide(), count);
    time_shape("fullest", &Shape::fullest(), count);
    time_shape("fullest, light", &Shape { cost_divisor: 60, ..Shape::fullest() }, count);
    for (one, two) in [(1, 1), (3, 5), (31, 32), (40, 41), (64, 63)] {
        for grain in [1, 8] {
            let made = hard(one, two, grain);
            assert_eq!(judge(&encode(&made)).as_ref(), Ok(&made));
            let (quick_time, _) = timed(|| table::quick(&made));
            let (exact_time, exact) = timed(|| table::exact(&made));
            let answer = word(&exact);
            println!(
                "hard {one} {two} {grain}: quick {quick_time:?}, exact {exact_time:?} {answer}"
            );
        }
    }
}
