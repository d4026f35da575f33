//! The made-up sheets of every shape: modes that are not reached, chains and SX
//! are among them, and the fullest stay full.

mod kinds;

use kinds::Kinds;
use second::encode;
use second::generate::{sheet, Rng, Shape};
use second::sheet::LONGEST_SHEET;

/// The kinds of modules and switches among 1,000 sheets of a shape.
fn kinds(name: &str, shape: &Shape) -> Kinds {
    let mut rng = Rng::new(30);
    let mut kinds = Kinds::default();
    (0..1000).for_each(|_| kinds.note(&sheet(&mut rng, shape)));
    println!("{name}: {} percent unreached, {kinds:?}", 100 * kinds.unreached / kinds.several);
    kinds
}

/// A third or more of the modules with several modes have one that is not
/// reached, and as many have none; chains of every length come.
#[test]
fn unreached_modes_and_chains() {
    for (name, shape) in Shape::all() {
        let longest_chain = match name {
            "realistic" => 3,
            "fullest" => 0,
            _ => 7,
        };
        let kinds = kinds(name, &shape);
        assert!(kinds.all_at_least(10, longest_chain), "{name}");
        let share = 100 * kinds.unreached / kinds.several;
        assert!((33..=67).contains(&share), "{name}");
    }
}

/// SX comes in half of the sheets of every shape at least, one that could not be
/// an SW in a fifth, with multiples at releases and at due ticks; and modes have
/// either kind or both.
#[test]
fn idle_switches() {
    for (name, shape) in Shape::all() {
        let switches = kinds(name, &shape).switches;
        assert!(switches.sx >= 500 && switches.sx_alone >= 200, "{name}");
        assert!(switches.at_release >= 50 && switches.at_due >= 100, "{name}");
        assert!(switches.sw_mode >= 300 && switches.sx_mode >= 300, "{name}");
        assert!(switches.mixed_mode >= 80, "{name}");
    }
}

/// Every large shape can be all chains.
#[test]
fn chains_of_any_shape() {
    for shape in [Shape::realistic(), Shape::wide(), Shape::wide_light(), Shape::fullest()] {
        let shape = Shape { chain_percent: 100, chain: (1, 7), ..shape };
        let kinds = kinds("chains", &shape);
        assert!(kinds.all_at_least(10, 7) && kinds.all_walked(10));
    }
}

/// Modes kept out take nothing from the limits the fullest sheets meet.
#[test]
fn fullest_sheets_are_longest() {
    let mut rng = Rng::new(31);
    for _ in 0..200 {
        assert_eq!(encode(&sheet(&mut rng, &Shape::fullest())).len(), LONGEST_SHEET);
    }
}
