//! The judge: round trips, and damaged sheets against the second judge.

use second::generate::{any_records, damaged, sheet, split, Damage, Rng, Shape};
use second::sheet::LONGEST_SHEET;
use second::{brute, encode, judge, report, Refusal, Sheet};

/// Both judges agree; gives the refusal number, 0 for none. A sheet that
/// passes is written back as the same bytes.
fn number(bytes: &[u8]) -> usize {
    let judged = judge(bytes);
    assert_eq!(judged.as_ref().err().copied(), brute::refusal(bytes), "{bytes:?}");
    match judged {
        Ok(good) => {
            assert_eq!(encode(&good), bytes);
            0
        }
        Err(refusal) => usize::from(refusal.number),
    }
}

#[test]
fn round_trips() {
    let mut rng = Rng::new(10);
    for (_, shape) in Shape::all() {
        for _ in 0..400 {
            let made = sheet(&mut rng, &shape);
            let bytes = encode(&made);
            assert_eq!(judge(&bytes), Ok(made));
            assert_eq!(number(&bytes), 0);
        }
    }
}

#[test]
fn longest_sheet() {
    let made = sheet(&mut Rng::new(11), &Shape::fullest());
    let counts = made.counts();
    assert_eq!((counts.modules, counts.modes), (8, 64));
    assert_eq!((counts.tasks, counts.switches), (256, 128));
    assert_eq!(encode(&made).len(), LONGEST_SHEET);
}

/// Every cut of a sheet is 1, at the first byte of the record cut.
#[test]
fn every_cut() {
    let mut rng = Rng::new(12);
    for (_, shape) in Shape::all() {
        let bytes = encode(&sheet(&mut rng, &shape));
        let mut place = 0;
        for record in split(&bytes) {
            for cut in place..place + record.len() {
                let wanted = Refusal { number: 1, place };
                assert_eq!(judge(&bytes[..cut]), Err(wanted));
                assert_eq!(brute::refusal(&bytes[..cut]), Some(wanted));
            }
            place += record.len();
        }
    }
}

/// Every byte of a few sheets, changed to every value.
#[test]
fn every_byte() {
    let mut rng = Rng::new(13);
    let mut numbers = [0; 9];
    for shape in [Shape::small(), Shape::small_light(), Shape::medium()] {
        for _ in 0..5 {
            let bytes = encode(&sheet(&mut rng, &shape));
            for place in 0..bytes.len() {
                for value in 0..=255 {
                    let mut changed = bytes.clone();
                    changed[place] = value;
                    numbers[number(&changed)] += 1;
                }
            }
        }
    }
    println!("{numbers:?}");
}

/// Many damaged sheets of every kind; every refusal number comes.
#[test]
fn damage() {
    let mut rng = Rng::new(14);
    let mut all = [0; 9];
    for kind in Damage::ALL {
        let mut numbers = [0; 9];
        for _ in 0..300 {
            for (_, shape) in Shape::all() {
                let made = sheet(&mut rng, &shape);
                numbers[number(&damaged(&mut rng, &made, kind))] += 1;
            }
        }
        println!("{kind:?}: {numbers:?}");
        (0..9).for_each(|n| all[n] += numbers[n]);
    }
    assert!(all.into_iter().all(|count| count > 100), "{all:?}");
}

/// Records in any order.
#[test]
fn records_in_any_order() {
    let mut rng = Rng::new(18);
    let mut numbers = [0; 9];
    for _ in 0..300_000 {
        let count = rng.between(0, 9);
        numbers[number(&any_records(&mut rng, count))] += 1;
    }
    println!("{numbers:?}");
    assert!([0, 1, 3, 5, 6, 7, 8].into_iter().all(|n| numbers[n] > 10), "{numbers:?}");
}

/// The damages that exceed a limit are refused by 4, if nothing comes before.
#[test]
fn limits_exceeded() {
    let mut rng = Rng::new(15);
    let kinds = [Damage::NinthModule, Damage::SeventeenthTask, Damage::Task257, Damage::Switch129];
    for kind in kinds {
        for _ in 0..200 {
            let made = sheet(&mut rng, &Shape::small());
            assert_eq!(number(&damaged(&mut rng, &made, kind)), 4, "{kind:?}");
        }
    }
}

/// The damages to do with SX: each comes to its refusal, or to 4 in a sheet that is
/// full; those that may leave a sheet good do so often, the others never. Sheets
/// without a switch are left out where the damage needs one.
#[test]
fn damage_of_idle_switches() {
    let mut rng = Rng::new(19);
    for (kind, wanted, at, behind, may_pass) in [
        (Damage::IdleBorder, 6, "SX", "TK", true),
        (Damage::OtherKind, 6, "SW", "TK", true),
        (Damage::TaskAfterSwitch, 3, "TK", "SX", false),
        (Damage::Switch129, 4, "SX", "SX", false),
        (Damage::Switch129, 4, "SX", "SW", false),
        (Damage::TargetTwice, 6, "SX", "SW", false),
        (Damage::TargetTwice, 6, "SW", "SX", false),
    ] {
        let needs_switch = matches!(kind, Damage::OtherKind | Damage::TaskAfterSwitch);
        let (mut passed, mut refused) = (0, 0);
        for _ in 0..200 {
            for (_, shape) in Shape::all() {
                let made = sheet(&mut rng, &shape);
                if needs_switch && made.counts().switches == 0 {
                    continue;
                }
                let bytes = damaged(&mut rng, &made, kind);
                let number = number(&bytes);
                let may_come = number == wanted || number == 4 || (may_pass && number == 0);
                assert!(may_come, "{kind:?}: {number}, {bytes:?}");
                let marks = marks_at_refusal(&bytes);
                passed += usize::from(number == 0);
                refused += usize::from(number == wanted && marks == [behind, at]);
            }
        }
        println!("{kind:?}: {passed} passed, {wanted} at {at} behind {behind} {refused}");
        assert!(refused >= 100 && (!may_pass || passed >= 500), "{kind:?}");
    }
}

/// The marks of the record before the refused one, if there is one, and of the
/// refused one, empty if fewer than two bytes are left; none if the sheet passes.
fn marks_at_refusal(bytes: &[u8]) -> Vec<String> {
    let Err(Refusal { place, .. }) = judge(bytes) else { return Vec::new() };
    let text = |mark: &[u8]| String::from_utf8_lossy(mark).into_owned();
    let mark = |piece: &Vec<u8>| piece.get(..2).map_or(String::new(), text);
    let before = split(&bytes[..place]).last().map(mark);
    before.into_iter().chain([mark(&bytes[place..].to_vec())]).collect()
}

/// The order of refusals within one record.
#[test]
fn precedence() {
    let full = encode(&sheet(&mut Rng::new(16), &Shape::fullest()));
    let body = &full[..full.len() - 4];
    // The 257th TK stands after a switch here, so it is 3 before it is 4.
    assert_eq!(number(&[body, b"TK\0\0\0\0\0\0\0\0"].concat()), 3);
    // The 129th switch breaks its rule as well, yet counts go first.
    assert_eq!(number(&[body, b"SW\0\0\0\0"].concat()), 4);
    assert_eq!(number(&[body, b"SX\0\0\0\0"].concat()), 4);
    // Its fields cut short go before its order and its count.
    assert_eq!(number(&[body, b"SW\0\0\0"].concat()), 1);
    assert_eq!(number(&[body, b"SX\0\0\0"].concat()), 1);
    assert_eq!(number(&[body, b"TK\0\0\0"].concat()), 1);
    // A ninth ML with a bad number is 4; a ninth mode is 3.
    assert_eq!(number(&[body, b"ML\x09\0"].concat()), 4);
    assert_eq!(number(&[body, b"MD\0\0"].concat()), 3);
    // An unknown mark goes before everything but the end.
    assert_eq!(number(&[body, b"XX"].concat()), 2);
    assert_eq!(number(&[body, b"X"].concat()), 1);
    // EN with a wrong number, bytes behind it: 7 first.
    assert_eq!(number(&[body, b"EN\0\0\0"].concat()), 7);
    assert_eq!(number(b"HZ\x01\0EN\x01\0"), 3);
    assert_eq!(number(b"EN\0\0"), 3);
    assert_eq!(number(b"HZ\0\0HZ"), 5);
}

/// The program judges the first 3,625 bytes only.
#[test]
fn program_cuts_its_input() {
    let full = encode(&sheet(&mut Rng::new(17), &Shape::fullest()));
    let body = &full[..full.len() - 4];
    let long = [body, b"TK\0\0\0\0\0\0\0\0"].concat();
    assert_eq!(judge(&long), Err(Refusal { number: 3, place: 3620 }));
    assert_eq!(report(&long), b"refused 1 at 3620\n");
    let followed = [&full[..], &[0; 100]].concat();
    assert_eq!(report(&followed), b"refused 8 at 3624\n");
}

/// The generator gives the same sheets for the same seed.
#[test]
fn same_seed_same_sheets() {
    let make = |seed| -> Vec<Sheet> {
        let mut rng = Rng::new(seed);
        (0..20).map(|_| sheet(&mut rng, &Shape::small())).collect()
    };
    assert_eq!(make(1), make(1));
    assert_ne!(make(1), make(2));
}
