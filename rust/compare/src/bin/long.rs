//! Compares so many small sheets, and then so many large or damaged ones:
//!
//! `cargo run --release --bin long -- SMALL LARGE SEED`
//!
//! Sheet n of each is made from the seed SEED + n. At a difference the program shows it and ends
//! with 1. How far it is goes to standard error, so that a run that is cut off tells that too.

use compare::comparison::{Alike, Comparison};
use std::process::ExitCode;
use std::time::Instant;

fn main() -> ExitCode {
    let numbers: Vec<u64> = std::env::args().skip(1).map_while(|n| n.parse().ok()).collect();
    let [small, large, seed] = numbers[..] else {
        eprintln!("wanted: SMALL LARGE SEED, three numbers");
        return ExitCode::from(2);
    };
    let mut comparison = Comparison::default();
    let compared = every("small", small, seed, |seed| comparison.small(seed))
        .and_then(|()| every("large or damaged", large, seed, |seed| comparison.large(seed)));
    print!("{}", comparison.tally);
    match compared {
        Ok(()) => {
            println!("{small} small sheets, {large} large or damaged ones: no difference");
            ExitCode::SUCCESS
        }
        Err(difference) => {
            println!("{difference}");
            ExitCode::FAILURE
        }
    }
}

/// Compares so many sheets, up to the first difference.
fn every(name: &str, count: u64, seed: u64, mut compare: impl FnMut(u64) -> Alike) -> Alike {
    let begun = Instant::now();
    for n in 0..count {
        compare(seed.wrapping_add(n))?;
        if (n + 1) % count.div_ceil(20) == 0 || n + 1 == count {
            eprintln!("{} of {count} {name}, {} s", n + 1, begun.elapsed().as_secs());
        }
    }
    Ok(())
}
