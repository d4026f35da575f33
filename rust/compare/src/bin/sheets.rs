//! Writes the sheets of the benchmark to `bench/sheets`, and says of each what the second
//! implementation answers:
//!
//! `cargo run --release --bin sheets`

use compare::sheets::{all, folder};
use second::{encode, report};
use std::io;

fn main() -> io::Result<()> {
    for (name, sheet) in all() {
        let bytes = encode(&sheet);
        std::fs::write(folder().join(name).with_extension("sheet"), &bytes)?;
        let lines = String::from_utf8_lossy(&report(&bytes)).into_owned();
        println!("{name}, {} bytes", bytes.len());
        lines.lines().take(3).for_each(|line| println!("  {line}"));
    }
    Ok(())
}
