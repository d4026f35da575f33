//! The sheet program: reads a sheet from standard input, prints the report.

use std::io::{Read, Write};

fn main() -> std::io::Result<()> {
    let mut input = Vec::new();
    std::io::stdin().take(second::MOST_INPUT as u64).read_to_end(&mut input)?;
    std::io::stdout().write_all(&second::report(&input))
}
