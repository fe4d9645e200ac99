//! The reference in place of the verdict program.

use reference::{on_large_stack, verdict};
use std::io::{self, Read, Write};

fn main() -> io::Result<()> {
    let mut input = Vec::new();
    io::stdin().read_to_end(&mut input)?;
    let line = on_large_stack(|| verdict::outcome(&input).to_string());
    io::stdout().write_all(line.as_bytes())
}
