//! The reference in place of the replaying program.

use reference::{on_large_stack, replay};
use std::io::{self, Read, Write};

fn main() -> io::Result<()> {
    let mut input = Vec::new();
    io::stdin().read_to_end(&mut input)?;
    let text = on_large_stack(|| replay::run(&input).text);
    io::stdout().write_all(text.as_bytes())
}
