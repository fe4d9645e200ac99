//! The peer that imports and exports encodings, in place of the program `replay`.

use std::io::{self, Read};

fn main() -> io::Result<()> {
    let mut bytes = Vec::new();
    io::stdin().read_to_end(&mut bytes)?;
    print!("{}", bench::peers::bitwise::transcript(&bytes));
    Ok(())
}
