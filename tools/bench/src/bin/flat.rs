//! The peer on flat words in place of the program `verdict`.

use std::io::{self, Read};

fn main() -> io::Result<()> {
    let mut bytes = Vec::new();
    io::stdin().read_to_end(&mut bytes)?;
    println!("{}", bench::peers::flat::line(&bytes));
    Ok(())
}
