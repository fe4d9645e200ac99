//! The peer on trees of shared nodes in place of the program `verdict`.

use std::io::{self, Read};

fn main() -> io::Result<()> {
    let mut bytes = Vec::new();
    io::stdin().read_to_end(&mut bytes)?;
    println!("{}", bench::peers::graph::line(&bytes));
    Ok(())
}
