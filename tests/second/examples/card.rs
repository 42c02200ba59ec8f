//! The card by the second program, standard input to standard output: makes
//! the stored outputs of tests/program.

use std::io::{self, Read, Write};

fn main() -> io::Result<()> {
    let mut text = Vec::new();
    io::stdin().read_to_end(&mut text)?;
    io::stdout().write_all(&second::text::card(&text))
}
