//! Differential cards and verdicts by the second program, standard input to
//! standard output: makes the stored outputs of tests/program/differential.

use std::io::{self, Read, Write};

fn main() -> io::Result<()> {
    let mut text = Vec::new();
    io::stdin().read_to_end(&mut text)?;
    io::stdout().write_all(&second::differential::diffcard(&text))
}
