//! The second drive program: standard input to standard output, as document 01 says.

use std::io::{self, Read, Write};

fn main() -> io::Result<()> {
    let mut input = Vec::new();
    io::stdin().lock().read_to_end(&mut input)?;
    io::stdout().lock().write_all(second::drive::drive(&input).as_bytes())
}
