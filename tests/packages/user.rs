//! Builds the statements of a document on standard input, by the packaged crate.

use std::io::{self, Read, Write};

use hardieflax::Hardieflax;

fn main() -> Result<(), Box<dyn std::error::Error>> {
    let mut document = Vec::new();
    io::stdin().read_to_end(&mut document)?;
    io::stdout().write_all(Hardieflax::new().build(&document)?.as_bytes())?;
    Ok(())
}
