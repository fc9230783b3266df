//! Cleans an archive from standard input to standard output.

use std::io::{Read, Write, stdin, stdout};

fn main() -> Result<(), Box<dyn std::error::Error>> {
    let mut archive = Vec::new();
    stdin().read_to_end(&mut archive)?;
    stdout().write_all(&ridgeoven::clean_to_vec(&archive)?)?;
    Ok(())
}
