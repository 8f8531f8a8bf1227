//! Prints the second implementation's report of the bytes on standard input. The expected reports beside the studies are made with it.
use std::io::{self, Read, Write};

fn main() -> io::Result<()> {
    let mut bytes = Vec::new();
    io::stdin().read_to_end(&mut bytes)?;
    io::stdout().write_all(harness::reference::report::report(&bytes).as_bytes())
}
