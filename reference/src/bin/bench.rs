//! Plays the script on standard input and prints its listing or first fault.

use std::io::{self, Read, Write};

fn main() -> io::Result<()> {
    let mut script = Vec::new();
    io::stdin().lock().read_to_end(&mut script)?;
    io::stdout().lock().write_all(&reference::play(&script, reference::LISTING_LIMIT))
}
