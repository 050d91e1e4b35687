//! Plays every script of the bundle on standard input and prints the bundle of
//! their outputs.

use std::io::{self, Read, Write};
use std::process::ExitCode;

fn main() -> io::Result<ExitCode> {
    let mut input = Vec::new();
    io::stdin().lock().read_to_end(&mut input)?;
    let scripts = match reference::bundle::read(&input) {
        Ok(scripts) => scripts,
        Err(message) => {
            eprintln!("play_bundle: {message}");
            return Ok(ExitCode::FAILURE);
        }
    };
    let outputs: Vec<Vec<u8>> =
        scripts.iter().map(|script| reference::play(script, reference::LISTING_LIMIT)).collect();
    io::stdout().lock().write_all(&reference::bundle::write(&outputs))?;
    Ok(ExitCode::SUCCESS)
}
