//! Draws scripts: `draw SEED COUNT` prints a bundle of COUNT scripts.

use std::io::{self, Write};
use std::process::ExitCode;

fn main() -> io::Result<ExitCode> {
    let numbers: Vec<Option<u64>> =
        std::env::args().skip(1).map(|argument| argument.parse().ok()).collect();
    let [Some(seed), Some(count)] = numbers[..] else {
        eprintln!("usage: draw SEED COUNT");
        return Ok(ExitCode::FAILURE);
    };
    let scripts = reference::draw::draw(seed, count);
    io::stdout().lock().write_all(&reference::bundle::write(&scripts))?;
    Ok(ExitCode::SUCCESS)
}
