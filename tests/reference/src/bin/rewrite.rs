//! Rewrites an input of the program handover from the format before document 02's change c to
//! today's: bytes from standard input, or hexadecimal text with the argument `--text`.
//! `bin/handover --rewrite` runs it.

use reference::earlier::input;
use std::io::{self, Read, Write};
use std::process::ExitCode;

fn main() -> ExitCode {
    let mut given = Vec::new();
    if let Err(why) = io::stdin().read_to_end(&mut given) {
        eprintln!("rewrite: {why}");
        return ExitCode::from(2);
    }
    let rewritten = match std::env::args().nth(1).as_deref() {
        Some("--text") => input::text(&given),
        _ => input::bytes(&given),
    };
    match rewritten.map(|made| io::stdout().write_all(&made)) {
        Ok(Ok(())) => ExitCode::SUCCESS,
        Ok(Err(why)) => {
            eprintln!("rewrite: {why}");
            ExitCode::from(3)
        }
        Err(why) => {
            eprintln!("rewrite: {why}");
            ExitCode::from(2)
        }
    }
}
