//! The command sock: which subcommand is meant, its help, and the status with which it ends.

mod arguments;
mod commands;

use arguments::{Arguments, Done, Failure};
use commands::{asm, check, dis, list_moves, run, say, show_file};
use sock::help;
use std::io::{self, Write};
use std::process::ExitCode;

fn main() -> ExitCode {
    let arguments: Vec<String> = std::env::args_os()
        .skip(1)
        .map(|argument| argument.to_string_lossy().into_owned())
        .collect();
    let status = match command(&arguments) {
        Ok(status) => status,
        Err(Failure(status, text)) => {
            let _ = writeln!(io::stderr(), "{text}");
            status
        }
    };
    ExitCode::from(status)
}

fn command(arguments: &[String]) -> Done<u8> {
    let Some((name, rest)) = arguments.split_first() else {
        return Err(Failure(2, help::GENERAL.trim_end().to_string()));
    };
    let does: fn(&Arguments) -> Done<u8> = match name.as_str() {
        "asm" => asm,
        "dis" => dis,
        "check" => check,
        "show" => show_file,
        "moves" => list_moves,
        "run" => run,
        "--help" | "-h" | "help" => return helped(rest.first()),
        "--version" => return say(&format!("sock {}\n", env!("SOCK_VERSION"))).map(|_| 0),
        _ => return Err(unknown(name)),
    };
    let asks = |word: &String| word == "--help" || word == "-h";
    if rest.iter().take_while(|word| *word != "--").any(asks) {
        return helped(Some(name));
    }
    does(&Arguments::of(name, rest)?)
}

/// Says the help of a subcommand, or that of the whole.
fn helped(command: Option<&String>) -> Done<u8> {
    let text = match command {
        None => help::GENERAL.to_string(),
        Some(name) => help::of(name).ok_or_else(|| unknown(name))?,
    };
    say(&text).map(|_| 0)
}

fn unknown(name: &str) -> Failure {
    Failure(2, format!("sock: no such command: {name} (sock --help lists them)"))
}
