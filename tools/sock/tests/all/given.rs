//! The command as a user gives it, for tests.

use std::io::Write;
use std::path::PathBuf;
use std::process::{Command, Output, Stdio};

const EXAMPLES: &str = "../../examples";

pub fn sock(arguments: &[&str], typed: &str) -> Output {
    let mut child = Command::new(env!("CARGO_BIN_EXE_sock"));
    child.args(arguments).stdin(Stdio::piped()).stdout(Stdio::piped()).stderr(Stdio::piped());
    let mut child = child.spawn().unwrap();
    let _ = child.stdin.take().unwrap().write_all(typed.as_bytes());
    child.wait_with_output().unwrap()
}

/// What is printed, with this status; nothing on standard error if it is 0.
pub fn prints(status: i32, arguments: &[&str], typed: &str) -> String {
    let output = sock(arguments, typed);
    let said = String::from_utf8(output.stderr).unwrap();
    assert_eq!(output.status.code(), Some(status), "{arguments:?}: {said}");
    assert_eq!(said.is_empty(), status == 0, "{arguments:?}: {said}");
    String::from_utf8(output.stdout).unwrap()
}

/// What is said on standard error, with this status, and nothing printed.
pub fn says(status: i32, arguments: &[&str]) -> String {
    let output = sock(arguments, "");
    assert_eq!(output.status.code(), Some(status), "{arguments:?}");
    assert!(output.stdout.is_empty(), "{arguments:?}");
    String::from_utf8(output.stderr).unwrap()
}

pub fn example(name: &str) -> String {
    format!("{EXAMPLES}/{name}")
}

pub fn scratch(name: &str) -> String {
    let folder = PathBuf::from(env!("CARGO_TARGET_TMPDIR"));
    folder.join(name).to_string_lossy().into_owned()
}
