//! From a configuration to hexadecimal text: a line for each process, with what it is in the text form behind it, and one for each step,
//! with what it does.

use crate::library::Move;
use crate::names::{title, Names};
use crate::print::Printer;
use crate::show::said;
use crate::state::{along, State};
use crate::tell::step_line;
use crate::tree::{places, Place, Process, Role};
use std::fmt::Write;

/// Comments stand behind so many signs, or behind longer words.
const COLUMN: usize = 40;

pub fn hex(names: &Names, state: &State, steps: &[Move]) -> String {
    let (words, tree) = (&state.words, &state.tree);
    let mut out = String::new();
    let count = words.len();
    line(&mut out, 0, &[count as u16], &format!("{count} words follow: the configuration"));
    line(&mut out, 0, &words[..2], "engines, serials issued");
    for (engine, start) in tree.starts().into_iter().enumerate() {
        let _ = writeln!(out, "\n# {}", title(names, engine));
        let _ = writeln!(out, "{}", packed(&words[start - 64..start]).join(" "));
        let printer = Printer { names, engine };
        engine_lines(&mut out, &words[start..], &printer, &tree.engines[engine].process);
    }
    if !steps.is_empty() {
        out.push_str("\n# steps: engine, position, second engine, second position, branch\n");
    }
    for said in along(state, steps, |before, step| step_line(names, before, step)) {
        let _ = writeln!(out, "{said}");
    }
    out
}

fn engine_lines(out: &mut String, words: &[u16], printer: &Printer, process: &Process) {
    let all = places(process);
    // A list's key stands before its process, in the line of that process.
    let keyed = |place: &Place| usize::from(matches!(place.role, Role::Entry(_)));
    for (index, place) in all.iter().enumerate() {
        let first = place.position - keyed(place);
        let end = all.get(index + 1).map(|next| next.position - keyed(next));
        let end = end.unwrap_or_else(|| process.words().len());
        line(out, place.depth - 1, &words[first..end], &said(printer, &all, place));
    }
}

fn line(out: &mut String, indent: usize, words: &[u16], comment: &str) {
    let hex: Vec<String> = words.iter().map(|word| format!("{word:04x}")).collect();
    let text = "  ".repeat(indent) + &hex.join(" ");
    let _ = writeln!(out, "{text:<COLUMN$} # {comment}");
}

/// Words with runs of 0 written `0000*56`.
fn packed(words: &[u16]) -> Vec<String> {
    let mut out = Vec::new();
    let mut rest = words;
    while let Some(word) = rest.first() {
        let run = if *word == 0 { rest.iter().take_while(|other| **other == 0).count() } else { 1 };
        let times = if run > 1 { format!("*{run}") } else { String::new() };
        out.push(format!("{word:04x}{times}"));
        rest = &rest[run..];
    }
    out
}
