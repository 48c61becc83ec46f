//! A configuration for reading: each engine's values that are not 0, its process as a tree with positions, what is enabled and what can
//! move, the open serials with both ends; and what a step changed.

use crate::library::{self, Move};
use crate::moves::able;
use crate::names::{title, Names};
use crate::print::Printer;
use crate::state::State;
use crate::tell::{step_by_labels, told, values};
use crate::tree::{places, Kind, Place, Role};
use std::collections::{BTreeMap, BTreeSet};
use std::fmt::Write;

/// Colours of a terminal, or none.
#[derive(Clone, Copy, Debug, PartialEq, Eq)]
pub struct Colours(pub bool);

impl Colours {
    pub fn paint(self, code: &str, text: &str) -> String {
        if self.0 {
            format!("\x1b[{code}m{text}\x1b[0m")
        } else {
            text.to_string()
        }
    }

    fn bold(self, text: &str) -> String {
        self.paint("1", text)
    }
}

/// One line of an engine's tree.
#[derive(Clone, Debug, PartialEq, Eq)]
pub struct Row {
    pub position: usize,
    pub depth: usize,
    pub enabled: bool,
    /// It can move now.
    pub moves: bool,
    pub text: String,
}

/// The rows of one engine's tree. `able` has the positions of those that can move.
pub fn rows(names: &Names, state: &State, engine: usize, able: &BTreeSet<(u16, u16)>) -> Vec<Row> {
    let printer = Printer { names, engine };
    let all = places(&state.tree.engines[engine].process);
    let row = |place: &Place| Row {
        position: place.position,
        depth: place.depth,
        enabled: place.enabled,
        moves: able.contains(&(engine as u16, place.position as u16)),
        text: said(&printer, &all, place),
    };
    all.iter().map(row).collect()
}

/// What a process among all of its engine is in its holder, its labels and its head.
pub fn said(printer: &Printer, all: &[Place], place: &Place) -> String {
    let holder = place.holder.map(|holder| all[holder].process.kind);
    let role = match (place.role, holder) {
        (Role::Entry(key), _) => format!("on {}: ", printer.key(key)),
        (Role::Part(1), Some(Kind::If)) => "else: ".to_string(),
        (Role::Part(index), Some(Kind::Choice)) if index % 2 == 0 => {
            format!("branch {}: ", index / 2 + 1)
        }
        (Role::Part(_), Some(Kind::Choice)) => "then: ".to_string(),
        _ => String::new(),
    };
    let labels: String = place.process.labels.iter().map(|label| format!("{label}: ")).collect();
    format!("{role}{labels}{}", printer.head(place.process))
}

/// An end of a serial: engine, position, what it is.
pub type End = (usize, usize, &'static str);

/// The open serials with their ends, waiters first.
pub fn serials(state: &State) -> BTreeMap<u16, Vec<End>> {
    let mut open: BTreeMap<u16, Vec<End>> = BTreeMap::new();
    for (engine, each) in state.tree.engines.iter().enumerate() {
        for place in places(&each.process).iter().filter(|place| place.process.kind.is_end()) {
            let what = match place.process.kind {
                Kind::Waiter if place.process.dead => "dead waiter",
                kind => kind.name(),
            };
            open.entry(place.process.serial).or_default().push((engine, place.position, what));
        }
    }
    for ends in open.values_mut() {
        ends.sort_by_key(|end| !end.2.ends_with("waiter"));
    }
    open
}

/// The whole configuration.
pub fn show(names: &Names, state: &State, colours: Colours) -> String {
    let able = able(state);
    let mut out = String::new();
    let count = state.tree.engines.len();
    let (engines, serials) =
        (counted(count, "engine"), counted(usize::from(state.tree.issued), "serial"));
    let _ = writeln!(out, "{engines}, {}, {serials} issued", counted(state.words.len(), "word"));
    for engine in 0..count {
        let _ = writeln!(out, "\n{}", colours.bold(&title(names, engine)));
        for line in values_lines(names, state, engine) {
            let _ = writeln!(out, "      {line}");
        }
        for row in rows(names, state, engine, &able) {
            let _ = writeln!(out, "{}", row_text(&row, colours));
        }
    }
    out + &serials_text(names, state, colours)
}

/// "1 engine", "2 engines".
pub fn counted(count: usize, what: &str) -> String {
    format!("{count} {what}{}", if count == 1 { "" } else { "s" })
}

/// The values that are not 0.
pub fn values_lines(names: &Names, state: &State, engine: usize) -> Vec<String> {
    let values =
        state.tree.engines[engine].values.iter().enumerate().filter(|(_, value)| **value != 0);
    let line = |(variable, value): (usize, &u32)| {
        let name = names
            .variable_name(engine, variable as u8)
            .map_or(String::new(), |name| format!("{name} "));
        format!("{name}${variable} = {}", *value as i32)
    };
    values.map(line).collect()
}

/// `>` can move now, `*` enabled.
fn row_text(row: &Row, colours: Colours) -> String {
    let (sign, code) = match (row.moves, row.enabled) {
        (true, _) => (">", "1;32"),
        (false, true) => ("*", "32"),
        (false, false) => (" ", "2"),
    };
    let line = format!("{:>5} {sign} {}{}", row.position, "  ".repeat(row.depth - 1), row.text);
    colours.paint(code, &line)
}

fn serials_text(names: &Names, state: &State, colours: Colours) -> String {
    let open = serials(state);
    if open.is_empty() {
        return "\nno open serials\n".to_string();
    }
    let mut out = format!("\n{}\n", colours.bold("open serials"));
    for (serial, ends) in open {
        let said: Vec<String> = ends
            .iter()
            .map(|(engine, position, what)| {
                format!("{what} at position {position} of {}", names.engine_said(*engine))
            })
            .collect();
        let counted = library::ends(&state.words, serial).unwrap_or((0, 0));
        let _ = writeln!(
            out,
            "{serial:>7} {} (ends: {} waiting, {} working)",
            said.join(", "),
            counted.0,
            counted.1
        );
    }
    out
}

/// Before and after a step, with what changed.
pub fn show_step(
    names: &Names,
    before: &State,
    step: Move,
    number: usize,
    colours: Colours,
) -> String {
    let (answer, after) = before.take(step);
    let mut out = format!(
        "{}\n{}",
        colours.bold(&format!("before step {number}")),
        show(names, before, colours)
    );
    let heading = format!("step {number}: {}", step_by_labels(names, &before.tree, step));
    let _ = writeln!(out, "\n{}", colours.bold(&heading));
    let _ = writeln!(out, "      {}", told(names, before, step, answer, after.as_ref()));
    let Some(after) = after else {
        out.push_str("      nothing changes\n");
        return out;
    };
    let _ = write!(
        out,
        "\n{}\n{}",
        colours.bold(&format!("after step {number}")),
        show(names, &after, colours)
    );
    out + &changes(names, before, &after, colours)
}

/// Values that changed, and rows that went or came.
fn changes(names: &Names, before: &State, after: &State, colours: Colours) -> String {
    let mut out = format!("\n{}\n", colours.bold("changed"));
    for line in values(names, before, after) {
        let _ = writeln!(out, "      {line}");
    }
    if before.tree.issued != after.tree.issued {
        let _ = writeln!(out, "      issued: {} -> {}", before.tree.issued, after.tree.issued);
    }
    let none = BTreeSet::new();
    for engine in 0..after.tree.engines.len() {
        let (old, new) = (rows(names, before, engine, &none), rows(names, after, engine, &none));
        for (sign, text) in differences(&texts(&old), &texts(&new)) {
            let code = if sign == '-' { "31" } else { "32" };
            let line = format!("    {sign} {}: {text}", names.engine_said(engine));
            let _ = writeln!(out, "{}", colours.paint(code, &line));
        }
    }
    out
}

/// Without depth, so that what only moved up or down a level is no change.
fn texts(rows: &[Row]) -> Vec<&str> {
    rows.iter().map(|row| row.text.as_str()).collect()
}

/// What is only in the old (-) or only in the new (+), by the longest common part of what lies between the like ends.
fn differences<'a>(old: &[&'a str], new: &[&'a str]) -> Vec<(char, &'a str)> {
    let first = old.iter().zip(new).take_while(|(a, b)| a == b).count();
    let last = old[first..]
        .iter()
        .rev()
        .zip(new[first..].iter().rev())
        .take_while(|(a, b)| a == b)
        .count();
    let (old, new) = (&old[first..old.len() - last], &new[first..new.len() - last]);
    let mut common = vec![vec![0u16; new.len() + 1]; old.len() + 1];
    for i in (0..old.len()).rev() {
        for j in (0..new.len()).rev() {
            common[i][j] = if old[i] == new[j] {
                common[i + 1][j + 1] + 1
            } else {
                common[i + 1][j].max(common[i][j + 1])
            };
        }
    }
    let (mut i, mut j) = (0, 0);
    let mut out = Vec::new();
    while i < old.len() || j < new.len() {
        if i < old.len() && j < new.len() && old[i] == new[j] {
            (i, j) = (i + 1, j + 1);
        } else if j == new.len() || i < old.len() && common[i + 1][j] >= common[i][j + 1] {
            out.push(('-', old[i]));
            i += 1;
        } else {
            out.push(('+', new[j]));
            j += 1;
        }
    }
    out
}
