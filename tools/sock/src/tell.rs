//! Steps in words: who does what, by name, and what a step has done to values and serials.

use crate::follow::{find, way};
use crate::library::{self, word_for, Answer, Move};
use crate::names::{Family, Names};
use crate::print::Printer;
use crate::state::State;
use crate::tree::{places, Configuration, Kind, Mark, Process};

/// The enabled process that a step names.
pub fn acting(tree: &Configuration, engine: u16, position: u16) -> Option<&Process> {
    let engine = tree.engines.get(usize::from(engine))?;
    let all = places(&engine.process);
    let found =
        all.into_iter().find(|place| place.enabled && place.position == usize::from(position));
    found.map(|place| place.process)
}

/// A step in the text form, by labels where they name what it names, else by positions.
pub fn step_by_labels(names: &Names, tree: &Configuration, step: Move) -> String {
    let spot = |engine: u16, position: u16, branch: u16| {
        let label = label(tree, engine, position, branch)?;
        Some(format!("{}.{label}", names.engine(usize::from(engine))))
    };
    let at = |engine: u16, position: u16| {
        let whole = spot(engine, position, 0);
        whole.unwrap_or_else(|| format!("{} at {position}", names.engine(usize::from(engine))))
    };
    let first = at(step.engine, step.position);
    if step.is_alone() {
        return first;
    }
    if let Some(second) = spot(step.second, step.second_position, step.branch) {
        return format!("{first} -> {second}");
    }
    let branch = if step.branch == 0 { String::new() } else { format!(" branch {}", step.branch) };
    format!("{first} -> {}{branch}", at(step.second, step.second_position))
}

/// A step as files of words have it, and behind # the step in the text form and in words; of a refused one why.
pub fn step_line(names: &Names, before: &State, step: Move) -> String {
    let words: Vec<String> = step.words().iter().map(|word| format!("{word:04x}")).collect();
    let (text, said) =
        (step_by_labels(names, &before.tree, step), sentence(names, &before.tree, step));
    let number = library::step(&before.words, step).0.number;
    let refused = if number == 0 { String::new() } else { refusal(number) };
    format!("{} # {text}: {said}{refused}", words.join(" "))
}

fn refusal(number: u8) -> String {
    format!(": refused, {number} {}", word_for(number))
}

/// A label that stands at this position and branch and nowhere else in the engine.
fn label(tree: &Configuration, engine: u16, position: u16, branch: u16) -> Option<&str> {
    let process = acting(tree, engine, position)?;
    let named = match usize::from(branch).checked_sub(1) {
        Some(index) => process.parts.get(2 * index)?,
        None => process,
    };
    let only = |label: &&str| find(tree, usize::from(engine), label) == [(position, branch)];
    named.labels.iter().map(|label| &**label).find(only)
}

/// What a step would do, or does: "lock asks bridge: open ($2 = 0)".
pub fn sentence(names: &Names, tree: &Configuration, step: Move) -> String {
    let who = names.engine_said(usize::from(step.engine));
    let Some(process) = acting(tree, step.engine, step.position) else {
        return format!("nothing is enabled at position {} of {who}", step.position);
    };
    let other = names.engine_said(usize::from(step.second));
    let printer = Printer { names, engine: usize::from(step.engine) };
    let operation = names.said(Family::Operation, process.name);
    let message = message(names, tree, step.engine, &process.y);
    match process.kind {
        Kind::Assign | Kind::If | Kind::While => format!("{who}: {}", printer.head(process)),
        Kind::Notify => format!("{who} sends {other}: {operation} {message}"),
        Kind::Solicit => format!("{who} asks {other}: {operation} {message}"),
        Kind::Executor => {
            format!("{who} replies to {other}: {operation} {message}, serial {}", process.serial)
        }
        Kind::Notice => {
            let fault = names.written(Family::Fault, process.fault);
            format!(
                "{who} reports fault {fault} to {other}: {operation}, serial {}",
                process.serial
            )
        }
        Kind::Inst => format!("{who} installs {}", handlers(&printer, process)),
        Kind::Throw => format!("{who} throws fault {}", names.written(Family::Fault, process.name)),
        Kind::Comp => {
            format!("{who} compensates scope {}", names.written(Family::Scope, process.name))
        }
        Kind::Scope => format!("{who}: {}", scope(names, process)),
        kind => format!("{who}: a {} does not move by itself", kind.name()),
    }
}

/// The variables of a message with their values.
fn message(names: &Names, tree: &Configuration, engine: u16, variables: &[u8]) -> String {
    let engine = usize::from(engine);
    let value = |variable: u8| tree.engines[engine].values[usize::from(variable)] as i32;
    let each: Vec<String> = variables
        .iter()
        .map(|variable| format!("{} = {}", names.variable(engine, *variable), value(*variable)))
        .collect();
    format!("({})", each.join(", "))
}

fn handlers(printer: &Printer, process: &Process) -> String {
    let keys: Vec<String> = process.list.iter().map(|entry| printer.key(entry.key)).collect();
    match keys.len() {
        0 => "no handlers".to_string(),
        1 => format!("a handler for {}", keys[0]),
        _ => format!("handlers for {}", keys.join(", ")),
    }
}

fn scope(names: &Names, process: &Process) -> String {
    let name = names.written(Family::Scope, process.name);
    match process.mark {
        Mark::Fault(fault) => format!(
            "scope {name} runs its handler for fault {}",
            names.written(Family::Fault, fault)
        ),
        Mark::OwnName => {
            format!("scope {name}, which was killed, runs what it has under its own name")
        }
        Mark::None if process.zombie => format!("scope {name}, a zombie, ends"),
        Mark::None => format!("scope {name} ends"),
    }
}

/// What a step has done: the sentence, then how it came out and which values changed.
pub fn told(
    names: &Names,
    before: &State,
    step: Move,
    answer: Answer,
    after: Option<&State>,
) -> String {
    let sentence = sentence(names, &before.tree, step);
    let Some(after) = after else {
        return sentence + &refusal(answer.number);
    };
    let mut parts = vec![sentence];
    let kind = Kind::of(u16::from(answer.kind));
    match (kind, way(&before.tree, step, &after.tree)) {
        (Some(Kind::If), Some(0)) => parts.push("true".to_string()),
        (Some(Kind::If), Some(_)) => parts.push("false".to_string()),
        (Some(Kind::While), Some(0)) => parts.push("true: once more".to_string()),
        (Some(Kind::While), Some(_)) => parts.push("false: it ends".to_string()),
        (Some(Kind::Solicit), _) => parts.push(format!("serial {} is issued", answer.serial)),
        _ => {}
    }
    parts.extend(values(names, before, after));
    parts.join("; ")
}

/// The values that changed: "lock.light: 0 -> 1".
pub fn values(names: &Names, before: &State, after: &State) -> Vec<String> {
    let mut changed = Vec::new();
    for (index, (old, new)) in before.tree.engines.iter().zip(&after.tree.engines).enumerate() {
        for variable in 0..32u8 {
            let (was, is) = (old.values[usize::from(variable)], new.values[usize::from(variable)]);
            if was != is {
                let variable = names.variable_said(index, variable);
                changed.push(format!("{variable}: {} -> {}", was as i32, is as i32));
            }
        }
    }
    changed
}
