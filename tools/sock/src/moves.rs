//! The steps that are accepted now. Only what can fit is tried: a process that moves alone by itself, a sender with the receivers of its
//! operation in the engine that its z names, a working end with the waiter of its serial. Whether a step is accepted is the archive's answer.

use crate::library::{self, Move};
use crate::random::Random;
use crate::state::State;
use crate::tree::{places, Configuration, Kind, Place, Process};
use std::collections::BTreeSet;

/// Steps tried for each move that is asked for: what fits may still be refused for what only the step knows (6 to 9, 13).
const TRIES: usize = 20;

/// Steps tried at most to find what can move.
const MARKING: usize = 20_000;

/// The moves that were found, and how many of the steps that can fit were tried for them.
#[derive(Clone, Debug, Default)]
pub struct Found {
    pub moves: Vec<Move>,
    pub tried: usize,
    pub fitting: usize,
}

impl Found {
    /// Whether there may be more: not all was tried.
    pub fn more(&self) -> bool {
        self.tried < self.fitting
    }

    /// What a list of the moves ends with where it does not say all by itself.
    pub fn note(&self) -> Option<String> {
        if self.more() {
            let (tried, fitting) = (self.tried, self.fitting);
            return Some(format!(
                "there may be more: {tried} of {fitting} that can fit were tried"
            ));
        }
        self.moves.is_empty().then(|| "nothing moves".to_string())
    }
}

/// The accepted steps in the order of their first engines and positions, up to `most`.
pub fn moves(state: &State, most: usize) -> Found {
    let tries = most.saturating_mul(TRIES);
    let steps = fitting(&state.tree);
    let mut found = Found { fitting: steps.len(), ..Found::default() };
    for step in steps {
        if found.moves.len() == most || found.tried == tries {
            break;
        }
        found.tried += 1;
        if library::step(&state.words, step).0.number == 0 {
            found.moves.push(step);
        }
    }
    found
}

/// Engines and positions of what can move now: of each, steps are tried up to the first that is accepted.
pub fn able(state: &State) -> BTreeSet<(u16, u16)> {
    let mut able = BTreeSet::new();
    let mut tried = 0;
    for step in fitting(&state.tree) {
        let first = (step.engine, step.position);
        if tried == MARKING || able.contains(&first) {
            continue;
        }
        tried += 1;
        if library::step(&state.words, step).0.number == 0 {
            able.insert(first);
        }
    }
    able
}

/// One of the accepted steps, each as likely as the others: what can fit is tried in random order up to the first that is accepted.
pub fn any(state: &State, random: &mut Random) -> Option<Move> {
    let mut left = fitting(&state.tree);
    while !left.is_empty() {
        let step = left.swap_remove(random.below(left.len()));
        if library::step(&state.words, step).0.number == 0 {
            return Some(step);
        }
    }
    None
}

/// Every step that can fit.
pub fn fitting(tree: &Configuration) -> Vec<Move> {
    let enabled: Vec<Vec<Place>> =
        tree.engines.iter().map(|engine| enabled(&engine.process)).collect();
    let mut steps = Vec::new();
    for (engine, places) in enabled.iter().enumerate() {
        for place in places {
            let alone = Move::alone(engine as u16, place.position as u16);
            if moves_alone(place.process) {
                steps.push(alone);
            } else if let Some(second) = partner(tree, engine, place.process) {
                let from = Move { second: second as u16, ..alone };
                for other in &enabled[second] {
                    meetings(from, place.process, other, &mut steps);
                }
            }
        }
    }
    steps
}

fn enabled(root: &Process) -> Vec<Place<'_>> {
    places(root).into_iter().filter(|place| place.enabled).collect()
}

fn moves_alone(process: &Process) -> bool {
    match process.kind {
        Kind::Scope => process.parts[0].is_nil(),
        Kind::Assign | Kind::If | Kind::While | Kind::Inst | Kind::Throw | Kind::Comp => true,
        _ => false,
    }
}

/// The engine that a sender or a working end that can move names, if it is another.
fn partner(tree: &Configuration, engine: usize, process: &Process) -> Option<usize> {
    let named = match process.kind {
        Kind::Notify | Kind::Solicit => {
            tree.engines[engine].values[usize::from(process.z)] as usize
        }
        Kind::Executor if process.parts[0].is_nil() => usize::from(process.engine),
        Kind::Notice => usize::from(process.engine),
        _ => return None,
    };
    (named != engine && named < tree.engines.len()).then_some(named)
}

/// Adds the steps between a sender and one enabled process of the engine that it names.
fn meetings(from: Move, sender: &Process, other: &Place, steps: &mut Vec<Move>) {
    let process = other.process;
    let with = |branch: usize| Move {
        second_position: other.position as u16,
        branch: branch as u16,
        ..from
    };
    if process.kind == Kind::Choice {
        let receivers = process.parts.iter().step_by(2).enumerate();
        let fitting = receivers.filter(|(_, receiver)| fits(from.engine, sender, receiver));
        steps.extend(fitting.map(|(index, _)| with(index + 1)));
    } else if fits(from.engine, sender, process) {
        steps.push(with(0));
    }
}

fn fits(engine: u16, sender: &Process, receiver: &Process) -> bool {
    let counts = sender.y.len() == receiver.x.len();
    sender.name == receiver.name
        && match (sender.kind, receiver.kind) {
            (Kind::Notify, Kind::OneWay) => counts,
            (Kind::Solicit, Kind::Request) => counts && sender.x.len() == receiver.y.len(),
            (Kind::Executor, Kind::Waiter) => counts && waits(engine, sender, receiver),
            (Kind::Notice, Kind::Waiter) => waits(engine, sender, receiver),
            _ => false,
        }
}

fn waits(engine: u16, end: &Process, waiter: &Process) -> bool {
    end.serial == waiter.serial && u16::from(waiter.engine) == engine
}
