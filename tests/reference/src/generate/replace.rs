//! Replacing one process somewhere in a configuration, chosen by what surrounds it.

use crate::build;
use crate::configuration::Configuration;
use crate::generate::random::Random;
use crate::process::{Key, List, Part, Process};
use std::rc::Rc;

/// Where a process stands in the one that holds it.
#[derive(Clone, Copy, Debug, PartialEq, Eq)]
pub enum Slot {
    Root,
    SeqFirst,
    ParSide,
    Guard,
    /// An entry of a scope's own list.
    ScopeEntry(Key),
    Other,
}

/// What surrounds a process.
#[derive(Clone, Copy, Debug, PartialEq, Eq)]
pub struct Surroundings {
    pub slot: Slot,
    pub enabled: bool,
    /// Inside a list entry of kind 10, 12 or 17.
    pub handler: bool,
}

type Visit<'a> = dyn FnMut(&Part, Surroundings) -> Option<Part> + 'a;

/// The configuration with one process, randomly chosen among those for which `change` gives
/// another, replaced by that; None if it gives none.
pub fn one(
    random: &mut Random,
    configuration: &Configuration,
    change: impl Fn(&Part, Surroundings) -> Option<Part>,
) -> Option<Configuration> {
    let mut count = 0;
    replace(configuration, &mut |process, around| {
        count += usize::from(change(process, around).is_some());
        None
    });
    let mut before_chosen = random.below(count);
    let mut done = count == 0;
    let changed = replace(configuration, &mut |process, around| {
        if done {
            return None;
        }
        let new = change(process, around)?;
        if before_chosen > 0 {
            before_chosen -= 1;
            return None;
        }
        done = true;
        Some(new)
    });
    (count > 0).then_some(changed)
}

fn replace(configuration: &Configuration, visit: &mut Visit) -> Configuration {
    let mut changed = configuration.clone();
    let around = Surroundings { slot: Slot::Root, enabled: true, handler: false };
    for engine in &mut changed.engines {
        engine.process = inside(&engine.process, around, visit);
    }
    changed
}

/// The process with what `visit` gives for it, or for the processes in it, in word order.
fn inside(process: &Part, around: Surroundings, visit: &mut Visit) -> Part {
    if let Some(new) = visit(process, around) {
        return new;
    }
    let resting = |slot: Slot| Surroundings { slot, enabled: false, ..around };
    let running = |slot: Slot| Surroundings { slot, ..around };
    match &**process {
        Process::Seq(first, second) => build::seq(
            inside(first, running(Slot::SeqFirst), visit),
            inside(second, resting(Slot::Other), visit),
        ),
        Process::Par(left, right) => build::par(
            inside(left, running(Slot::ParSide), visit),
            inside(right, running(Slot::ParSide), visit),
        ),
        Process::If(condition, yes, no) => build::if_else(
            condition.clone(),
            inside(yes, resting(Slot::Other), visit),
            inside(no, resting(Slot::Other), visit),
        ),
        Process::While(condition, body) => {
            build::while_true(condition.clone(), inside(body, resting(Slot::Other), visit))
        }
        Process::Choice(branches) => {
            let mut changed = Vec::new();
            for branch in branches {
                let receiver = inside(&branch.receiver, resting(Slot::Guard), visit);
                changed.push((receiver, inside(&branch.then, resting(Slot::Other), visit)));
            }
            build::choice(changed)
        }
        Process::Request { operation, x, y, body } => {
            let body = inside(body, resting(Slot::Other), visit);
            build::request(*operation, x.clone(), y.clone(), body)
        }
        Process::Solicit { operation, y, z, x, list } => {
            build::solicit(*operation, y.clone(), *z, x.clone(), handlers(list, visit))
        }
        Process::Inst(list) => build::inst(handlers(list, visit)),
        Process::Waiter(waiter) => {
            let mut waiter = waiter.clone();
            waiter.list = handlers(&waiter.list, visit);
            Rc::new(Process::Waiter(waiter))
        }
        Process::Scope(scope, body) => {
            let mut scope = scope.clone();
            for (key, entry) in &mut scope.list {
                *entry = inside(entry, resting(Slot::ScopeEntry(*key)), visit);
            }
            Rc::new(Process::Scope(scope, inside(body, running(Slot::Other), visit)))
        }
        Process::Executor(executor, body) => {
            let body = inside(body, running(Slot::Other), visit);
            Rc::new(Process::Executor(executor.clone(), body))
        }
        _ => process.clone(),
    }
}

fn handlers(list: &List, visit: &mut Visit) -> List {
    let around = Surroundings { slot: Slot::Other, enabled: false, handler: true };
    list.iter().map(|(key, entry)| (*key, inside(entry, around, visit))).collect()
}
