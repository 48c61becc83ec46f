//! Rules for a process that moves alone in its engine.

use crate::configuration::Engine;
use crate::context::{nearest, plug, Frame, Place};
use crate::expression::assign;
use crate::fault::climb;
use crate::handlers::update;
use crate::process::{nil, seq, Key, List, Mark, Part, Process, Scope};
use crate::refusal::Refusal;
use std::rc::Rc;

/// The engine after the process at the place has moved.
pub fn step(engine: &Engine, place: Place) -> Result<Engine, Refusal> {
    let mut values = engine.values;
    let Place { frames, process: acting } = place;
    let process = match &*acting {
        Process::Assign(variable, expression) => {
            let value = expression.evaluate(&engine.values).ok_or(Refusal::NotDecimal)?;
            assign(&mut values, *variable, value);
            plug(frames, nil())
        }
        Process::If(condition, yes, no) => {
            let holds = condition.is_true(&values).ok_or(Refusal::NotDecimal)?;
            let chosen = if holds { yes } else { no };
            plug(frames, chosen.clone())
        }
        Process::While(condition, body) => {
            let holds = condition.is_true(&values).ok_or(Refusal::NotDecimal)?;
            let next = if holds { seq(body.clone(), acting.clone()) } else { nil() };
            plug(frames, next)
        }
        Process::Inst(list) => install(frames, list),
        Process::Comp(name) => compensate(frames, *name),
        Process::Scope(scope, body) if body.is_nil() => end_scope(frames, scope.clone()),
        Process::Throw(fault) => climb(frames, *fault).ok_or(Refusal::Installing)?,
        _ => return Err(Refusal::NoMove),
    };
    Ok(Engine { values, process })
}

fn install(mut frames: Vec<Frame>, list: &List) -> Part {
    if let Some(scope) = nearest(&mut frames) {
        update(&mut scope.list, list);
    }
    plug(frames, nil())
}

/// comp(q) becomes H(q), nil if absent, and the nearest scope loses q.
fn compensate(mut frames: Vec<Frame>, name: u8) -> Part {
    let entry = nearest(&mut frames).and_then(|scope| scope.list.remove(&Key::Scope(name)));
    plug(frames, entry.unwrap_or_else(nil))
}

/// A scope with nil body: runs what its mark asks for, or ends.
fn end_scope(frames: Vec<Frame>, scope: Scope) -> Part {
    match scope.mark {
        Mark::Fault(fault) => run_entry(frames, scope, Key::Fault(fault)),
        Mark::OwnName => {
            let own = Key::Scope(scope.name);
            run_entry(frames, scope, own)
        }
        Mark::None if scope.zombie => plug(frames, nil()),
        Mark::None => promote(frames, scope),
    }
}

fn run_entry(frames: Vec<Frame>, mut scope: Scope, key: Key) -> Part {
    let body = scope.list.remove(&key).unwrap_or_else(nil);
    scope.mark = Mark::None;
    plug(frames, Rc::new(Process::Scope(scope, body)))
}

/// A live scope ends: the nearest list takes its own entry, nil if absent. A root has no
/// nearest scope and updates nothing.
fn promote(mut frames: Vec<Frame>, mut scope: Scope) -> Part {
    let own = Key::Scope(scope.name);
    let entry = scope.list.remove(&own).unwrap_or_else(nil);
    if let Some(outer) = nearest(&mut frames) {
        update(&mut outer.list, &List::from([(own, entry)]));
    }
    plug(frames, nil())
}
