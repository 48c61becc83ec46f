//! Faults: how a throw climbs and what it kills on its way.

use crate::context::{plug, Frame};
use crate::process::{nil, par, Key, Mark, Part, Process, Scope, Waiter};
use std::rc::Rc;

/// The root after throw(f), which stood in these frames; None if the climb meets a side that
/// can't be killed.
pub fn climb(mut frames: Vec<Frame>, fault: u8) -> Option<Part> {
    let mut term = nil();
    while let Some(frame) = frames.pop() {
        term = match frame {
            Frame::SeqFirst(_) => term,
            Frame::ParLeft(right) => par(term, kill(&right, fault)?),
            Frame::ParRight(left) => par(kill(&left, fault)?, term),
            Frame::ExecutorBody(executor) => par(term, executor.notice(fault)),
            Frame::ScopeBody(scope) => {
                let (scope, stopped) = meet(scope, fault);
                let around = Rc::new(Process::Scope(scope, term));
                if stopped {
                    return Some(plug(frames, around));
                }
                around
            }
        }
    }
    Some(term)
}

/// What a climbing fault makes of a scope, and whether it stops there.
fn meet(mut scope: Scope, fault: u8) -> (Scope, bool) {
    if scope.list.contains_key(&Key::Fault(fault)) {
        scope.mark = Mark::Fault(fault);
        (scope, true)
    } else if scope.zombie {
        (scope, true)
    } else {
        scope.zombie = true;
        scope.mark = Mark::None;
        (scope, false)
    }
}

/// The enabled process killed with the fault; None if it can't be killed.
pub fn kill(process: &Part, fault: u8) -> Option<Part> {
    match &**process {
        Process::Inst(_) => None,
        Process::Scope(scope, body) if !scope.zombie => kill_live_scope(scope, body, fault),
        // A zombie stays whole; its body is only asked whether it can be killed.
        Process::Scope(_, body) => kill(body, fault).map(|_| process.clone()),
        Process::Par(left, right) => Some(par(kill(left, fault)?, kill(right, fault)?)),
        Process::Seq(first, _) => kill(first, fault),
        Process::Executor(executor, body) => Some(par(kill(body, fault)?, executor.notice(fault))),
        Process::Waiter(waiter) => {
            Some(Rc::new(Process::Waiter(Waiter { dead: true, ..waiter.clone() })))
        }
        Process::Notice(_) => Some(process.clone()),
        Process::Nil
        | Process::Assign(..)
        | Process::If(..)
        | Process::While(..)
        | Process::Choice(_)
        | Process::OneWay { .. }
        | Process::Request { .. }
        | Process::Notify { .. }
        | Process::Solicit { .. }
        | Process::Throw(_)
        | Process::Comp(_)
        | Process::CurrentHandler => Some(nil()),
    }
}

/// With nil body it is about to end and can't be killed, whatever its mark.
fn kill_live_scope(scope: &Scope, body: &Part, fault: u8) -> Option<Part> {
    if body.is_nil() {
        return None;
    }
    let killed = kill(body, fault)?;
    let scope = Scope { zombie: true, mark: Mark::OwnName, ..scope.clone() };
    Some(Rc::new(Process::Scope(scope, killed)))
}
