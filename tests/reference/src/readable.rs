//! Readable and fresh: what is asked of a configuration beyond its layout, by document 01 and, that
//! no variable receives twice, by document 02 c.

use crate::configuration::Configuration;
use crate::limits::Limits;
use crate::process::{Key, List, Mark, Process, Scope};
use crate::read;

/// The configuration in the words, None if they are not readable.
pub fn read(limits: &Limits, words: &[u16]) -> Option<Configuration> {
    read::layout(limits, words).filter(is_readable)
}

/// For a configuration that is laid out and within the limits.
pub fn is_readable(configuration: &Configuration) -> bool {
    let bounds = Bounds { engines: configuration.engines.len(), issued: configuration.issued };
    configuration.engines.iter().all(|engine| {
        matches!(*engine.process, Process::Nil | Process::Scope(..))
            && bounds.enabled(&engine.process)
    })
}

/// For a readable configuration.
pub fn is_fresh(configuration: &Configuration) -> bool {
    configuration.issued == 0
        && configuration.engines.iter().all(|engine| {
            matches!(*engine.process, Process::Scope(..)) && is_untouched(&engine.process)
        })
}

/// No enabled end, and no enabled scope with mark, zombie or entries; what is not enabled has
/// neither in a readable configuration.
fn is_untouched(process: &Process) -> bool {
    match process {
        Process::Seq(first, _) => is_untouched(first),
        Process::Par(left, right) => is_untouched(left) && is_untouched(right),
        Process::Scope(scope, body) => scope.is_untouched() && is_untouched(body),
        Process::Executor(..) | Process::Waiter(_) | Process::Notice(_) => false,
        _ => true,
    }
}

/// What serials and engine numbers of ends must stay within.
struct Bounds {
    engines: usize,
    issued: u16,
}

impl Bounds {
    fn enabled(&self, process: &Process) -> bool {
        match process {
            Process::Seq(first, second) => {
                !first.is_nil() && self.enabled(first) && resting(second, false)
            }
            Process::Par(left, right) => {
                !left.is_nil() && !right.is_nil() && self.enabled(left) && self.enabled(right)
            }
            Process::Scope(scope, body) => enabled_scope(scope) && self.enabled(body),
            Process::Executor(executor, body) => {
                self.end(executor.serial, executor.client) && self.enabled(body)
            }
            Process::Waiter(waiter) => {
                self.end(waiter.serial, waiter.server)
                    && waiter.x.are_distinct()
                    && entries(&waiter.list, true)
            }
            Process::Notice(notice) => self.end(notice.serial, notice.client),
            other => resting(other, false),
        }
    }

    fn end(&self, serial: u16, engine: u8) -> bool {
        1 <= serial && serial <= self.issued && usize::from(engine) < self.engines
    }
}

fn enabled_scope(scope: &Scope) -> bool {
    let mark = match scope.mark {
        Mark::None => true,
        Mark::Fault(fault) => scope.list.contains_key(&Key::Fault(fault)),
        Mark::OwnName => scope.zombie,
    };
    let no_nil = scope.list.iter().all(|(key, process)| match key {
        Key::Fault(_) => true,
        Key::Scope(_) => !process.is_nil(),
    });
    mark && no_nil && entries(&scope.list, false)
}

fn entries(list: &List, handler: bool) -> bool {
    list.values().all(|process| resting(process, handler))
}

/// Code that is not enabled, or an enabled process that holds no enabled one. `handler` tells
/// whether it stands, at any depth, inside a list entry of kind 10, 12 or 17, where cH may.
fn resting(process: &Process, handler: bool) -> bool {
    match process {
        Process::Nil
        | Process::Assign(..)
        | Process::Notify { .. }
        | Process::Throw(_)
        | Process::Comp(_) => true,
        Process::Seq(first, second) => {
            !first.is_nil() && resting(first, handler) && resting(second, handler)
        }
        Process::Par(left, right) => {
            !left.is_nil() && !right.is_nil() && resting(left, handler) && resting(right, handler)
        }
        Process::If(_, yes, no) => resting(yes, handler) && resting(no, handler),
        Process::While(_, body) => resting(body, handler),
        Process::OneWay { x, .. } => x.are_distinct(),
        Process::Request { x, body, .. } => x.are_distinct() && resting(body, handler),
        Process::Choice(branches) => branches
            .iter()
            .all(|branch| resting(&branch.receiver, handler) && resting(&branch.then, handler)),
        Process::Solicit { x, list, .. } => x.are_distinct() && entries(list, true),
        Process::Inst(list) => entries(list, true),
        Process::Scope(scope, body) => scope.is_untouched() && resting(body, handler),
        Process::CurrentHandler => handler,
        Process::Executor(..) | Process::Waiter(_) | Process::Notice(_) => false,
    }
}
