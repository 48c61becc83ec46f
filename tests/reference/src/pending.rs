//! The look before a throw (document 02, b): the enabled processes of a side in word order, up to
//! the first that can't be killed.

use crate::context::enabled;
use crate::process::{Part, Process};

/// Whether there is one, and how many enabled processes there are up to and including it, all if
/// there is none.
#[derive(Clone, Copy, Debug, Default, PartialEq, Eq)]
pub struct Search {
    pub found: bool,
    pub count: usize,
}

/// An inst, or a live scope with nil body.
pub fn is_pending(process: &Process) -> bool {
    match process {
        Process::Inst(_) => true,
        Process::Scope(scope, body) => !scope.zombie && body.is_nil(),
        _ => false,
    }
}

/// The side itself is the first of its enabled processes.
pub fn search(side: &Part) -> Search {
    let processes = enabled(side);
    match processes.iter().position(|(_, process)| is_pending(process)) {
        Some(before) => Search { found: true, count: before + 1 },
        None => Search { found: false, count: processes.len() },
    }
}
