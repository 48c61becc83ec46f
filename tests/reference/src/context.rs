//! Enabled processes: where they stand, and the frames around one of them.

use crate::measure;
use crate::process::{par, seq, Executor, Part, Process, Scope};
use std::rc::Rc;

/// One level between a root and an enabled process.
#[derive(Clone, Debug)]
pub enum Frame {
    /// The process is the first of a seq; this is the second.
    SeqFirst(Part),
    /// The process is the left side of a par; this is the right one.
    ParLeft(Part),
    /// The process is the right side of a par; this is the left one.
    ParRight(Part),
    ScopeBody(Scope),
    ExecutorBody(Executor),
}

/// An enabled process with the frames around it, outermost first.
#[derive(Clone, Debug)]
pub struct Place {
    pub frames: Vec<Frame>,
    pub process: Part,
}

/// The enabled process whose head is `position` words from the root's start.
pub fn locate(root: &Part, position: usize) -> Option<Place> {
    let mut frames = Vec::new();
    let process = descend(root, 0, position, &mut frames)?;
    Some(Place { frames, process })
}

fn descend(at: &Part, here: usize, wanted: usize, frames: &mut Vec<Frame>) -> Option<Part> {
    if here == wanted {
        return Some(at.clone());
    }
    let (frame, inner, start) = match &**at {
        Process::Seq(first, second) => (Frame::SeqFirst(second.clone()), first, here + 1),
        Process::Par(left, right) => {
            let middle = here + 1 + measure::size(left);
            if wanted < middle {
                (Frame::ParLeft(right.clone()), left, here + 1)
            } else {
                (Frame::ParRight(left.clone()), right, middle)
            }
        }
        Process::Scope(scope, body) => {
            let start = here + 2 + measure::list_size(&scope.list);
            (Frame::ScopeBody(scope.clone()), body, start)
        }
        Process::Executor(executor, body) => {
            let start = here + measure::executor_size(executor);
            (Frame::ExecutorBody(executor.clone()), body, start)
        }
        _ => return None,
    };
    frames.push(frame);
    descend(inner, start, wanted, frames)
}

/// Every enabled process with its position, in word order.
pub fn enabled(root: &Part) -> Vec<(usize, Part)> {
    let mut found = Vec::new();
    collect(root, 0, &mut found);
    found
}

fn collect(process: &Part, here: usize, found: &mut Vec<(usize, Part)>) {
    found.push((here, process.clone()));
    match &**process {
        Process::Seq(first, _) => collect(first, here + 1, found),
        Process::Par(left, right) => {
            collect(left, here + 1, found);
            collect(right, here + 1 + measure::size(left), found);
        }
        Process::Scope(scope, body) => {
            collect(body, here + 2 + measure::list_size(&scope.list), found);
        }
        Process::Executor(executor, body) => {
            collect(body, here + measure::executor_size(executor), found);
        }
        _ => {}
    }
}

impl Frame {
    /// The frame's process with the given one in it, rebuilt.
    pub fn around(self, process: Part) -> Part {
        match self {
            Frame::SeqFirst(second) => seq(process, second),
            Frame::ParLeft(right) => par(process, right),
            Frame::ParRight(left) => par(left, process),
            Frame::ScopeBody(scope) => Rc::new(Process::Scope(scope, process)),
            Frame::ExecutorBody(executor) => Rc::new(Process::Executor(executor, process)),
        }
    }
}

/// The root with the given process in the frames' middle, rebuilt on the way up.
pub fn plug(frames: Vec<Frame>, process: Part) -> Part {
    frames.into_iter().rev().fold(process, |inner, frame| frame.around(inner))
}

/// The innermost enclosing scope, live or zombie, also through executors.
pub fn nearest(frames: &mut [Frame]) -> Option<&mut Scope> {
    frames.iter_mut().rev().find_map(|frame| match frame {
        Frame::ScopeBody(scope) => Some(scope),
        _ => None,
    })
}
