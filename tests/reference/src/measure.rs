//! Size in words and depth of processes, lists and expressions.

use crate::expression::Expression;
use crate::process::{Executor, List, Process};

pub fn size(process: &Process) -> usize {
    match process {
        Process::Nil | Process::Throw(_) | Process::Comp(_) | Process::CurrentHandler => 1,
        Process::Assign(_, expression) => 1 + expression_size(expression),
        Process::Seq(first, second) => 1 + size(first) + size(second),
        Process::Par(left, right) => 1 + size(left) + size(right),
        Process::If(condition, yes, no) => 1 + expression_size(condition) + size(yes) + size(no),
        Process::While(condition, body) => 1 + expression_size(condition) + size(body),
        Process::Choice(branches) => {
            1 + branches.iter().map(|b| size(&b.receiver) + size(&b.then)).sum::<usize>()
        }
        Process::OneWay { x, .. } => 1 + x.words(),
        Process::Request { x, y, body, .. } => 2 + x.words() + y.words() + size(body),
        Process::Notify { y, .. } => 2 + y.words(),
        Process::Solicit { y, x, list, .. } => 2 + y.words() + x.words() + list_size(list),
        Process::Scope(scope, body) => 2 + list_size(&scope.list) + size(body),
        Process::Inst(list) => 1 + list_size(list),
        Process::Executor(executor, body) => executor_size(executor) + size(body),
        Process::Waiter(waiter) => 3 + waiter.x.words() + list_size(&waiter.list),
        Process::Notice(_) => 3,
    }
}

/// The words of an executor that stand before its body.
pub fn executor_size(executor: &Executor) -> usize {
    3 + executor.y.words()
}

pub fn list_size(list: &List) -> usize {
    1 + list.values().map(|process| 1 + size(process)).sum::<usize>()
}

pub fn expression_size(expression: &Expression) -> usize {
    match expression {
        Expression::Constant(_) => 3,
        Expression::Variable(_) => 1,
        Expression::Binary(_, left, right) => 1 + expression_size(left) + expression_size(right),
    }
}

/// Depth counted from this process as 1; whatever stands directly in it is one more.
pub fn depth(process: &Process) -> usize {
    1 + match process {
        Process::Nil
        | Process::OneWay { .. }
        | Process::Notify { .. }
        | Process::Throw(_)
        | Process::Comp(_)
        | Process::CurrentHandler
        | Process::Notice(_) => 0,
        Process::Assign(_, expression) => expression_depth(expression),
        Process::Seq(first, second) => depth(first).max(depth(second)),
        Process::Par(left, right) => depth(left).max(depth(right)),
        Process::If(condition, yes, no) => {
            expression_depth(condition).max(depth(yes)).max(depth(no))
        }
        Process::While(condition, body) => expression_depth(condition).max(depth(body)),
        Process::Choice(branches) => {
            let each = branches.iter().map(|b| depth(&b.receiver).max(depth(&b.then)));
            each.max().unwrap_or(0)
        }
        Process::Request { body, .. } | Process::Executor(_, body) => depth(body),
        Process::Solicit { list, .. } | Process::Inst(list) => list_depth(list),
        Process::Waiter(waiter) => list_depth(&waiter.list),
        Process::Scope(scope, body) => list_depth(&scope.list).max(depth(body)),
    }
}

/// A list adds no level of its own.
fn list_depth(list: &List) -> usize {
    list.values().map(|process| depth(process)).max().unwrap_or(0)
}

fn expression_depth(expression: &Expression) -> usize {
    1 + match expression {
        Expression::Constant(_) | Expression::Variable(_) => 0,
        Expression::Binary(_, left, right) => expression_depth(left).max(expression_depth(right)),
    }
}
