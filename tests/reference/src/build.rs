//! Short constructors for trees, for tests and generators. They build what they are told, also
//! what is not readable: nothing is dropped. Variables of a message are one, or an array of them.

use crate::configuration::{Configuration, Engine};
use crate::expression::{Expression, Operator};
use crate::process::{Branch, Executor, Key, List, Mark, Notice, Part, Process, Scope, Waiter};
use crate::variables::Variables;
use std::rc::Rc;

pub use crate::process::nil;

pub fn constant(value: u32) -> Rc<Expression> {
    Rc::new(Expression::Constant(value))
}

pub fn variable(variable: u8) -> Rc<Expression> {
    Rc::new(Expression::Variable(variable))
}

pub fn binary(operator: Operator, left: Rc<Expression>, right: Rc<Expression>) -> Rc<Expression> {
    Rc::new(Expression::Binary(operator, left, right))
}

pub fn assign(x: u8, expression: Rc<Expression>) -> Part {
    Rc::new(Process::Assign(x, expression))
}

pub fn seq(first: Part, second: Part) -> Part {
    Rc::new(Process::Seq(first, second))
}

pub fn par(left: Part, right: Part) -> Part {
    Rc::new(Process::Par(left, right))
}

pub fn if_else(condition: Rc<Expression>, yes: Part, no: Part) -> Part {
    Rc::new(Process::If(condition, yes, no))
}

pub fn while_true(condition: Rc<Expression>, body: Part) -> Part {
    Rc::new(Process::While(condition, body))
}

/// Branches as pairs of a receiver and what follows it.
pub fn choice(branches: Vec<(Part, Part)>) -> Part {
    let branches = branches.into_iter().map(|(receiver, then)| Branch { receiver, then });
    Rc::new(Process::Choice(branches.collect()))
}

pub fn one_way(operation: u8, x: impl Into<Variables>) -> Part {
    Rc::new(Process::OneWay { operation, x: x.into() })
}

pub fn request(
    operation: u8,
    x: impl Into<Variables>,
    y: impl Into<Variables>,
    body: Part,
) -> Part {
    Rc::new(Process::Request { operation, x: x.into(), y: y.into(), body })
}

pub fn notify(operation: u8, y: impl Into<Variables>, z: u8) -> Part {
    Rc::new(Process::Notify { operation, y: y.into(), z })
}

pub fn solicit(
    operation: u8,
    y: impl Into<Variables>,
    z: u8,
    x: impl Into<Variables>,
    list: List,
) -> Part {
    Rc::new(Process::Solicit { operation, y: y.into(), z, x: x.into(), list })
}

pub fn scope(name: u8, body: Part) -> Part {
    Rc::new(Process::Scope(Scope::new(name), body))
}

pub fn scope_with(name: u8, mark: Mark, zombie: bool, list: List, body: Part) -> Part {
    Rc::new(Process::Scope(Scope { name, mark, zombie, list }, body))
}

pub fn inst(list: List) -> Part {
    Rc::new(Process::Inst(list))
}

pub fn throw(fault: u8) -> Part {
    Rc::new(Process::Throw(fault))
}

pub fn comp(name: u8) -> Part {
    Rc::new(Process::Comp(name))
}

/// cH.
pub fn current_handler() -> Part {
    Rc::new(Process::CurrentHandler)
}

pub fn executor(
    operation: u8,
    y: impl Into<Variables>,
    client: u8,
    serial: u16,
    body: Part,
) -> Part {
    Rc::new(Process::Executor(Executor { operation, y: y.into(), client, serial }, body))
}

pub fn waiter(
    operation: u8,
    x: impl Into<Variables>,
    dead: bool,
    server: u8,
    serial: u16,
    list: List,
) -> Part {
    Rc::new(Process::Waiter(Waiter { operation, x: x.into(), dead, server, serial, list }))
}

pub fn notice(operation: u8, fault: u8, client: u8, serial: u16) -> Part {
    Rc::new(Process::Notice(Notice { operation, fault, client, serial }))
}

pub fn list<const COUNT: usize>(entries: [(Key, Part); COUNT]) -> List {
    List::from(entries)
}

/// Engines with these processes and every value 0.
pub fn configuration(issued: u16, processes: Vec<Part>) -> Configuration {
    let engines = processes.into_iter().map(|process| Engine { values: [0; 32], process });
    Configuration { issued, engines: engines.collect() }
}
