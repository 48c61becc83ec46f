//! From trees to words. Writes any tree, also one that is not readable, so that tests can
//! build damaged configurations with it.

use crate::configuration::Configuration;
use crate::expression::{Expression, Operator};
use crate::fields::Packed;
use crate::process::{Key, List, Mark, Process, Scope};
use crate::variables::Variables;

pub fn configuration(configuration: &Configuration) -> Vec<u16> {
    let mut words = vec![configuration.engines.len() as u16, configuration.issued];
    for engine in &configuration.engines {
        for value in engine.values {
            put_value(&mut words, value);
        }
        put_process(&mut words, &engine.process);
    }
    words
}

pub fn process(process: &Process) -> Vec<u16> {
    let mut words = Vec::new();
    put_process(&mut words, process);
    words
}

/// The word of a list entry's key.
pub fn key(key: Key) -> u16 {
    let (bit, name) = match key {
        Key::Fault(name) => (0, name),
        Key::Scope(name) => (1, name),
    };
    Packed::new().put(bit, 1).put(u16::from(name), 6).word()
}

fn put_value(words: &mut Vec<u16>, value: u32) {
    words.push((value >> 16) as u16);
    words.push(value as u16);
}

fn head(kind: u8) -> Packed {
    Packed::new().put(u16::from(kind), 5)
}

/// A head with an operation and the first of some variables.
fn head_with(kind: u8, operation: u8, variables: &Variables) -> u16 {
    head(kind).put(u16::from(operation), 6).put(u16::from(variables.first()), 5).word()
}

fn named(kind: u8, name: u8) -> u16 {
    head(kind).put(u16::from(name), 6).word()
}

fn variable(variable: u8) -> u16 {
    Packed::new().put(u16::from(variable), 5).word()
}

/// The count of the variables, and a word for each but the first.
fn put_variables(words: &mut Vec<u16>, variables: &Variables) {
    words.push(variables.count() as u16);
    words.extend(variables.further().iter().map(|each| variable(*each)));
}

fn put_process(words: &mut Vec<u16>, process: &Process) {
    let kind = process.kind();
    match process {
        Process::Nil | Process::CurrentHandler => words.push(head(kind).word()),
        Process::Assign(x, expression) => {
            words.push(head(kind).put(u16::from(*x), 5).word());
            put_expression(words, expression);
        }
        Process::Seq(one, two) | Process::Par(one, two) => {
            words.push(head(kind).word());
            put_process(words, one);
            put_process(words, two);
        }
        Process::If(condition, yes, no) => {
            words.push(head(kind).word());
            put_expression(words, condition);
            put_process(words, yes);
            put_process(words, no);
        }
        Process::While(condition, body) => {
            words.push(head(kind).word());
            put_expression(words, condition);
            put_process(words, body);
        }
        Process::Choice(branches) => {
            words.push(head(kind).put(branches.len() as u16, 11).word());
            for branch in branches {
                put_process(words, &branch.receiver);
                put_process(words, &branch.then);
            }
        }
        Process::OneWay { operation, x } => {
            words.push(head_with(kind, *operation, x));
            put_variables(words, x);
        }
        Process::Request { operation, x, y, body } => {
            words.push(head_with(kind, *operation, x));
            words.push(variable(y.first()));
            put_variables(words, x);
            put_variables(words, y);
            put_process(words, body);
        }
        Process::Notify { operation, y, z } => {
            words.push(head_with(kind, *operation, y));
            words.push(variable(*z));
            put_variables(words, y);
        }
        Process::Solicit { operation, y, z, x, list } => {
            words.push(head_with(kind, *operation, y));
            words.push(Packed::new().put(u16::from(*z), 5).put(u16::from(x.first()), 5).word());
            put_variables(words, y);
            put_variables(words, x);
            put_list(words, list);
        }
        Process::Scope(scope, body) => {
            put_scope(words, scope);
            put_process(words, body);
        }
        Process::Inst(list) => {
            words.push(head(kind).word());
            put_list(words, list);
        }
        Process::Throw(name) | Process::Comp(name) => words.push(named(kind, *name)),
        Process::Executor(executor, body) => {
            words.push(head_with(kind, executor.operation, &executor.y));
            words.push(Packed::new().put(u16::from(executor.client), 3).word());
            words.push(executor.serial);
            put_variables(words, &executor.y);
            put_process(words, body);
        }
        Process::Waiter(waiter) => {
            words.push(head_with(kind, waiter.operation, &waiter.x));
            let dead = u16::from(waiter.dead);
            words.push(Packed::new().put(dead, 1).put(u16::from(waiter.server), 3).word());
            words.push(waiter.serial);
            put_variables(words, &waiter.x);
            put_list(words, &waiter.list);
        }
        Process::Notice(notice) => {
            words.push(named(kind, notice.operation));
            let (fault, client) = (u16::from(notice.fault), u16::from(notice.client));
            words.push(Packed::new().put(fault, 6).put(client, 3).word());
            words.push(notice.serial);
        }
    }
}

fn put_scope(words: &mut Vec<u16>, scope: &Scope) {
    let (mark, fault) = match scope.mark {
        Mark::None => (0, 0),
        Mark::Fault(fault) => (1, fault),
        Mark::OwnName => (2, 0),
    };
    let name = u16::from(scope.name);
    let zombie = u16::from(scope.zombie);
    words.push(head(11).put(name, 6).put(mark, 2).put(zombie, 1).word());
    words.push(Packed::new().put(u16::from(fault), 6).word());
    put_list(words, &scope.list);
}

fn put_list(words: &mut Vec<u16>, list: &List) {
    words.push(list.len() as u16);
    for (name, process) in list {
        words.push(key(*name));
        put_process(words, process);
    }
}

fn put_expression(words: &mut Vec<u16>, expression: &Expression) {
    match expression {
        Expression::Constant(value) => {
            words.push(Packed::new().put(0, 3).word());
            put_value(words, *value);
        }
        Expression::Variable(x) => {
            words.push(Packed::new().put(1, 3).put(u16::from(*x), 5).word());
        }
        Expression::Binary(operator, left, right) => {
            let code = match operator {
                Operator::Sum => 2,
                Operator::Difference => 3,
                Operator::Less => 4,
                Operator::Equal => 5,
                Operator::DecimalSum => 6,
                Operator::DecimalDifference => 7,
            };
            words.push(Packed::new().put(code, 3).word());
            put_expression(words, left);
            put_expression(words, right);
        }
    }
}
