//! What each word of a configuration is, and which of its bits are unused.

use crate::configuration::Configuration;
use crate::expression::{Expression, Operator};
use crate::process::{List, Mark, Process};
use crate::variables::Variables;

#[derive(Clone, Copy, Debug, PartialEq, Eq)]
pub enum Role {
    Engines,
    Issued,
    Value,
    Head {
        kind: u8,
    },
    /// The word of further fields after a head; for a scope with whether its mark is 1.
    Fields {
        kind: u8,
        marked: bool,
    },
    Serial,
    /// The count of a message's variables, and a variable behind it.
    Variables,
    Variable,
    Count,
    /// A key, with the place of its list's count word.
    Key {
        list: usize,
    },
    /// An expression's first word, with its top three bits.
    Expression {
        code: u8,
    },
    Constant,
}

impl Role {
    /// How many bits, from the most significant one, the word uses.
    pub fn used_bits(self) -> u32 {
        match self {
            Role::Head { kind } => match kind {
                1 => 10,
                6..=10 | 16 | 17 => 16,
                11 => 14,
                13 | 14 | 18 => 11,
                _ => 5,
            },
            Role::Fields { kind, .. } => match kind {
                8 | 9 => 5,
                10 => 10,
                11 => 6,
                16 => 3,
                17 => 4,
                _ => 9,
            },
            Role::Variable => 5,
            Role::Key { .. } => 7,
            Role::Expression { code } => match code {
                1 => 8,
                _ => 3,
            },
            _ => 16,
        }
    }

    pub fn unused_bits(self) -> u32 {
        16 - self.used_bits()
    }
}

/// The roles of a configuration's words, one for each.
pub fn roles(configuration: &Configuration) -> Vec<Role> {
    let mut roles = vec![Role::Engines, Role::Issued];
    for engine in &configuration.engines {
        roles.extend([Role::Value; 64]);
        of_process(&mut roles, &engine.process);
    }
    roles
}

fn of_process(roles: &mut Vec<Role>, process: &Process) {
    let kind = process.kind();
    roles.push(Role::Head { kind });
    let fields = Role::Fields { kind, marked: false };
    match process {
        Process::Nil | Process::Throw(_) | Process::Comp(_) | Process::CurrentHandler => {}
        Process::OneWay { x, .. } => of_variables(roles, x),
        Process::Assign(_, expression) => of_expression(roles, expression),
        Process::Seq(one, two) | Process::Par(one, two) => {
            of_process(roles, one);
            of_process(roles, two);
        }
        Process::If(condition, yes, no) => {
            of_expression(roles, condition);
            of_process(roles, yes);
            of_process(roles, no);
        }
        Process::While(condition, body) => {
            of_expression(roles, condition);
            of_process(roles, body);
        }
        Process::Choice(branches) => {
            for branch in branches {
                of_process(roles, &branch.receiver);
                of_process(roles, &branch.then);
            }
        }
        Process::Request { x, y, body, .. } => {
            roles.push(fields);
            of_variables(roles, x);
            of_variables(roles, y);
            of_process(roles, body);
        }
        Process::Notify { y, .. } => {
            roles.push(fields);
            of_variables(roles, y);
        }
        Process::Solicit { y, x, list, .. } => {
            roles.push(fields);
            of_variables(roles, y);
            of_variables(roles, x);
            of_list(roles, list);
        }
        Process::Scope(scope, body) => {
            let marked = matches!(scope.mark, Mark::Fault(_));
            roles.push(Role::Fields { kind, marked });
            of_list(roles, &scope.list);
            of_process(roles, body);
        }
        Process::Inst(list) => of_list(roles, list),
        Process::Executor(executor, body) => {
            roles.extend([fields, Role::Serial]);
            of_variables(roles, &executor.y);
            of_process(roles, body);
        }
        Process::Waiter(waiter) => {
            roles.extend([fields, Role::Serial]);
            of_variables(roles, &waiter.x);
            of_list(roles, &waiter.list);
        }
        Process::Notice(_) => roles.extend([fields, Role::Serial]),
    }
}

fn of_variables(roles: &mut Vec<Role>, variables: &Variables) {
    roles.push(Role::Variables);
    roles.extend(variables.further().iter().map(|_| Role::Variable));
}

fn of_list(roles: &mut Vec<Role>, list: &List) {
    let count = roles.len();
    roles.push(Role::Count);
    for process in list.values() {
        roles.push(Role::Key { list: count });
        of_process(roles, process);
    }
}

fn of_expression(roles: &mut Vec<Role>, expression: &Expression) {
    match expression {
        Expression::Constant(_) => {
            roles.extend([Role::Expression { code: 0 }, Role::Constant, Role::Constant]);
        }
        Expression::Variable(_) => roles.push(Role::Expression { code: 1 }),
        Expression::Binary(operator, left, right) => {
            let code = match operator {
                Operator::Sum => 2,
                Operator::Difference => 3,
                Operator::Less => 4,
                Operator::Equal => 5,
                Operator::DecimalSum => 6,
                Operator::DecimalDifference => 7,
            };
            roles.push(Role::Expression { code });
            of_expression(roles, left);
            of_expression(roles, right);
        }
    }
}
