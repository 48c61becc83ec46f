//! Expressions over an engine's 32 values, and their evaluation.

use std::rc::Rc;

/// An engine's values, one for each variable.
pub type Values = [u32; 32];

#[derive(Clone, Copy, Debug, PartialEq, Eq)]
pub enum Operator {
    Sum,
    Difference,
    Less,
    Equal,
    DecimalSum,
    DecimalDifference,
}

#[derive(Clone, Debug, PartialEq, Eq)]
pub enum Expression {
    Constant(u32),
    Variable(u8),
    Binary(Operator, Rc<Expression>, Rc<Expression>),
}

impl Operator {
    /// Sum and difference count round; less compares with sign, in two's complement (document 02, a); decimal sum and
    /// difference are of eight packed digits, modulo 100,000,000, and nothing if a digit is above 9 (document 02, d).
    pub fn apply(self, left: u32, right: u32) -> Option<u32> {
        Some(match self {
            Operator::Sum => left.wrapping_add(right),
            Operator::Difference => left.wrapping_sub(right),
            Operator::Less => u32::from((left as i32) < (right as i32)),
            Operator::Equal => u32::from(left == right),
            Operator::DecimalSum => packed(number(left)? + number(right)?),
            Operator::DecimalDifference => packed(number(left)? - number(right)?),
        })
    }
}

/// Packed digits are what a value's hexadecimal digits say in decimal.
fn number(value: u32) -> Option<i64> {
    format!("{value:x}").parse().ok()
}

fn packed(number: i64) -> u32 {
    let decimal = number.rem_euclid(100_000_000).to_string();
    u32::from_str_radix(&decimal, 16).unwrap_or(0)
}

impl Expression {
    /// Its value; nothing if a decimal operator anywhere in it has an operand that is not decimal.
    pub fn evaluate(&self, values: &Values) -> Option<u32> {
        match self {
            Expression::Constant(value) => Some(*value),
            Expression::Variable(variable) => Some(value(values, *variable)),
            Expression::Binary(operator, left, right) => {
                operator.apply(left.evaluate(values)?, right.evaluate(values)?)
            }
        }
    }

    pub fn is_true(&self, values: &Values) -> Option<bool> {
        self.evaluate(values).map(|value| value != 0)
    }
}

/// A variable has 5 bits; the mask only keeps a hand-built tree from panicking.
pub fn value(values: &Values, variable: u8) -> u32 {
    values[usize::from(variable & 31)]
}

pub fn assign(values: &mut Values, variable: u8, value: u32) {
    values[usize::from(variable & 31)] = value;
}
