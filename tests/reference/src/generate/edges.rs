//! Configurations at the edges: of depth, of length, of serials, and of a step's result.

use crate::build;
use crate::configuration::Configuration;
use crate::expression::Operator;
use crate::process::{Key, Mark, Part};
use crate::write;

/// Ways to nest a process or an expression in a process of code.
#[derive(Clone, Copy, Debug, PartialEq, Eq)]
pub enum Way {
    SeqFirst,
    SeqSecond,
    ParLeft,
    ParRight,
    IfYes,
    IfNo,
    While,
    BranchThen,
    /// The P of a request in a branch: two levels at once.
    BranchRequest,
    Request,
    Scope,
    InstEntry,
    SolicitEntry,
    LeftOperand,
    RightOperand,
}

pub const WAYS: &[Way] = &[
    Way::SeqFirst,
    Way::SeqSecond,
    Way::ParLeft,
    Way::ParRight,
    Way::IfYes,
    Way::IfNo,
    Way::While,
    Way::BranchThen,
    Way::BranchRequest,
    Way::Request,
    Way::Scope,
    Way::InstEntry,
    Way::SolicitEntry,
    Way::LeftOperand,
    Way::RightOperand,
];

/// Code of exactly this depth (at least 1), nested in the way as far as that goes.
pub fn nest(way: Way, depth: usize) -> Part {
    match (way, depth) {
        (_, 0 | 1) => build::throw(1),
        (Way::LeftOperand | Way::RightOperand, _) => operands(way, depth - 1),
        (Way::BranchRequest, 2) => nest(Way::BranchThen, 2),
        (Way::BranchRequest, _) => around(way, nest(way, depth - 2)),
        _ => around(way, nest(way, depth - 1)),
    }
}

/// The process with one more nested around it; two more by `BranchRequest`.
pub fn around(way: Way, inner: Part) -> Part {
    let condition = || build::variable(1);
    let nil = build::nil;
    match way {
        Way::SeqFirst => build::seq(inner, nil()),
        Way::SeqSecond => build::seq(build::comp(1), inner),
        Way::ParLeft => build::par(inner, build::comp(1)),
        Way::ParRight => build::par(build::comp(1), inner),
        Way::IfYes => build::if_else(condition(), inner, nil()),
        Way::IfNo => build::if_else(condition(), nil(), inner),
        Way::While => build::while_true(condition(), inner),
        Way::BranchThen => build::choice(vec![(build::one_way(1, 1), inner)]),
        Way::BranchRequest => build::choice(vec![(build::request(1, 1, 1, inner), nil())]),
        Way::Request => build::request(1, 1, 1, inner),
        Way::Scope => build::scope(1, inner),
        Way::SolicitEntry => build::solicit(1, 1, 1, 1, build::list([(Key::Scope(1), inner)])),
        Way::InstEntry | Way::LeftOperand | Way::RightOperand => {
            build::inst(build::list([(Key::Fault(1), inner)]))
        }
    }
}

/// An assign whose expression has this depth.
fn operands(way: Way, depth: usize) -> Part {
    let mut expression = build::variable(1);
    for _ in 1..depth {
        let other = build::constant(1);
        expression = match way {
            Way::LeftOperand => build::binary(Operator::Sum, expression, other),
            _ => build::binary(Operator::Less, other, expression),
        };
    }
    build::assign(1, expression)
}

/// A fresh configuration of exactly this depth (at least 2).
pub fn deep(way: Way, depth: usize) -> Configuration {
    build::configuration(0, vec![build::scope(1, nest(way, depth - 1))])
}

/// A fresh configuration of exactly this depth (at least 3), with a comp at position 4 of engine 0.
pub fn acting_deep(way: Way, depth: usize) -> Configuration {
    let both = build::par(build::comp(1), nest(way, depth - 2));
    build::configuration(0, vec![build::scope(1, both)])
}

/// Flat code of exactly this many words; None for 0.
pub fn filler(words: usize) -> Option<Part> {
    match words {
        0 => None,
        1 => Some(build::comp(1)),
        2 => Some(build::one_way(1, 1)),
        _ => {
            let left = (words - 1) / 2;
            Some(build::par(filler(left)?, filler(words - 1 - left)?))
        }
    }
}

/// A fresh configuration of exactly this many words; at least 70.
pub fn long(words: usize) -> Option<Configuration> {
    let body = filler(words.checked_sub(2 + 64 + 3)?)?;
    Some(build::configuration(0, vec![build::scope(1, body)]))
}

/// The process, or something that is not nil.
pub fn solid(process: &Part) -> Part {
    match process.is_nil() {
        true => build::comp(1),
        false => process.clone(),
    }
}

/// A readable configuration in which engine 0 may solicit engine 1, with this many issued.
pub fn serials(issued: u16) -> Configuration {
    let asks = build::solicit(1, 2, 3, 4, build::list([]));
    let serves = build::request(1, 5, 6, build::nil());
    let processes = vec![build::scope(1, asks), build::scope(2, serves)];
    let mut configuration = build::configuration(issued, processes);
    configuration.engines[0].values[3] = 1;
    configuration
}

/// A fresh configuration whose while, at position 3 of engine 0, gives a result of exactly
/// this depth (at least 5), one more than its own.
pub fn result_deep(way: Way, depth: usize) -> Configuration {
    let body = build::while_true(build::constant(1), nest(way, depth - 3));
    build::configuration(0, vec![build::scope(1, body)])
}

/// A fresh configuration whose while, at position 4 of engine 0, gives a result of exactly
/// this many words, two more than its own.
pub fn result_long(words: usize) -> Option<Configuration> {
    let repeats = build::while_true(build::constant(1), build::comp(1));
    // n, issued, values; scope 3, par 1, while 5; the step adds 2.
    let rest = filler(words.checked_sub(2 + 64 + 3 + 1 + 5 + 2)?)?;
    Some(build::configuration(0, vec![build::scope(1, build::par(repeats, rest))]))
}

/// So many cH side by side, a power of two.
fn current(count: usize) -> Part {
    match count {
        1 => build::current_handler(),
        _ => build::par(current(count / 2), current(count / 2)),
    }
}

/// A readable configuration of exactly this many words whose first step, an inst, gives a result of
/// exactly so many; None where it has no room for what that takes.
pub fn installing(words: usize, result: usize) -> Option<Configuration> {
    // The new handlers have cH eight times and twice, so the step adds the first old one seven times and
    // the second once, and 8 pars; the inst, 22 words, becomes nil, a word.
    let added = (result + 13).checked_sub(words)?;
    let (first, second) = ((added - 1) / 7, (added - 1) % 7 + 1);
    let list = |one, two| build::list([(Key::Fault(1), one), (Key::Fault(2), two)]);
    let old = list(filler(first)?, filler(second)?);
    let installs = build::inst(list(current(8), current(2)));
    let inner = build::scope_with(1, Mark::None, false, old, installs);
    // n, issued, values; scope 3, par 1.
    let rest = words.checked_sub(2 + 64 + 3 + 1 + write::process(&inner).len())?;
    Some(build::configuration(0, vec![build::scope(1, build::par(inner, filler(rest)?))]))
}
