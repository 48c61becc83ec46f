//! Fresh starts whose runs grow until a result is too deep or too long: a loop installs a
//! handler that holds the old one.

use crate::build;
use crate::configuration::{Configuration, Engine};
use crate::generate::code::values;
use crate::generate::random::Random;
use crate::process::{Key, Part};

/// Each round adds a level or two.
pub fn deepening(random: &mut Random) -> Configuration {
    let around = surround(random, build::current_handler());
    growing(random, around)
}

/// Each round doubles the handler.
pub fn lengthening(random: &mut Random) -> Configuration {
    let old = build::current_handler;
    let around = match random.below(4) {
        0 => build::par(old(), old()),
        1 => build::seq(old(), old()),
        2 => build::if_else(build::constant(0), old(), old()),
        _ => build::choice(vec![(build::one_way(1, 2), old()), (build::one_way(2, 3), old())]),
    };
    growing(random, around)
}

fn surround(random: &mut Random, inner: Part) -> Part {
    match random.below(9) {
        0 => build::seq(build::throw(1), inner),
        1 => build::seq(inner, build::comp(1)),
        2 => build::par(build::throw(1), inner),
        3 => build::par(inner, build::throw(1)),
        4 => build::if_else(build::constant(1), inner, build::nil()),
        5 => build::while_true(build::variable(1), inner),
        6 => build::choice(vec![(build::request(1, 2, 3, inner), build::nil())]),
        7 => build::request(1, 2, 3, inner),
        _ => build::scope(1, inner),
    }
}

/// One engine that installs `around` for a key again and again.
fn growing(random: &mut Random, around: Part) -> Configuration {
    let key = if random.percent(50) { Key::Fault(2) } else { Key::Scope(2) };
    let first = build::inst(build::list([(key, build::assign(1, build::variable(2)))]));
    let again = build::inst(build::list([(key, around)]));
    let body = build::seq(first, build::while_true(build::constant(1), again));
    let process = build::scope(random.small(64), body);
    Configuration { issued: 0, engines: vec![Engine { values: values(random), process }] }
}
