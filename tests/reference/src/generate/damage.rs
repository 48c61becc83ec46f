//! Damaged configurations: at random, and one for each condition of readable.

use crate::build;
use crate::configuration::Configuration;
use crate::generate::edges;
use crate::generate::random::Random;
use crate::generate::replace::{one, Slot, Surroundings};
use crate::generate::roles::{roles, Role};
use crate::limits::STANDARD;
use crate::measure;
use crate::process::{Key, List, Mark, Part, Process};
use crate::variables::MOST;
use crate::write;
use std::rc::Rc;

/// One to three random changes of the words. The result may still be readable.
pub fn random_damage(random: &mut Random, words: &[u16]) -> Vec<u16> {
    let mut words = words.to_vec();
    for _ in 0..random.between(1, 3) {
        hit(random, &mut words);
    }
    words
}

fn hit(random: &mut Random, words: &mut Vec<u16>) {
    let length = words.len();
    let at = some_index(random, length);
    let other = some_index(random, length);
    if length == 0 {
        words.push(random.word());
        return;
    }
    match random.below(12) {
        0..=2 => words[at] ^= 1 << random.below(16),
        3 => words[at] = random.word(),
        4 => words[at] = words[other],
        5 => words.insert(at, random.word()),
        6 => words.insert(at, random.below(2) as u16),
        7 => drop(words.remove(at)),
        8 => words.swap(at, other),
        9 if random.percent(30) => words.truncate(at),
        // Counts of variables, if one stands there.
        10 => words[at] = random.below(6) as u16,
        _ => words[at] = (random.below(20) as u16) << 11 | (words[at] & 0x07FF),
    }
}

/// An index, seldom among the words of values, where nothing can be damaged.
fn some_index(random: &mut Random, length: usize) -> usize {
    match random.below(10) {
        0 => random.below(length.min(3)),
        1 => random.below(length),
        _ => (66 + random.below(length.saturating_sub(66))).min(length.saturating_sub(1)),
    }
}

/// Breaks one condition of a readable configuration; None where it offers no place to.
pub type Break = fn(&mut Random, &Configuration) -> Option<Vec<u16>>;

/// Each condition of readable, with what breaks it.
pub const CONDITIONS: &[(&str, Break)] = &[
    ("no engine", |_, c| Some(changed_word(c, 0, 0))),
    ("nine engines", nine_engines),
    ("an engine missing", |_, c| Some(changed_word(c, 0, c.engines.len() as u16 + 1))),
    ("an engine too many", |_, c| {
        (c.engines.len() > 1).then(|| changed_word(c, 0, c.engines.len() as u16 - 1))
    }),
    ("many engines by a high bit", |_, c| {
        Some(changed_word(c, 0, c.engines.len() as u16 | 0x0100))
    }),
    ("cut", cut),
    ("words after the last process", words_after),
    ("unused bit in a head", |r, c| unused(r, c, |role| matches!(role, Role::Head { .. }))),
    ("unused bit in a word of fields", |r, c| {
        unused(r, c, |role| matches!(role, Role::Fields { .. }))
    }),
    ("unused bit in a further variable", |r, c| unused(r, c, |role| role == Role::Variable)),
    ("unused bit in a key", |r, c| unused(r, c, |role| matches!(role, Role::Key { .. }))),
    ("unused bit in an expression", |r, c| {
        unused(r, c, |role| matches!(role, Role::Expression { .. }))
    }),
    ("kind above 18", kind_above),
    ("choice of none", |r, c| at_role(r, c, |role| role == Role::Head { kind: 6 }, |_, _| 6 << 11)),
    ("choice of nine", choice_of_nine),
    ("branch without receiver", branch_without_receiver),
    ("mark 3", |r, c| {
        at_role(r, c, |role| role == Role::Head { kind: 11 }, |_, word| word | 3 << 3)
    }),
    ("marked fault without mark 1", |r, c| {
        let place = Role::Fields { kind: 11, marked: false };
        at_role(r, c, |role| role == place, |r, _| (1 + r.below(63) as u16) << 10)
    }),
    ("no variables", |r, c| variables(r, c, 0)),
    ("five variables", |r, c| variables(r, c, 5)),
    ("count of variables in the top bits", |r, c| variables(r, c, 0x0800)),
    ("count of variables by a high bit", |r, c| {
        at_role(r, c, |role| role == Role::Variables, |_, word| word | 0x0100)
    }),
    ("x twice in a one-way", |r, c| x_twice(r, c, 7)),
    ("x twice in a request", |r, c| x_twice(r, c, 8)),
    ("x twice in a solicit", |r, c| x_twice(r, c, 10)),
    ("x twice in a waiter", |r, c| x_twice(r, c, 17)),
    ("key repeated", key_repeated),
    ("keys falling", keys_falling),
    ("root neither nil nor scope", other_root),
    ("seq begins with nil, enabled", |r, c| {
        put(r, c, build::nil, |a| a.slot == Slot::SeqFirst && a.enabled)
    }),
    ("seq begins with nil, in code", |r, c| {
        put(r, c, build::nil, |a| a.slot == Slot::SeqFirst && !a.enabled)
    }),
    ("par with nil side, enabled", |r, c| {
        put(r, c, build::nil, |a| a.slot == Slot::ParSide && a.enabled)
    }),
    ("par with nil side, in code", |r, c| {
        put(r, c, build::nil, |a| a.slot == Slot::ParSide && !a.enabled)
    }),
    ("executor not enabled", |r, c| asleep(r, c, || build::executor(1, 2, 0, 1, build::nil()))),
    ("waiter not enabled", |r, c| asleep(r, c, || build::waiter(1, 2, false, 0, 1, List::new()))),
    ("notice not enabled", |r, c| asleep(r, c, || build::notice(1, 2, 0, 1))),
    ("serial 0", |r, c| at_role(r, c, |role| role == Role::Serial, |_, _| 0)),
    ("serial above issued", serial_above),
    ("engine of an executor not below n", |r, c| engine_above(r, c, 16, 13)),
    ("engine of a waiter not below n", |r, c| engine_above(r, c, 17, 12)),
    ("engine of a notice not below n", |r, c| engine_above(r, c, 18, 7)),
    ("marked scope in code", |r, c| {
        scope_in_code(r, c, || {
            let list = build::list([(Key::Fault(1), build::nil())]);
            build::scope_with(1, Mark::Fault(1), false, list, build::nil())
        })
    }),
    ("zombie in code", |r, c| {
        scope_in_code(r, c, || build::scope_with(1, Mark::None, true, List::new(), build::nil()))
    }),
    ("scope with entries in code", |r, c| {
        scope_in_code(r, c, || {
            let list = build::list([(Key::Fault(1), build::nil())]);
            build::scope_with(1, Mark::None, false, list, build::nil())
        })
    }),
    ("mark 2 on a live scope", mark_2_live),
    ("mark 1 without the fault", mark_1_without),
    ("scope key with nil in a scope's list", |r, c| {
        put(r, c, build::nil, |a| matches!(a.slot, Slot::ScopeEntry(Key::Scope(_))))
    }),
    ("cH enabled", |r, c| put(r, c, build::current_handler, |a| a.enabled && a.slot != Slot::Root)),
    ("cH in a scope's list", |r, c| {
        put(r, c, build::current_handler, |a| matches!(a.slot, Slot::ScopeEntry(_)))
    }),
    ("cH in code outside handlers", |r, c| {
        put(r, c, build::current_handler, |a| !a.enabled && !a.handler && a.slot != Slot::Guard)
    }),
    ("too deep", too_deep),
    ("too long", too_long),
];

fn changed_word(configuration: &Configuration, index: usize, word: u16) -> Vec<u16> {
    let mut words = write::configuration(configuration);
    if let Some(place) = words.get_mut(index) {
        *place = word;
    }
    words
}

fn nine_engines(_: &mut Random, configuration: &Configuration) -> Option<Vec<u16>> {
    let mut configuration = configuration.clone();
    let last = configuration.engines.last()?.clone();
    configuration.engines.resize(9, last);
    Some(write::configuration(&configuration))
}

fn cut(random: &mut Random, configuration: &Configuration) -> Option<Vec<u16>> {
    let mut words = write::configuration(configuration);
    let shorter = match random.percent(50) {
        true => words.len() - 1,
        false => random.below(words.len()),
    };
    words.truncate(shorter);
    Some(words)
}

fn words_after(random: &mut Random, configuration: &Configuration) -> Option<Vec<u16>> {
    let mut words = write::configuration(configuration);
    for _ in 0..random.between(1, 3) {
        words.push(if random.percent(50) { 0 } else { random.word() });
    }
    Some(words)
}

/// Changes one word among those with a role.
fn at_role(
    random: &mut Random,
    configuration: &Configuration,
    wanted: impl Fn(Role) -> bool,
    change: impl Fn(&mut Random, u16) -> u16,
) -> Option<Vec<u16>> {
    let mut words = write::configuration(configuration);
    let roles = roles(configuration);
    let places: Vec<usize> = (0..words.len()).filter(|i| wanted(roles[*i])).collect();
    let place = *random.pick(&places)?;
    words[place] = change(random, words[place]);
    Some(words)
}

fn unused(
    random: &mut Random,
    configuration: &Configuration,
    wanted: impl Fn(Role) -> bool,
) -> Option<Vec<u16>> {
    let mut words = write::configuration(configuration);
    let roles = roles(configuration);
    let has_unused = |i: &usize| wanted(roles[*i]) && roles[*i].unused_bits() > 0;
    let places: Vec<usize> = (0..words.len()).filter(has_unused).collect();
    let place = *random.pick(&places)?;
    words[place] |= 1 << random.below(roles[place].unused_bits() as usize);
    Some(words)
}

fn kind_above(random: &mut Random, configuration: &Configuration) -> Option<Vec<u16>> {
    at_role(
        random,
        configuration,
        |role| matches!(role, Role::Head { .. }),
        |random, word| (19 + random.below(13) as u16) << 11 | (word & 0x07FF),
    )
}

fn choice_of_nine(random: &mut Random, configuration: &Configuration) -> Option<Vec<u16>> {
    let count = random.between(9, 12);
    let change = |process: &Part, _: Surroundings| match &**process {
        Process::Choice(branches) => {
            let mut branches = branches.clone();
            let last = branches.last()?.clone();
            branches.resize(count, last);
            Some(Rc::new(Process::Choice(branches)))
        }
        _ => None,
    };
    one(random, configuration, change).map(|c| write::configuration(&c))
}

fn branch_without_receiver(random: &mut Random, c: &Configuration) -> Option<Vec<u16>> {
    let other = match random.below(4) {
        0 => build::nil(),
        1 => build::notify(1, 2, 3),
        2 => build::choice(vec![(build::one_way(1, 2), build::nil())]),
        _ => build::throw(1),
    };
    put(random, c, || other.clone(), |around| around.slot == Slot::Guard)
}

/// The count of a message's variables.
fn variables(random: &mut Random, configuration: &Configuration, count: u16) -> Option<Vec<u16>> {
    at_role(random, configuration, |role| role == Role::Variables, |_, _| count)
}

/// One more variable in a list that receives, and there already; the last of four is another's.
fn x_twice(random: &mut Random, configuration: &Configuration, kind: u8) -> Option<Vec<u16>> {
    let (from, to) = (random.below(MOST), random.below(MOST));
    let change = |process: &Part, _: Surroundings| {
        if process.kind() != kind {
            return None;
        }
        let mut changed = Process::clone(process);
        let x = match &mut changed {
            Process::OneWay { x, .. } | Process::Request { x, .. } => x,
            Process::Solicit { x, .. } => x,
            Process::Waiter(waiter) => &mut waiter.x,
            _ => return None,
        };
        let again = x.0[from % x.count()];
        x.0.truncate(MOST - 1);
        if !x.0.contains(&again) {
            x.0[0] = again;
        }
        let at = to % (x.count() + 1);
        x.0.insert(at, again);
        Some(Rc::new(changed))
    };
    one(random, configuration, change).map(|c| write::configuration(&c))
}

/// The places of two neighbouring keys of a list.
fn neighbours(random: &mut Random, configuration: &Configuration) -> Option<(usize, usize)> {
    let roles = roles(configuration);
    let mut pairs = Vec::new();
    for (place, role) in roles.iter().enumerate() {
        if let Role::Key { .. } = role {
            let earlier = roles[..place].iter().rposition(|other| other == role);
            pairs.extend(earlier.map(|earlier| (earlier, place)));
        }
    }
    random.pick(&pairs).copied()
}

fn key_repeated(random: &mut Random, configuration: &Configuration) -> Option<Vec<u16>> {
    let (earlier, later) = neighbours(random, configuration)?;
    let mut words = write::configuration(configuration);
    words[later] = words[earlier];
    Some(words)
}

fn keys_falling(random: &mut Random, configuration: &Configuration) -> Option<Vec<u16>> {
    let (earlier, later) = neighbours(random, configuration)?;
    let mut words = write::configuration(configuration);
    words.swap(earlier, later);
    Some(words)
}

/// Puts a process in one of the places wanted.
fn put(
    random: &mut Random,
    configuration: &Configuration,
    process: impl Fn() -> Part,
    wanted: impl Fn(Surroundings) -> bool,
) -> Option<Vec<u16>> {
    let change = |_: &Part, around: Surroundings| wanted(around).then(&process);
    one(random, configuration, change).map(|c| write::configuration(&c))
}

fn other_root(random: &mut Random, configuration: &Configuration) -> Option<Vec<u16>> {
    let way = random.below(5);
    let change = |process: &Part, around: Surroundings| {
        if around.slot != Slot::Root || process.is_nil() {
            return None;
        }
        Some(match way {
            0 => build::seq(process.clone(), build::nil()),
            1 => build::par(process.clone(), process.clone()),
            2 => build::inst(List::new()),
            3 => build::throw(1),
            _ => build::one_way(1, 1),
        })
    };
    one(random, configuration, change).map(|c| write::configuration(&c))
}

/// An end in a place that is not enabled. Serial 1 and engine 0 are good if any are.
fn asleep(
    random: &mut Random,
    configuration: &Configuration,
    end: impl Fn() -> Part,
) -> Option<Vec<u16>> {
    let mut configuration = configuration.clone();
    configuration.issued = configuration.issued.max(1);
    put(random, &configuration, end, |around| !around.enabled && around.slot != Slot::Guard)
}

fn serial_above(random: &mut Random, configuration: &Configuration) -> Option<Vec<u16>> {
    let issued = configuration.issued;
    let near = usize::from(u16::MAX - issued).min(3);
    if near == 0 {
        return None;
    }
    at_role(
        random,
        configuration,
        |role| role == Role::Serial,
        |random, _| issued + 1 + random.below(near) as u16,
    )
}

fn engine_above(
    random: &mut Random,
    configuration: &Configuration,
    kind: u8,
    shift: u32,
) -> Option<Vec<u16>> {
    let engines = configuration.engines.len();
    if engines > 7 {
        return None;
    }
    at_role(
        random,
        configuration,
        |role| role == Role::Fields { kind, marked: false },
        |random, word| {
            let engine = random.between(engines, 7) as u16;
            (word & !(7 << shift)) | engine << shift
        },
    )
}

fn scope_in_code(
    random: &mut Random,
    configuration: &Configuration,
    scope: impl Fn() -> Part,
) -> Option<Vec<u16>> {
    put(random, configuration, scope, |around| !around.enabled && around.slot != Slot::Guard)
}

fn mark_2_live(random: &mut Random, configuration: &Configuration) -> Option<Vec<u16>> {
    let change = |process: &Part, around: Surroundings| match &**process {
        Process::Scope(scope, body) if around.enabled && !scope.zombie => {
            let list = scope.list.clone();
            Some(build::scope_with(scope.name, Mark::OwnName, false, list, body.clone()))
        }
        _ => None,
    };
    one(random, configuration, change).map(|c| write::configuration(&c))
}

fn mark_1_without(random: &mut Random, configuration: &Configuration) -> Option<Vec<u16>> {
    let fault = random.small(64);
    let change = |process: &Part, around: Surroundings| match &**process {
        Process::Scope(scope, body) if around.enabled => {
            let mut list = scope.list.clone();
            list.remove(&Key::Fault(fault));
            // An entry of the scope key with the same name must not be taken for it.
            list.insert(Key::Scope(fault), build::throw(1));
            let mark = Mark::Fault(fault);
            Some(build::scope_with(scope.name, mark, scope.zombie, list, body.clone()))
        }
        _ => None,
    };
    one(random, configuration, change).map(|c| write::configuration(&c))
}

/// Nests one process in others until the configuration is one level too deep.
fn too_deep(random: &mut Random, configuration: &Configuration) -> Option<Vec<u16>> {
    let way = *random.pick(edges::WAYS)?;
    let limit = STANDARD.depth;
    let change = |process: &Part, around: Surroundings| {
        if around.slot != Slot::Root || process.is_nil() {
            return None;
        }
        let Process::Scope(scope, body) = &**process else { return None };
        let deep = edges::nest(way, limit + 1 - 2);
        let wider = build::par(edges::solid(body), deep);
        Some(Rc::new(Process::Scope(scope.clone(), wider)))
    };
    one(random, configuration, change).map(|c| write::configuration(&c))
}

/// Adds a side to one root's body until the configuration is one word too long.
fn too_long(random: &mut Random, configuration: &Configuration) -> Option<Vec<u16>> {
    let missing = (STANDARD.words + 1).checked_sub(configuration.size())?;
    let change = |process: &Part, around: Surroundings| {
        if around.slot != Slot::Root || process.is_nil() {
            return None;
        }
        let Process::Scope(scope, body) = &**process else { return None };
        let grown = measure::size(&edges::solid(body)) - measure::size(body);
        let filler = edges::filler(missing.checked_sub(1 + grown)?)?;
        let wider = build::par(edges::solid(body), filler);
        Some(Rc::new(Process::Scope(scope.clone(), wider)))
    };
    one(random, configuration, change).map(|c| write::configuration(&c))
}
