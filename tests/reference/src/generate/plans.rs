//! Planners' starts, as words: processes of every kind, with fixed scopes (kind 19) wherever an unmarked
//! scope may stand, and places to put one process into.

use crate::generate::random::Random;
use crate::planning::FIXED;

pub const NIL: u16 = 0;
pub const SEQ: u16 = 2 << 11;
pub const PAR: u16 = 3 << 11;
pub const SCOPE: u16 = 11 << 11;
pub const ZOMBIE: u16 = SCOPE + 4;
pub const INST: u16 = 12 << 11;
pub const THROW: u16 = 13 << 11;
pub const CH: u16 = 15 << 11;

type Words = Vec<u16>;

/// One engine with these words as its process.
pub fn start(process: &[u16]) -> Words {
    [&[1, 0], &[0; 64][..], process].concat()
}

pub fn fixed(name: u16, faults: &[(u16, &[u16])], t: &[u16], c: &[u16], p: &[u16]) -> Words {
    let mut words = vec![FIXED << 11 | name << 5, faults.len() as u16];
    for (key, process) in faults {
        words.push(key << 9);
        words.extend_from_slice(process);
    }
    words.extend([t, c, p].concat());
    words
}

/// A fixed scope with nil everywhere.
pub fn bare() -> Words {
    fixed(1, &[], &[NIL], &[NIL], &[NIL])
}

pub fn scope(body: &[u16]) -> Words {
    [&[SCOPE, 0, 0], body].concat()
}

/// So many processes beside each other, of little depth.
pub fn beside(parts: &[Words]) -> Words {
    match parts {
        [] => vec![NIL],
        [one] => one.clone(),
        _ => {
            let (left, right) = parts.split_at(parts.len() / 2);
            [vec![PAR], beside(left), beside(right)].concat()
        }
    }
}

/// Nested so often in the P of fixed scopes.
pub fn nested(times: usize, inner: &[u16]) -> Words {
    (0..times).fold(inner.to_vec(), |inner, _| fixed(0, &[], &[NIL], &[NIL], &inner))
}

/// Every place in which an unmarked scope may stand, once as a start has it and once in what no start has (ends,
/// used scopes): the words before and after it, of a root; and whether a start has it.
pub fn places() -> Vec<(&'static str, bool, Words, Words)> {
    let c = [0, 0, 1]; // the expression 1
    let body =
        |before: Words, after: &[u16]| ([vec![SCOPE, 0, 0], before].concat(), after.to_vec());
    let mut all = vec![
        ("root", true, (vec![], vec![])),
        ("body of a scope", true, body(vec![], &[])),
        ("first of a seq", true, body(vec![SEQ], &[NIL])),
        ("second of a seq", true, body(vec![SEQ, THROW], &[])),
        ("left of a par", true, body(vec![PAR], &[THROW])),
        ("right of a par", true, body(vec![PAR, THROW], &[])),
        ("yes of an if", true, body([&[4 << 11], &c[..]].concat(), &[NIL])),
        ("no of an if", true, body([&[4 << 11], &c[..], &[NIL]].concat(), &[])),
        ("body of a while", true, body([&[5 << 11], &c[..]].concat(), &[])),
        ("behind a receiver", true, body(vec![6 << 11 | 1, 7 << 11, 1], &[])),
        ("in a receiver", true, body(vec![6 << 11 | 1, 8 << 11, 0, 1, 1], &[NIL])),
        ("body of a request", true, body(vec![8 << 11, 0, 1, 1], &[])),
        ("entry of a solicit", true, body(vec![10 << 11, 0, 1, 1, 1, 0], &[])),
        ("fault entry of an inst", true, body(vec![INST, 1, 0], &[])),
        ("scope entry of an inst", true, body(vec![INST, 1, 64 << 9], &[])),
        ("second entry of an inst", true, body(vec![INST, 2, 0, CH, 1 << 9], &[])),
        ("body of a resting scope", true, body(vec![SEQ, THROW, SCOPE, 0, 0], &[])),
        ("fault entry", true, (vec![FIXED << 11, 1, 0], vec![NIL; 3])),
        ("termination", true, (vec![FIXED << 11, 0], vec![NIL; 2])),
        ("compensation", true, (vec![FIXED << 11, 0, NIL], vec![NIL])),
        ("body of a fixed scope", true, (vec![FIXED << 11, 0, NIL, NIL], vec![])),
        ("entry of a scope", false, (vec![SCOPE, 0, 1, 0], vec![NIL])),
        ("body of a zombie", false, (vec![ZOMBIE, 0, 0], vec![])),
        ("body of an executor", false, body(vec![16 << 11, 0, 1, 1], &[])),
        ("entry of a waiter", false, body(vec![17 << 11, 0, 1, 1, 1, 0], &[])),
    ];
    all.drain(..).map(|(name, fresh, (before, after))| (name, fresh, before, after)).collect()
}

/// Where a random process stands.
#[derive(Clone, Copy)]
struct Place {
    enabled: bool,
    /// cH may stand.
    handler: bool,
}

const CODE: Place = Place { enabled: false, handler: false };
const HANDLER: Place = Place { enabled: false, handler: true };

fn expression(random: &mut Random) -> Words {
    match random.below(3) {
        0 => vec![0, random.word(), random.word()],
        1 => vec![0x2000 | u16::from(random.small(32)) << 8],
        _ => vec![0x4000 | (random.small(6) as u16) << 13 & 0xe000, 0x2100, 0x2200],
    }
}

/// Fault keys first, and scope keys unless only faults may stand.
fn list(random: &mut Random, left: usize, place: Place, faults: bool) -> Words {
    let mut words = vec![0];
    for key in [3, 9, 63, 64, 70] {
        if (key < 64 || !faults) && random.percent(20) {
            words[0] += 1;
            words.push(key << 9);
            words.extend(process(random, left, place));
        }
    }
    words
}

fn not_nil(random: &mut Random, left: usize, place: Place) -> Words {
    let words = process(random, left, place);
    if words == [NIL] {
        vec![THROW]
    } else {
        words
    }
}

fn leaf(random: &mut Random, place: Place) -> Words {
    match random.below(8) {
        0 | 1 => vec![NIL],
        2 => vec![14 << 11 | 1 << 5],
        3 if place.handler => vec![CH],
        4 => [vec![1 << 11 | 3 << 6], expression(random)].concat(),
        5 => vec![7 << 11 | 1 << 5 | 2, 2, 3 << 11],
        6 => vec![9 << 11 | 1 << 5 | 2, 4 << 11, 1],
        _ => vec![THROW | u16::from(random.small(64)) << 5],
    }
}

fn process(random: &mut Random, left: usize, place: Place) -> Words {
    let Some(left) = left.checked_sub(1).filter(|_| random.percent(85)) else {
        return leaf(random, place);
    };
    let rest = Place { enabled: false, ..place };
    let head = |kind: u16| vec![kind << 11];
    match random.below(14) {
        0 | 1 => [head(2), not_nil(random, left, place), process(random, left, rest)].concat(),
        2 | 3 => [head(3), not_nil(random, left, place), not_nil(random, left, place)].concat(),
        4 => {
            [head(4), expression(random), process(random, left, rest), process(random, left, rest)]
                .concat()
        }
        5 => [head(5), expression(random), process(random, left, rest)].concat(),
        6 => [vec![6 << 11 | 1, 7 << 11, 1], process(random, left, rest)].concat(),
        7 => [vec![8 << 11, 0, 1, 1], process(random, left, rest)].concat(),
        8 => [vec![10 << 11, 0, 1, 1], list(random, left, HANDLER, false)].concat(),
        9 => {
            let used = place.enabled && random.percent(3);
            let head = if used { ZOMBIE } else { SCOPE };
            [vec![head, 0, 0], process(random, left, place)].concat()
        }
        10 => [head(12), list(random, left, HANDLER, false)].concat(),
        _ => fixed_scope(random, left, place),
    }
}

/// cH stands free in a handler only now and then.
fn fixed_scope(random: &mut Random, left: usize, place: Place) -> Words {
    let handler = if random.percent(10) { HANDLER } else { CODE };
    let mut words = vec![FIXED << 11 | u16::from(random.small(64)) << 5];
    words.extend(list(random, left, handler, true));
    for _ in 0..2 {
        words.extend(process(random, left, handler));
    }
    words.extend(process(random, left, place));
    words
}

/// A planners' start of one to three engines.
pub fn plan(random: &mut Random, depth: usize) -> Words {
    let engines = random.between(1, 3);
    let mut words = vec![engines as u16, u16::from(random.percent(2))];
    for _ in 0..engines {
        words.extend((0..64).map(|_| random.word()));
        let place = Place { enabled: true, handler: false };
        match random.percent(70) {
            true => words.extend(fixed_scope(random, depth, place)),
            false => words.extend(scope(&process(random, depth, place))),
        }
    }
    words
}

/// A planners' start that may be too deep, or too long, once it is translated.
pub fn large(random: &mut Random) -> Words {
    let place = Place { enabled: true, handler: false };
    match random.percent(50) {
        true => {
            let inner = fixed_scope(random, 3, place);
            start(&nested(random.between(8, 18), &inner))
        }
        false => {
            let count = random.between(100, 900);
            let part = |random: &mut Random| {
                let [t, c, p] = [0; 3].map(|_| leaf(random, CODE));
                fixed(u16::from(random.small(64)), &[], &t, &c, &p)
            };
            let parts: Vec<Words> = (0..count).map(|_| part(random)).collect();
            start(&scope(&beside(&parts)))
        }
    }
}

/// Every process of so many nodes, of the kinds that matter here: nil, throw and cH; inst of one handler, scope and used scope;
/// seq and par; a fixed scope with no fault handler and with one.
pub fn all_of(nodes: usize) -> Vec<Words> {
    let mut by_nodes: Vec<Vec<Words>> = vec![vec![]];
    for count in 1..=nodes {
        let mut all = vec![];
        if count == 1 {
            all.extend([vec![NIL], vec![THROW], vec![CH]]);
        }
        let heads: [(&[u16], usize); 7] = [
            (&[INST, 1, 0], 1),
            (&[SCOPE, 0, 0], 1),
            (&[ZOMBIE, 0, 0], 1),
            (&[SEQ], 2),
            (&[PAR], 2),
            (&[FIXED << 11, 0], 3),
            (&[FIXED << 11, 1, 0], 4),
        ];
        for (head, parts) in heads {
            for rest in rows(&by_nodes, parts, count - 1) {
                all.push([head, &rest].concat());
            }
        }
        by_nodes.push(all);
    }
    by_nodes.pop().expect("at least one")
}

/// So many processes of so many nodes in all, one after the other.
fn rows(by_nodes: &[Vec<Words>], parts: usize, nodes: usize) -> Vec<Words> {
    if parts == 0 {
        return if nodes == 0 { vec![vec![]] } else { vec![] };
    }
    let mut all = vec![];
    for first in 1..=nodes {
        for rest in rows(by_nodes, parts - 1, nodes - first) {
            all.extend(by_nodes[first].iter().map(|words| [&words[..], &rest].concat()));
        }
    }
    all
}
