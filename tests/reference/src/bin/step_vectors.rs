//! Writes the cases of the program crate `step_cases`: its standard input (big-endian words: the count, the step's five
//! numbers, the output's length, then the configuration) and the lines that it has to print. The argument is the crate's
//! folder. For every row of the rules there are the two smallest configurations that generated runs met it with.

use reference::build;
use reference::bytes::from_words;
use reference::configuration::Configuration;
use reference::coverage::{Coverage, ROWS};
use reference::expression::{Expression, Operator};
use reference::generate::edges::{self, filler, nest, Way, WAYS};
use reference::generate::random::Random;
use reference::generate::run::{Origin, Run, ORIGINS};
use reference::generate::{damage, steps};
use reference::process::{Key, List, Mark, Part};
use reference::variables::{Variables, MOST};
use reference::{measure, readable, step, write, Answer, Numbers, STANDARD};
use std::collections::BTreeMap;
use std::fs;
use std::path::Path;
use std::rc::Rc;

/// What stands in the program's output before a step.
const FILL: u16 = 42_405;

/// Rows of other calls than the step.
const NO_STEPS: &[&str] = &["refused 11", "refused 12"];

#[derive(Clone, PartialEq, Eq)]
struct Case {
    words: Vec<u16>,
    numbers: Numbers,
    room: usize,
}

impl Case {
    fn new(words: &[u16], numbers: Numbers, room: usize) -> Case {
        Case { words: words.to_vec(), numbers, room }
    }

    fn of(configuration: &Configuration, numbers: Numbers, room: usize) -> Case {
        Case { words: write::configuration(configuration), numbers, room }
    }

    fn answer(&self) -> (Answer, Vec<u16>) {
        let mut output = vec![FILL; self.room];
        let answer = step(&STANDARD, &self.words, self.numbers, &mut output);
        (answer, output)
    }

    /// What it meets.
    fn coverage(&self) -> Coverage {
        let mut coverage = Coverage::default();
        let answer = self.answer().0;
        match readable::read(&STANDARD, &self.words) {
            Some(before) => coverage.step(&before, self.numbers, &answer),
            None => coverage.refusal(answer.number),
        }
        coverage
    }
}

#[derive(Default)]
struct Cases {
    all: Vec<Case>,
}

impl Cases {
    fn add(&mut self, case: Case) {
        if !self.all.contains(&case) {
            self.all.push(case);
        }
    }

    /// A case at an edge, and the number that it answers.
    fn edge(&mut self, configuration: &Configuration, numbers: Numbers, room: usize, number: u8) {
        let case = Case::of(configuration, numbers, room);
        assert_eq!(case.answer().0.number, number, "{numbers:?} of {configuration:?}");
        self.add(case);
    }

    fn input(&self) -> Vec<u8> {
        let mut input = Vec::new();
        for Case { words, numbers: n, room } in &self.all {
            let head = [n.engine, n.position, n.second_engine, n.second_position, n.branch];
            input.extend(from_words(&[words.len() as u16]));
            input.extend(from_words(&head));
            input.extend(from_words(&[*room as u16]));
            input.extend(from_words(words));
        }
        input
    }

    fn output(&self) -> String {
        let mut lines = String::new();
        for case in &self.all {
            let (a, output) = case.answer();
            let sum = output.iter().fold(0u16, |s, w| s.wrapping_mul(3).wrapping_add(*w));
            let Answer { number, kind, serial, fault, length } = a;
            lines += &format!("{number} {kind} {serial} {fault} {length} {sum}\n");
        }
        lines
    }
}

/// For each row and each kind of an accepted step, the two smallest cases so far.
#[derive(Default)]
struct Smallest {
    rows: BTreeMap<String, Vec<Case>>,
}

impl Smallest {
    fn offer(&mut self, case: &Case) {
        let answer = case.answer().0;
        let mut rows: Vec<String> = case.coverage().counts.keys().map(|r| r.to_string()).collect();
        if answer.number == 0 {
            rows.push(format!("kind {}", answer.kind));
        }
        for row in rows {
            let kept = self.rows.entry(row).or_default();
            if kept.len() == 2 && kept.iter().all(|k| k.words.len() <= case.words.len()) {
                continue;
            }
            if kept.iter().any(|k| k.words == case.words) {
                continue;
            }
            kept.push(case.clone());
            kept.sort_by_key(|k| k.words.len());
            kept.truncate(2);
        }
    }
}

/// Every step of many runs is looked at for its rows; a few steps are taken as they come.
fn of_runs(cases: &mut Cases) {
    let mut smallest = Smallest::default();
    for seed in 0..2400 {
        let origin = ORIGINS[seed as usize % ORIGINS.len()];
        if origin == Origin::Growing && seed > 80 {
            continue;
        }
        let mut run = Run::new(seed, origin);
        let mut random = Random::new(seed + 5000);
        for _ in 0..40 {
            let Some(before) = run.configuration() else { break };
            let Some(call) = run.call() else { break };
            let room = if random.percent(90) { STANDARD.words } else { call.room };
            let case = Case::new(&run.words, call.numbers, room);
            smallest.offer(&case);
            let arbitrary = steps::arbitrary(&mut random, &before);
            let near = steps::near_meeting(&mut random, &before);
            for numbers in [arbitrary, near] {
                smallest.offer(&Case::new(&run.words, numbers, STANDARD.words));
            }
            if run.words.len() < 300 && random.below(500) == 0 {
                cases.add(case.clone());
                let damaged = damage::random_damage(&mut random, &run.words);
                cases.add(Case::new(&damaged, call.numbers, STANDARD.words));
            }
            let (answer, output) = case.answer();
            run.take(&answer, &output);
        }
    }
    for case in smallest.rows.values().flatten() {
        cases.add(case.clone());
    }
    for (row, kept) in &smallest.rows {
        if row.starts_with("kind ") {
            of_room(cases, &kept[0]);
        }
    }
}

/// Outputs about as long as the result, and none.
fn of_room(cases: &mut Cases, case: &Case) {
    let length = usize::from(case.answer().0.length);
    for room in [length - 2, length - 1, length, length + 1, length + 2, 0] {
        cases.add(Case { room, ..case.clone() });
    }
}

fn alone(position: u16) -> Numbers {
    Numbers::new(0, position, 0, 0, 0)
}

/// A root with an entry and a body.
fn holding(key: Key, entry: Part, body: Part) -> Configuration {
    let root = build::scope_with(1, Mark::None, false, build::list([(key, entry)]), body);
    build::configuration(0, vec![root])
}

/// The first place of a kind in engine 0.
fn first(configuration: &Configuration, kind: u8) -> Numbers {
    let all = steps::stands(configuration);
    let found = all.iter().find(|s| s.process.kind() == kind);
    alone(found.map_or(0, |s| s.position as u16))
}

/// A configuration of 64 levels is read and one of 65 is not; a result of 65 levels is refused.
fn of_depth(cases: &mut Cases) {
    for way in WAYS {
        for (depth, number) in [(64, 0), (65, 1)] {
            let side = build::par(build::comp(1), nest(*way, depth - 2));
            let standing = build::configuration(0, vec![build::scope(1, side)]);
            cases.edge(&standing, alone(4), 1000, number);
        }
        for (depth, number) in [(64, 0), (65, 8)] {
            cases.edge(&edges::result_deep(*way, depth), alone(3), 1000, number);
            let body = build::par(build::throw(2), build::comp(1));
            let comp = holding(Key::Scope(1), nest(*way, depth - 2), body);
            cases.edge(&comp, first(&comp, 14), 1000, number);
            let (around, levels) = around_old(*way);
            let body = build::inst(build::list([(Key::Fault(1), around)]));
            let inst = holding(Key::Fault(1), nest(*way, depth - 1 - levels), body);
            cases.edge(&inst, first(&inst, 12), 1000, number);
        }
        let other = build::inst(build::list([(Key::Scope(1), build::throw(1))]));
        let kept = holding(Key::Fault(1), nest(*way, 63), other);
        cases.edge(&kept, first(&kept, 12), 1000, 0);
    }
    for way in [Way::LeftOperand, Way::RightOperand] {
        cases.edge(&edges::deep(way, 64), alone(3), 1000, 0);
    }
}

/// Entries of every kind at the bottom, that a step sets deeper.
fn of_leaves(cases: &mut Cases) {
    let (nil, variable) = (build::nil, || build::variable(1));
    let leaves = [
        nil(),
        build::assign(1, build::constant(2)),
        build::if_else(variable(), nil(), nil()),
        build::while_true(variable(), nil()),
        build::choice(vec![(build::one_way(1, 1), nil())]),
        build::one_way(1, 1),
        build::request(1, 1, 1, nil()),
        build::notify(1, 1, 1),
        build::solicit(1, 1, 1, 1, build::list([])),
        build::scope(1, build::throw(1)),
        build::inst(build::list([])),
        build::comp(1),
    ];
    for leaf in leaves {
        for (depth, number) in [(62, 0), (63, 8)] {
            let mut old = leaf.clone();
            while measure::depth(&old) < depth {
                old = build::seq(build::comp(1), old);
            }
            let around = build::seq(build::throw(2), build::current_handler());
            let body = build::inst(build::list([(Key::Scope(1), around)]));
            let inst = holding(Key::Scope(1), old, body);
            cases.edge(&inst, first(&inst, 12), 1000, number);
        }
    }
}

/// An entry with cH in the way, or in another where it can't stand so, and the levels around cH.
fn around_old(way: Way) -> (Part, usize) {
    let old = build::current_handler();
    let (nil, throw, condition) = (build::nil(), build::throw(2), build::variable(1));
    let around = match way {
        Way::SeqFirst => build::seq(old, nil),
        Way::ParLeft => build::par(old, throw),
        Way::ParRight => build::par(throw, old),
        Way::IfYes => build::if_else(condition, old, nil),
        Way::IfNo => build::if_else(condition, nil, old),
        Way::While => build::while_true(condition, old),
        Way::BranchThen => build::choice(vec![(build::one_way(1, 1), old)]),
        Way::BranchRequest => build::choice(vec![(build::request(1, 1, 1, old), nil)]),
        Way::Request => build::request(1, 1, 1, old),
        Way::Scope => build::scope(1, old),
        _ => build::seq(throw, old),
    };
    (around, if way == Way::BranchRequest { 2 } else { 1 })
}

/// 8,192 words are read and 8,193 are not; a result of 8,193 words is refused, whatever the room.
fn of_length(cases: &mut Cases) {
    let long = |words: usize| edges::long(words).expect("words enough");
    cases.edge(&long(8192), first(&long(8192), 14), 8192, 0);
    cases.edge(&long(8193), first(&long(8193), 14), 8192, 1);
    let result = |words: usize| edges::result_long(words).expect("words enough");
    cases.edge(&result(8192), alone(4), 8200, 0);
    cases.edge(&result(8192), alone(4), 8191, 10);
    cases.edge(&result(8193), alone(4), 8200, 9);
    // 256 times a long entry: more words than there is room for anywhere.
    let mut many = build::current_handler();
    for _ in 0..8 {
        many = build::par(many.clone(), many);
    }
    let key = Key::Fault(1);
    let entry = filler(100).expect("words enough");
    let inst = holding(key, entry, build::inst(build::list([(key, many)])));
    cases.edge(&inst, first(&inst, 12), 8200, 9);
    cases.edge(&inst, first(&inst, 12), 0, 9);
}

/// A solicit takes serial 65,535, and then there is none left.
fn of_serials(cases: &mut Cases) {
    let asks = Numbers::new(0, 3, 1, 3, 0);
    for (issued, number) in [(0, 0), (65_534, 0), (65_535, 7)] {
        cases.edge(&edges::serials(issued), asks, 1000, number);
        cases.edge(&edges::serials(issued), asks, 0, if number == 0 { 10 } else { number });
    }
}

/// Two engines' processes, with a value for the first one's address.
fn pair(first: &Part, second: &Part, address: u32) -> Configuration {
    let processes = vec![build::scope(1, first.clone()), build::scope(2, second.clone())];
    let mut both = build::configuration(4, processes);
    both.engines[0].values[2] = 70_000;
    both.engines[0].values[3] = address;
    both
}

/// Sender and receiver that fit, and ones that fit but for one thing.
fn of_meetings(cases: &mut Cases) {
    let send = |cases: &mut Cases, from: &Part, to: &Part, address, branch, number| {
        let numbers = Numbers::new(0, 3, 1, 3, branch);
        cases.edge(&pair(from, to, address), numbers, 1000, number);
    };
    let nil = build::nil;
    let list = build::list([(Key::Fault(5), build::throw(6))]);
    let notify = build::notify(33, 2, 3);
    let solicit = build::solicit(33, 2, 3, 4, list.clone());
    let one_way = |operation: u8| build::one_way(operation, 5);
    let request = |operation: u8| build::request(operation, 5, 6, build::comp(7));
    let branch = |receiver: Part| build::choice(vec![(receiver, build::comp(8))]);
    let second = |receiver: Part| build::choice(vec![(one_way(9), nil()), (receiver, nil())]);
    for (from, fits, other, misses) in [
        (&notify, one_way(33), one_way(1), request(33)),
        (&solicit, request(33), request(1), one_way(33)),
    ] {
        send(cases, from, &fits, 1, 0, 0);
        send(cases, from, &fits, 1, 1, 5);
        for address in [0, 2, 9, 65_537] {
            send(cases, from, &fits, address, 0, 5);
        }
        for receiver in [other, misses] {
            send(cases, from, &receiver, 1, 0, 5);
            send(cases, from, &branch(receiver), 1, 1, 5);
        }
        for (number, answer) in [(0, 5), (1, 0), (2, 5), (65_535, 5)] {
            send(cases, from, &branch(fits.clone()), 1, number, answer);
        }
        for (number, answer) in [(1, 5), (2, 0), (3, 5)] {
            send(cases, from, &second(fits.clone()), 1, number, answer);
        }
        let within = build::configuration(4, vec![build::scope(1, build::par(from.clone(), fits))]);
        let stands = steps::stands(&within);
        let place = stands.last().map_or(0, |s| s.position as u16);
        cases.edge(&within, Numbers::new(0, 4, 0, place, 0), 1000, 5);
    }
    let waiter = |operation, server, serial, dead| {
        build::waiter(operation, 5, dead, server, serial, list.clone())
    };
    for reply in [true, false] {
        let from = |client: u8| match reply {
            true => build::executor(33, 2, client, 3, nil()),
            false => build::notice(33, 5, client, 3),
        };
        send(cases, &from(1), &waiter(33, 0, 3, false), 0, 0, 0);
        send(cases, &from(1), &waiter(33, 0, 3, true), 0, 0, 0);
        send(cases, &from(1), &waiter(33, 0, 3, false), 0, 1, 5);
        send(cases, &from(0), &waiter(33, 0, 3, false), 0, 0, 5);
        send(cases, &from(1), &waiter(1, 0, 3, false), 0, 0, 5);
        send(cases, &from(1), &waiter(33, 1, 3, false), 0, 0, 5);
        send(cases, &from(1), &waiter(33, 0, 4, false), 0, 0, 5);
        send(cases, &from(1), &request(33), 1, 0, 5);
    }
}

/// So many variables; those that are sent have one twice.
fn receiving(count: usize) -> Variables {
    Variables([5, 31, 0, 6][..count].to_vec())
}

fn sent(count: usize) -> Variables {
    Variables([2, 9, 2, 30][..count].to_vec())
}

/// Every two counts between one and four.
fn counts() -> impl Iterator<Item = (usize, usize)> {
    (1..=MOST).flat_map(|one| (1..=MOST).map(move |other| (one, other)))
}

/// Messages of one to four values: counts that agree, and each that does not, of the message and of its reply; at issued 65,535 counts that
/// do not fit are 5 and not 7.
fn of_counts(cases: &mut Cases) {
    let meets = Numbers::new(0, 3, 1, 3, 0);
    let list = build::list([(Key::Scope(5), build::throw(6))]);
    let branch = |receiver: &Part| build::choice(vec![(receiver.clone(), build::comp(8))]);
    let mut both = |from: &Part, to: &Part, issued: u16, number: u8| {
        for (to, branch) in [(to.clone(), 0), (branch(to), 1)] {
            let mut before = pair(from, &to, 1);
            before.engines[0].values[9] = 0x0001_0002;
            before.engines[0].values[30] = u32::MAX;
            before.issued = issued;
            cases.edge(&before, Numbers { branch, ..meets }, 1000, number);
        }
    };
    for (y, x) in counts() {
        let number = if y == x { 0 } else { 5 };
        both(&build::notify(7, sent(y), 3), &build::one_way(7, receiving(x)), 4, number);
        let asks = build::solicit(7, sent(y), 3, receiving(2), list.clone());
        let serves = build::request(7, receiving(x), sent(2), build::comp(7));
        both(&asks, &serves, 4, number);
        let asks = build::solicit(7, sent(3), 3, receiving(x), list.clone());
        let serves = build::request(7, receiving(3), sent(y), build::comp(7));
        both(&asks, &serves, 65_534, number);
        both(&asks, &serves, 65_535, if y == x { 7 } else { 5 });
    }
    let asks = build::solicit(7, sent(4), 3, receiving(4), list);
    let serves = build::request(7, receiving(4), sent(4), build::comp(7));
    of_room(cases, &Case::of(&pair(&asks, &serves, 1), meets, 1000));
}

/// Replies of one to four values, to a live waiter and to a dead one, and faults, which have none.
fn of_replies(cases: &mut Cases) {
    let delivers = Numbers::new(0, 3, 1, 3, 0);
    let list = build::list([(Key::Scope(5), build::throw(6))]);
    for (y, x) in counts() {
        for dead in [false, true] {
            let waits = build::waiter(7, receiving(x), dead, 0, 3, list.clone());
            let replies = pair(&build::executor(7, sent(y), 1, 3, build::nil()), &waits, 0);
            cases.edge(&replies, delivers, 1000, if y == x { 0 } else { 5 });
            if y == x {
                // A delivery needs no more output than the configuration is long.
                cases.edge(&replies, delivers, replies.size(), 0);
                of_room(cases, &Case::of(&replies, delivers, 1000));
                let faults = pair(&build::notice(7, 9, 1, 3), &waits, 0);
                cases.edge(&faults, delivers, faults.size(), 0);
            }
        }
    }
}

/// Each kind with lists of variables, of so many in each list.
fn listed(x: usize, y: usize) -> Vec<Part> {
    let list = build::list([(Key::Fault(5), build::throw(6))]);
    vec![
        build::one_way(6, receiving(x)),
        build::request(6, receiving(x), sent(y), build::comp(1)),
        build::notify(6, sent(y), 3),
        build::solicit(6, sent(y), 3, receiving(x), list.clone()),
        build::executor(6, sent(y), 0, 1, build::one_way(6, receiving(x))),
        build::waiter(6, receiving(x), false, 0, 1, list),
    ]
}

/// A process of each width beside what moves, killed by it, in what a step copies, and with what moves inside it.
fn of_widths(cases: &mut Cases) {
    for (x, y) in [(1, 1), (4, 1), (1, 4), (2, 3), (4, 4)] {
        for process in listed(x, y) {
            let mut beside = |left: Part, right: Part, kind: u8| {
                let root = build::scope(1, build::par(left, right));
                let before = build::configuration(1, vec![root]);
                cases.edge(&before, first(&before, kind), 1000, 0);
            };
            beside(process.clone(), build::comp(2), 14);
            beside(build::throw(9), process.clone(), 13);
            if process.kind() < 16 {
                let code = build::seq(build::comp(2), process.clone());
                beside(build::one_way(1, 1), code, 14);
                let entry = build::list([(Key::Fault(4), process.clone())]);
                beside(build::one_way(1, 1), build::inst(entry), 12);
                let around = build::seq(build::throw(2), build::current_handler());
                let fresh = build::inst(build::list([(Key::Scope(1), around)]));
                let held = holding(Key::Scope(1), process.clone(), fresh);
                cases.edge(&held, first(&held, 12), 1000, 0);
            }
        }
        for inner in [build::comp(2), build::throw(9), build::scope(2, build::nil())] {
            let kind = inner.kind();
            let works =
                build::executor(6, sent(y), 0, 1, build::par(inner, listed(x, y)[5].clone()));
            let root = build::scope_with(1, Mark::None, true, List::new(), works);
            let before = build::configuration(1, vec![root]);
            let stands = steps::stands(&before);
            let found = stands.iter().rev().find(|s| s.process.kind() == kind);
            let position = found.map_or(0, |s| s.position as u16);
            cases.edge(&before, alone(position), 1000, 0);
        }
    }
}

/// Lists that are not readable: counts out of range, in each place; a variable that receives twice; an unused bit.
fn of_unreadable_lists(cases: &mut Cases) {
    let mut refused = |process: &Part, change: &dyn Fn(&mut Vec<u16>)| {
        let root = build::scope(1, build::par(build::comp(2), process.clone()));
        let before = build::configuration(1, vec![root]);
        let mut words = write::configuration(&before);
        assert_eq!(Case::new(&words, alone(4), 1000).answer().0.number, 0);
        change(&mut words);
        let case = Case::new(&words, alone(4), 1000);
        assert_eq!(case.answer().0.number, 1, "{process:?}");
        cases.add(case);
    };
    // The processes begin at position 5 behind n, issued and 64 words of values.
    let at = |place: usize| 66 + 5 + place;
    let places = [&[1][..], &[2, 3], &[2], &[2, 3], &[3], &[3]];
    for (process, places) in listed(1, 1).iter().zip(places) {
        for place in places {
            for count in [0, 5, 0x0800, 0x0101] {
                refused(process, &|words| words[at(*place)] = count);
            }
        }
    }
    for (process, place) in listed(4, 4).iter().zip([1, 2, 2, 2, 3, 3]) {
        refused(process, &|words| words[at(place + 3)] |= 1);
        refused(process, &|words| words[at(place)] = 5);
    }
    // Variables 5, 31, 0 and 6: the first again, the second again, and the first is the last.
    for (kind, place) in [(7, 1), (8, 2), (10, 6), (17, 3)] {
        let process = listed(4, 4).into_iter().find(|p| p.kind() == kind);
        let process = process.expect("each kind is listed");
        refused(&process, &|words| words[at(place + 1)] = 5 << 11);
        refused(&process, &|words| words[at(place + 3)] = 31 << 11);
        refused(&process, &|words| words[at(place + 3)] = 5 << 11);
        refused(&process, &|words| words[at(place + 3)] = words[at(place + 2)]);
    }
}

/// Lists of four variables and of five, laid out whole, in each place.
fn of_five(cases: &mut Cases) {
    for (count, number) in [(4, 0), (5, 1)] {
        let list = || Variables((5..5 + count).collect());
        for process in [
            build::one_way(6, list()),
            build::request(6, list(), 2, build::nil()),
            build::request(6, 2, list(), build::nil()),
            build::notify(6, list(), 2),
            build::solicit(6, list(), 2, 3, List::new()),
            build::solicit(6, 2, 3, list(), List::new()),
            build::executor(6, list(), 0, 1, build::nil()),
            build::waiter(6, list(), true, 0, 1, List::new()),
        ] {
            let root = build::scope(1, build::par(process, build::comp(2)));
            let before = build::configuration(1, vec![root]);
            cases.edge(&before, first(&before, 14), 1000, number);
        }
    }
}

/// Eight branches and eight engines are read and nine are not; the sender behind the receiver.
fn of_eight(cases: &mut Cases) {
    let notify = build::notify(7, 2, 3);
    for (count, number) in [(8, 0), (9, 1)] {
        let branches = (0..count).map(|o| (build::one_way(o, 5), build::comp(o)));
        let choice = build::choice(branches.collect());
        let to = Numbers::new(0, 3, 1, 3, 8);
        cases.edge(&pair(&notify, &choice, 1), to, 1000, number);
        let mut processes = vec![build::nil(); usize::from(count)];
        processes[2] = build::scope(1, build::one_way(7, 31));
        processes[7] = build::scope(1, notify.clone());
        let mut engines = build::configuration(0, processes);
        engines.engines[7].values[2] = u32::MAX;
        engines.engines[7].values[3] = 2;
        cases.edge(&engines, Numbers::new(7, 3, 2, 3, 0), 1000, number);
    }
    let list = build::list([(Key::Scope(5), build::throw(6))]);
    let request = build::request(7, 5, 6, build::comp(7));
    let branch = build::choice(vec![(request.clone(), build::throw(8))]);
    let waiter = build::waiter(7, 5, false, 1, 3, list.clone());
    let asks = build::solicit(7, 2, 3, 4, list);
    for (from, to, number) in [
        (asks.clone(), request, 0),
        (asks, branch, 1),
        (build::executor(7, 2, 0, 3, build::nil()), waiter.clone(), 0),
        (build::notice(7, 9, 0, 3), waiter, 0),
    ] {
        let mut both = pair(&to, &build::par(from, build::throw(1)), 0);
        both.engines[1].values[2] = 65_536;
        cases.edge(&both, Numbers::new(1, 4, 0, 3, number), 1000, 0);
    }
}

/// Processes that move alone, one of each sort.
fn movers() -> Vec<Part> {
    let list = build::list([(Key::Scope(3), build::throw(4))]);
    let own = build::list([(Key::Fault(4), build::comp(4)), (Key::Scope(2), build::throw(4))]);
    let none = || build::list([]);
    let ending =
        |mark, zombie, list: &List| build::scope_with(2, mark, zombie, list.clone(), build::nil());
    vec![
        build::assign(1, build::constant(70_000)),
        ending(Mark::None, false, &own),
        ending(Mark::None, false, &none()),
        ending(Mark::None, true, &own),
        ending(Mark::None, true, &none()),
        ending(Mark::Fault(4), false, &own),
        ending(Mark::Fault(4), true, &own),
        ending(Mark::OwnName, true, &own),
        ending(Mark::OwnName, true, &none()),
        build::if_else(build::constant(1), build::comp(4), build::nil()),
        build::if_else(build::constant(0), build::comp(4), build::nil()),
        build::while_true(build::constant(1), build::nil()),
        build::while_true(build::constant(0), build::comp(4)),
        build::inst(list),
        build::comp(2),
        build::comp(9),
        build::throw(2),
        build::throw(9),
    ]
}

/// One level around an enabled process.
fn frames() -> Vec<fn(Part) -> Part> {
    vec![
        |inner| build::seq(inner, build::nil()),
        |inner| build::seq(inner, build::comp(6)),
        |inner| build::par(inner, build::one_way(6, 1)),
        |inner| build::par(build::one_way(6, 1), inner),
        |inner| build::executor(6, 7, 0, 1, inner),
        |inner| {
            let entries = [(Key::Fault(2), build::comp(5)), (Key::Scope(2), build::throw(5))];
            build::scope_with(3, Mark::None, false, build::list(entries), inner)
        },
        |inner| build::scope_with(5, Mark::None, true, build::list([]), inner),
    ]
}

/// Each mover in each frame, and the first two in each frame of each frame.
fn of_places(cases: &mut Cases) {
    let mut place = |mover: &Part, process: Part| {
        let before = build::configuration(1, vec![build::scope(2, process)]);
        let stands = steps::stands(&before);
        let found = stands.iter().find(|s| s.process == *mover);
        let position = found.map_or(0, |s| s.position as u16);
        cases.edge(&before, alone(position), 200, 0);
    };
    for (index, mover) in movers().iter().enumerate() {
        for outer in frames() {
            place(mover, outer(mover.clone()));
            for inner in frames().into_iter().filter(|_| index < 2) {
                place(mover, outer(inner(mover.clone())));
            }
        }
    }
}

/// Deep below each frame: a while, a comp and an inst at the limit, and what a throw kills.
fn of_deep_places(cases: &mut Cases) {
    let grown = |levels: usize| nest(Way::SeqSecond, levels);
    let config = |process: Part| build::configuration(1, vec![build::scope(1, process)]);
    for frame in frames() {
        let deep = |inner: Part, count: usize| (0..count).fold(inner, |part, _| frame(part));
        for (levels, number) in [(0, 0), (1, 8)] {
            let again = build::while_true(build::constant(1), grown(22 + levels));
            let before = config(deep(again, 39));
            cases.edge(&before, first(&before, 5), 2000, number);
            let held = build::list([(Key::Scope(8), grown(21 + levels))]);
            let body = frame(build::comp(8));
            let scope = build::scope_with(1, Mark::None, false, held.clone(), body);
            let before = config(deep(scope, 40));
            let (all, kept) = (steps::stands(&before), build::comp(8));
            let found = all.iter().find(|s| s.process == kept);
            let position = found.map_or(0, |s| s.position as u16);
            // Within a nearer scope, comp finds no entry.
            let near = frame(build::nil()).kind() == 11;
            cases.edge(&before, alone(position), 2000, if near { 0 } else { number });
            let around = build::seq(build::throw(2), build::current_handler());
            let body = build::inst(build::list([(Key::Scope(8), around)]));
            let scope = build::scope_with(1, Mark::None, false, held, body);
            let before = config(deep(scope, 40));
            cases.edge(&before, first(&before, 12), 2000, number);
        }
        for side in [deep(build::one_way(1, 1), 61), deep(build::throw(8), 61)] {
            let before = config(build::par(build::throw(9), side));
            cases.edge(&before, alone(4), 2000, 0);
            let last = steps::stands(&before).into_iter().rev().find(|s| s.process.kind() == 13);
            let position = last.map_or(0, |s| s.position as u16);
            cases.edge(&before, alone(position), 2000, 0);
        }
    }
    for way in WAYS {
        let before = config(build::par(build::throw(9), nest(*way, 62)));
        cases.add(Case::of(&before, alone(4), 2000));
    }
}

/// Each operator at its edges, each variable's place, and numbers that a step alone may not have.
fn of_values(cases: &mut Cases) {
    let most = u32::MAX;
    let pairs = [(5, 5), (4, 5), (5, 4), (most, 1), (0, 1), (65_535, 65_536), (most, most)];
    for operator in [Operator::Sum, Operator::Difference, Operator::Less, Operator::Equal] {
        for (left, right) in pairs {
            let sum = build::binary(operator, build::variable(31), build::constant(right));
            let mut before = build::configuration(0, vec![build::scope(1, build::assign(30, sum))]);
            before.engines[0].values[31] = left;
            cases.edge(&before, alone(3), 100, 0);
        }
    }
    for value in [0, 1, 2, 65_536] {
        let condition = build::variable(0);
        let chooses = build::if_else(condition.clone(), build::comp(1), build::throw(1));
        for process in [chooses, build::while_true(condition, build::comp(1))] {
            let mut before = build::configuration(0, vec![build::scope(1, process)]);
            before.engines[0].values[0] = value;
            cases.edge(&before, alone(3), 100, 0);
        }
    }
    let before = build::configuration(0, vec![build::scope(1, build::comp(1))]);
    for (second, place, branch) in [(1, 0, 0), (0, 1, 0), (0, 0, 1), (65_535, 0, 0)] {
        cases.edge(&before, Numbers::new(0, 3, second, place, branch), 100, 3);
    }
    for (engine, position, number) in [(0, 3, 0), (1, 3, 2), (0, 4, 2), (0, 2, 2), (0, 0, 3)] {
        cases.edge(&before, Numbers::new(engine, position, 0, 0, 0), 100, number);
    }
}

/// Less at the ends of the signed values, in assign, if and while. The variable assigned holds 9 before, so that neither
/// 0 nor 1 is left over.
fn of_signs(cases: &mut Cases) {
    let ends = [0, 0x7fff_ffff, 0x8000_0000, 0xffff_ffff];
    for (left, right) in ends.iter().flat_map(|l| ends.iter().map(move |r| (*l, *r))) {
        let less = build::binary(Operator::Less, build::variable(31), build::constant(right));
        let processes = [
            build::assign(30, less.clone()),
            build::if_else(less.clone(), build::comp(1), build::throw(1)),
            build::while_true(less, build::comp(1)),
        ];
        for process in processes {
            let mut before = build::configuration(0, vec![build::scope(1, process)]);
            before.engines[0].values[30] = 9;
            before.engines[0].values[31] = left;
            cases.edge(&before, alone(3), 100, 0);
        }
    }
}

/// Packed digits: carries and borrows through all places, each bad digit in each place of each operand, decimal operators
/// inside the others, and 13 in assign, if and while and against the refusals before and behind it.
fn of_digits(cases: &mut Cases) {
    let operators = [Operator::DecimalSum, Operator::DecimalDifference];
    let with = |operator, left, right| {
        build::binary(operator, build::variable(31), build::binary(operator, left, right))
    };
    let assigned = |value: Rc<Expression>, before: u32| {
        let assign = build::assign(30, value);
        let mut configuration = build::configuration(0, vec![build::scope(1, assign)]);
        configuration.engines[0].values[30] = 0xabcd;
        configuration.engines[0].values[31] = before;
        configuration
    };
    let pairs = [
        (0x9999_9999, 1),
        (0x9999_9999, 0x9999_9999),
        (0, 1),
        (0, 0x9999_9999),
        (0x1000_0000, 1),
        (0x0999_9995, 5),
        (0x1234_5678, 0x8765_4321),
        (0x8000_0000, 0x8000_0000),
    ];
    for operator in operators {
        for (left, right) in pairs {
            let value = build::binary(operator, build::variable(31), build::constant(right));
            cases.edge(&assigned(value, left), alone(3), 100, 0);
        }
        for place in 0..8 {
            for digit in [10, 15] {
                let bad = digit << (4 * place);
                let left = build::binary(operator, build::constant(bad), build::constant(1));
                let right = build::binary(operator, build::constant(1), build::constant(bad));
                for value in [left, right] {
                    cases.edge(&assigned(value, 0), alone(3), 100, 13);
                }
            }
        }
        let good = with(operator, build::constant(5), build::constant(7));
        let bad = with(operator, build::constant(5), build::constant(0xa));
        for outer in [Operator::Sum, Operator::Less, Operator::Equal, operators[0], operators[1]] {
            for (inner, number) in [(&good, 0), (&bad, 13)] {
                let left = build::binary(outer, inner.clone(), build::constant(2));
                let right = build::binary(outer, build::constant(2), inner.clone());
                for value in [left, right] {
                    cases.edge(&assigned(value, 3), alone(3), 100, number);
                }
            }
        }
        of_not_decimal(cases, &build::binary(operator, build::constant(0xa), build::constant(0)));
    }
}

/// An expression without a value in assign, if and while: 3 goes before 13, and 13 before 8, 9 and 10.
fn of_not_decimal(cases: &mut Cases, bad: &Rc<Expression>) {
    let processes = [
        build::assign(1, bad.clone()),
        build::if_else(bad.clone(), build::comp(1), build::throw(1)),
        build::while_true(bad.clone(), build::comp(1)),
    ];
    for process in processes {
        let before = build::configuration(0, vec![build::scope(1, process)]);
        for (second, place, branch) in [(1, 0, 0), (0, 1, 0), (0, 0, 1)] {
            cases.edge(&before, Numbers::new(0, 3, second, place, branch), 100, 3);
        }
        for room in [0, 1, 100] {
            cases.edge(&before, alone(3), room, 13);
        }
    }
    let long = filler(4100).expect("words enough");
    for (body, number) in [(nest(WAYS[0], 62), 8), (long, 9)] {
        for (condition, number) in [(build::constant(1), number), (bad.clone(), 13)] {
            let again = build::while_true(condition, body.clone());
            let before = build::configuration(0, vec![build::scope(1, again)]);
            cases.edge(&before, alone(3), STANDARD.words, number);
        }
    }
}

/// The first and the last name as keys, and where they come in a list.
fn of_keys(cases: &mut Cases) {
    for name in [0, 63] {
        for (key, number) in [(Key::Fault(name), 0), (Key::Scope(name), 1)] {
            let empty = holding(key, build::nil(), build::throw(name));
            cases.edge(&empty, alone(4 + 1), 200, number);
            for (mover, kind) in [(build::throw(name), 13), (build::comp(name), 14)] {
                let full = holding(key, build::notify(name, 31, 30), mover);
                cases.edge(&full, first(&full, kind), 200, 0);
            }
        }
    }
    let comp = build::comp;
    let old = build::list([(Key::Fault(1), comp(1)), (Key::Scope(62), comp(2))]);
    let keys = [Key::Fault(0), Key::Fault(63), Key::Scope(0), Key::Scope(63)];
    let new = keys.into_iter().map(|key| (key, comp(3))).collect();
    let root = build::scope_with(1, Mark::None, false, old, build::inst(new));
    let inst = build::configuration(0, vec![root]);
    cases.edge(&inst, first(&inst, 12), 200, 0);
}

/// A throw beside a side of thousands of enabled processes, with an inst or a live scope with nil body first among them, in the middle, last or
/// nowhere, and in a second of a seq and beside a zombie's nil body, where they do not count.
fn of_sides(cases: &mut Cases) {
    fn balanced(processes: &[Part]) -> Part {
        match processes {
            [one] => one.clone(),
            _ => {
                let (left, right) = processes.split_at(processes.len() / 2);
                build::par(balanced(left), balanced(right))
            }
        }
    }
    let inst = || build::inst(List::new());
    let zombie = |body| build::scope_with(3, Mark::OwnName, true, List::new(), body);
    let idle = || build::one_way(1, 1);
    for (process, number) in [
        (inst(), 6),
        (build::scope(3, build::nil()), 6),
        (zombie(inst()), 6),
        (build::executor(2, 2, 0, 1, build::seq(inst(), idle())), 6),
        (zombie(build::nil()), 0),
        (build::seq(idle(), inst()), 0),
    ] {
        for place in [0, 500, 1000] {
            let mut all = vec![idle(); 1000];
            all.insert(place, process.clone());
            let side = balanced(&all);
            let at = 4 + measure::size(&side) as u16;
            let root = build::scope(1, build::par(side, build::throw(2)));
            let before = build::configuration(1, vec![root]);
            cases.edge(&before, alone(at), 3_000, number);
        }
    }
}

/// One case for each way to break a condition of readable.
fn of_damage(cases: &mut Cases) {
    let mut random = Random::new(7);
    for (_, broken) in damage::CONDITIONS {
        for seed in 0..200 {
            let origin = ORIGINS[seed as usize % ORIGINS.len()];
            let start = Run::new(seed, origin).configuration();
            let words = start.and_then(|c| broken(&mut random, &c));
            if let Some(words) = words.filter(|w| w.len() < 400) {
                cases.add(Case::new(&words, alone(0), 1000));
                break;
            }
        }
    }
}

fn main() -> std::io::Result<()> {
    let folder = std::env::args().nth(1).unwrap_or_else(|| ".".to_string());
    let mut cases = Cases::default();
    of_runs(&mut cases);
    of_depth(&mut cases);
    of_leaves(&mut cases);
    of_length(&mut cases);
    of_serials(&mut cases);
    of_meetings(&mut cases);
    of_counts(&mut cases);
    of_replies(&mut cases);
    of_widths(&mut cases);
    of_unreadable_lists(&mut cases);
    of_five(&mut cases);
    of_eight(&mut cases);
    of_places(&mut cases);
    of_deep_places(&mut cases);
    of_values(&mut cases);
    of_signs(&mut cases);
    of_digits(&mut cases);
    of_keys(&mut cases);
    of_sides(&mut cases);
    of_damage(&mut cases);
    for words in [&[][..], &[1], &[1, 0]] {
        cases.add(Case::new(words, alone(0), 8));
    }
    let mut coverage = Coverage::default();
    for case in &cases.all {
        for (row, count) in case.coverage().counts {
            *coverage.counts.entry(row).or_insert(0) += count;
        }
    }
    let missing = coverage.missing();
    assert_eq!(missing, NO_STEPS, "rows that no case meets");
    fs::write(Path::new(&folder).join("stdin"), cases.input())?;
    fs::write(Path::new(&folder).join("stdout"), cases.output())?;
    println!("{} cases, {} rows", cases.all.len(), ROWS.len() - missing.len());
    Ok(())
}
