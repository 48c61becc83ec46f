//! Messages of one to four values: every two counts in a notify, in a solicit's message, in its reply
//! to be and in a reply, the same at issued 65,535, and lists that are not readable. Each step is made
//! with every length of output; a delivery needs no more than the configuration is long.

use library::cabinet::{Cabinet, CABINETS};
use library::compare::Comparison;
use library::counts::Wanted;
use library::input::{Input, Source};
use library::memory::Plain;
use library::outputs::{around, Output, LONGEST};
use library::walk::result_length;
use reference::build;
use reference::bytes::from_words;
use reference::configuration::Configuration;
use reference::generate::damage::CONDITIONS;
use reference::generate::edges::filler;
use reference::generate::random::Random;
use reference::process::{Key, List, Mark, Part};
use reference::variables::{Variables, MOST};
use reference::{write, Numbers};

/// A step: what it shows, the configuration, its numbers, the number that it answers.
type Example = (&'static str, Configuration, Numbers, u8);

const MEET: Numbers =
    Numbers { engine: 0, position: 3, second_engine: 1, second_position: 3, branch: 0 };

fn receiving(count: usize) -> Variables {
    Variables([31, 5, 0, 12][..count].to_vec())
}

/// One variable stands there twice.
fn sent(count: usize) -> Variables {
    Variables([30, 6, 30, 1][..count].to_vec())
}

fn counts() -> impl Iterator<Item = (usize, usize)> {
    (1..=MOST).flat_map(|one| (1..=MOST).map(move |other| (one, other)))
}

fn handlers() -> List {
    build::list([(Key::Fault(2), build::throw(3)), (Key::Scope(4), build::comp(5))])
}

/// Two engines; engine 0's variable 3 holds the second one's number, and no two other values are
/// alike.
fn pair(issued: u16, first: &Part, second: &Part) -> Configuration {
    let list = build::list([(Key::Scope(7), build::comp(7))]);
    let root = |part: &Part| build::scope_with(1, Mark::None, false, list.clone(), part.clone());
    let mut both = build::configuration(issued, vec![root(first), build::scope(2, second.clone())]);
    for (number, engine) in (1u32..).zip(&mut both.engines) {
        for (variable, value) in (1u32..).zip(&mut engine.values) {
            *value = (number << 24) + (variable << 16) + variable;
        }
    }
    both.engines[0].values[3] = 1;
    both
}

/// The first stands behind the entry in its root's list.
fn first_at_5(numbers: Numbers) -> Numbers {
    Numbers { position: 5, ..numbers }
}

/// A message to a bare receiver, and to the second branch of a choice.
fn messages(
    all: &mut Vec<Example>,
    class: &'static str,
    issued: u16,
    (from, to): (Part, Part),
    number: u8,
) {
    let other = build::one_way(9, receiving(1));
    let choice = build::choice(vec![(other, build::nil()), (to.clone(), build::comp(8))]);
    all.push((class, pair(issued, &from, &to), first_at_5(MEET), number));
    let branch = Numbers { branch: 2, ..first_at_5(MEET) };
    all.push((class, pair(issued, &from, &choice), branch, number));
}

fn examples() -> Vec<Example> {
    let mut all = Vec::new();
    for (y, x) in counts() {
        let number = if y == x { 0 } else { 5 };
        let both = (build::notify(7, sent(y), 3), build::one_way(7, receiving(x)));
        messages(&mut all, "notify", 4, both, number);
        for reply in [1, MOST] {
            let asks = build::solicit(7, sent(y), 3, receiving(reply), handlers());
            let serves = build::request(7, receiving(x), sent(reply), build::comp(1));
            messages(&mut all, "solicit", 65_534, (asks, serves), number);
            let asks = build::solicit(7, sent(reply), 3, receiving(x), handlers());
            let serves = build::request(7, receiving(reply), sent(y), build::comp(1));
            let both = (asks, serves);
            messages(&mut all, "solicit, counts of the reply", 4, both.clone(), number);
            // Counts that do not fit are 5, also where no serial is left.
            let spent = if y == x { 7 } else { 5 };
            messages(&mut all, "solicit, counts of the reply, issued 65,535", 65_535, both, spent);
        }
        for dead in [false, true] {
            let waits = build::waiter(7, receiving(x), dead, 0, 3, handlers());
            let works = build::executor(7, sent(y), 1, 3, build::nil());
            all.push(("reply", pair(3, &works, &waits), first_at_5(MEET), number));
            let fault = build::notice(7, 9, 1, 3);
            all.push(("fault", pair(3, &fault, &waits), first_at_5(MEET), 0));
        }
    }
    all
}

/// What a process of each width stands beside, around or in: its words are passed over, copied,
/// dropped by a kill and searched.
fn widths() -> Vec<Example> {
    let mut all = Vec::new();
    for (x, y) in counts() {
        let processes = [
            build::one_way(6, receiving(x)),
            build::request(6, receiving(x), sent(y), build::comp(1)),
            build::notify(6, sent(y), 3),
            build::solicit(6, sent(y), 3, receiving(x), handlers()),
            build::executor(6, sent(y), 0, 1, build::one_way(6, receiving(x))),
            build::waiter(6, receiving(x), false, 0, 1, handlers()),
        ];
        let idle = build::one_way(1, 1);
        let alone = Numbers::new(0, 6, 0, 0, 0);
        for process in processes {
            let killed = build::par(build::throw(9), process.clone());
            all.push(("width, killed", pair(1, &killed, &idle), alone, 0));
            let beside = build::par(build::comp(7), process.clone());
            all.push(("width, beside", pair(1, &beside, &process), alone, 0));
            if process.kind() < 16 {
                let list = build::list([(Key::Fault(1), process.clone())]);
                let installs = build::par(build::inst(list), build::seq(idle.clone(), process));
                all.push(("width, installed", pair(1, &installs, &idle), alone, 0));
            }
        }
        // Inside an executor, behind its list.
        let inside = build::executor(6, sent(y), 0, 1, build::comp(7));
        let position = 5 + 3 + y as u16;
        let numbers = Numbers::new(0, position, 0, 0, 0);
        all.push(("width, around", pair(1, &inside, &idle), numbers, 0));
        let last = Numbers { position: position - 1, ..numbers };
        all.push(("width, around", pair(1, &inside, &idle), last, 2));
    }
    all
}

fn compare(comparison: &mut Comparison<Plain>, step: usize, example: Example) {
    let (class, before, numbers, number) = example;
    let config = from_words(&write::configuration(&before));
    let input = Input { source: Source { class, seed: 0, step }, config: &config };
    comparison.read_one(&input);
    let enough = Output { length: LONGEST, name: "longest" };
    let stepped = comparison.step(&input, numbers, enough);
    assert_eq!(stepped.answer.number, number, "{class}, {numbers:?}");
    // What sends and what delivers needs no more output than the configuration is long.
    if number == 0 && matches!(stepped.answer.kind, 9 | 10 | 16 | 18) {
        let own = Output { length: config.len(), name: "as long as the configuration" };
        assert_eq!(comparison.step(&input, numbers, own).answer, stepped.answer, "{class}");
    }
    let words =
        result_length(&comparison.cabinet.limits(), &before, numbers).unwrap_or(config.len() / 2);
    for output in around(words) {
        comparison.step(&input, numbers, output);
    }
}

#[test]
fn messages_of_one_to_four_values_are_answered_alike() {
    CABINETS.into_iter().for_each(messages_of_one_to_four);
}

fn messages_of_one_to_four(cabinet: Cabinet) {
    let mut comparison = Comparison::new(cabinet, Plain::default());
    let all = examples().into_iter().chain(widths());
    for (step, example) in all.enumerate() {
        compare(&mut comparison, step, example);
    }
    comparison.report(
        "messages",
        Wanted {
            calls: 5_000,
            step: &[0, 2, 5, 7, 10],
            readable: &[0],
            kinds: &[9, 10, 12, 13, 14, 16, 18],
            classes: &[
                "notify",
                "solicit",
                "solicit, counts of the reply",
                "solicit, counts of the reply, issued 65,535",
                "reply",
                "fault",
                "width, killed",
                "width, beside",
                "width, installed",
                "width, around",
            ],
            outputs: &["as long as the configuration", "2L - 1", "2L"],
            ..Wanted::default()
        },
    );
}

/// A configuration as long as the cabinet's longest whose solicit has lists of four, and its reply.
#[test]
fn a_full_configuration_takes_solicit_and_reply() {
    CABINETS.into_iter().for_each(full_configuration);
}

fn full_configuration(cabinet: Cabinet) {
    let most = cabinet.limits().words;
    let mut comparison = Comparison::new(cabinet, Plain::default());
    let asks = build::solicit(7, sent(MOST), 3, receiving(MOST), handlers());
    let serves = build::request(7, receiving(MOST), sent(MOST), build::nil());
    let waits = build::waiter(7, receiving(MOST), true, 0, 3, handlers());
    let works = build::executor(7, sent(MOST), 1, 3, build::nil());
    for (step, (first, second)) in [(asks, serves), (works, waits)].into_iter().enumerate() {
        let bare = pair(3, &first, &second).size();
        let rest = filler(most - bare - 1).expect("some words");
        let before = pair(3, &first, &build::par(second, rest));
        assert_eq!(before.size(), most);
        let numbers = Numbers { second_position: 4, ..first_at_5(MEET) };
        compare(&mut comparison, step, ("full", before, numbers, 0));
    }
}

/// Each condition on lists of variables, broken in every way there is, where a step would be
/// accepted otherwise.
#[test]
fn unreadable_lists_are_answered_alike() {
    CABINETS.into_iter().for_each(unreadable_lists);
}

fn unreadable_lists(cabinet: Cabinet) {
    let mut comparison = Comparison::new(cabinet, Plain::default());
    let conditions = CONDITIONS
        .iter()
        .filter(|(name, _)| ["variable", "x twice"].iter().any(|part| name.contains(part)));
    let conditions: Vec<_> = conditions.collect();
    assert_eq!(conditions.len(), 9, "conditions on lists of variables");
    for (seed, (_, before, numbers, _)) in (0u64..).zip(examples()) {
        let mut random = Random::new(seed);
        for (step, (class, damage)) in conditions.iter().enumerate() {
            let Some(words) = damage(&mut random, &before) else { continue };
            let config = from_words(&words);
            let input = Input { source: Source { class, seed, step }, config: &config };
            comparison.read_one(&input);
            let enough = Output { length: LONGEST, name: "longest" };
            assert_eq!(comparison.step(&input, numbers, enough).answer.number, 1, "{class}");
        }
    }
    let classes: Vec<&str> = conditions.iter().map(|(name, _)| *name).collect();
    let wanted =
        Wanted { calls: 5_000, step: &[1], readable: &[1], classes: &classes, ..Wanted::default() };
    comparison.report("unreadable lists", wanted);
}
