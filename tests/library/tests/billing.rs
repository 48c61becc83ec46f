//! Bills through the static library: accepted ones from none to 65,535 replies, the greatest, and
//! every refusal in its place; then on memory that ends or begins at an inaccessible page.

use library::billing::{bytes, litres, rates, replies, Bills, Input};
use library::guard::{Edge, Guarded};
use library::input::Source;
use library::memory::{Memory, Plain};
use library::memory_fault;
use reference::billing::{HIGHEST_RATE, MOST_REPLIES, OPERATIONS, TOTAL_BYTES};
use reference::generate::random::Random;

/// Lengths of totals that are enough.
const ROOMY: [usize; 4] = [TOTAL_BYTES, TOTAL_BYTES + 1, TOTAL_BYTES + 7, TOTAL_BYTES + 100];

/// An accepted bill of so many replies.
fn accepted(random: &mut Random, class: &'static str, seed: u64, count: usize) -> Input {
    Input {
        source: Source { class, seed, step: count },
        rates: bytes(&rates(random)),
        replies: bytes(&replies(random, count)),
        room: ROOMY[random.below(ROOMY.len())],
    }
}

/// The number at a place of the list becomes another.
fn replaced(list: &mut [u8], place: usize, number: u32) {
    list[4 * place..4 * place + 4].copy_from_slice(&number.to_be_bytes());
}

/// A number above the bound: the next one, one that is small in 8 or 16 bits, or any.
fn above(random: &mut Random, bound: u32) -> u32 {
    match random.below(4) {
        0 => bound + 1,
        1 => 0x1_0000,
        2 => u32::MAX,
        _ => bound + 1 + random.below((u32::MAX - bound) as usize) as u32,
    }
}

/// What makes a refusal of an accepted bill with at least one reply.
type Spoil = fn(&mut Random, &mut Input);

fn reply_of(random: &mut Random, input: &Input) -> usize {
    random.below(input.replies.len() / 12)
}

fn high_rate(random: &mut Random, input: &mut Input) {
    let rate = match random.below(3) {
        0 => HIGHEST_RATE + 1,
        1 => u32::MAX,
        _ => above(random, HIGHEST_RATE).max(HIGHEST_RATE + 1),
    };
    replaced(&mut input.rates, random.below(OPERATIONS), rate);
}

/// The list uses operation 0 only, and its rate is not the one.
fn unused_high_rate(random: &mut Random, input: &mut Input) {
    for reply in 0..input.replies.len() / 12 {
        replaced(&mut input.replies, 3 * reply, 0);
    }
    replaced(&mut input.rates, random.between(1, OPERATIONS - 1), HIGHEST_RATE + 1);
}

fn rates_length(random: &mut Random, input: &mut Input) {
    let lengths = [0, 1, 4, 64, 252, 255, 257, 260, 512];
    input.rates.resize(lengths[random.below(lengths.len())], 0);
}

fn operation(random: &mut Random, input: &mut Input) {
    let place = 3 * reply_of(random, input);
    let number = above(random, 63);
    replaced(&mut input.replies, place, number);
}

fn engine(random: &mut Random, input: &mut Input) {
    let place = 3 * reply_of(random, input) + 1;
    let number = above(random, 7);
    replaced(&mut input.replies, place, number);
}

fn cut(random: &mut Random, input: &mut Input) {
    let less = random.between(1, 11);
    input.replies.truncate(input.replies.len() - less);
}

fn short_totals(random: &mut Random, input: &mut Input) {
    input.room = random.below(TOTAL_BYTES);
}

/// 19 goes before 20, wherever both apply.
fn both(random: &mut Random, input: &mut Input) {
    let high: [Spoil; 3] = [high_rate, unused_high_rate, rates_length];
    let unfit: [Spoil; 4] = [operation, engine, cut, short_totals];
    unfit[random.below(unfit.len())](random, input);
    high[random.below(high.len())](random, input);
}

const SPOILS: [(&str, u8, Spoil); 8] = [
    ("rate too high", 19, high_rate),
    ("unused rate too high", 19, unused_high_rate),
    ("rates of another length", 19, rates_length),
    ("operation above 63", 20, operation),
    ("engine above 7", 20, engine),
    ("list cut", 20, cut),
    ("totals short", 20, short_totals),
    ("19 and 20", 19, both),
];

/// Accepted bills and every refusal, with up to so many replies.
fn all<M: Memory>(bills: &mut Bills<M>, seeds: u64, most: usize) {
    for seed in 0..seeds {
        let mut random = Random::new(seed);
        bills.compare(&accepted(&mut random, "empty", seed, 0));
        for (class, _, spoil) in SPOILS {
            let count = random.between(1, most);
            let input = accepted(&mut random, "accepted", seed, count);
            bills.compare(&input);
            let mut spoilt = Input { source: Source { class, ..input.source }, ..input };
            spoil(&mut random, &mut spoilt);
            bills.compare(&spoilt);
        }
    }
}

/// What `all` meets.
fn wanted(seeds: u64) -> Vec<(&'static str, u8, u64)> {
    let spoils = SPOILS.iter().map(|(class, number, _)| (*class, *number, seeds));
    [("empty", 0, seeds), ("accepted", 0, 8 * seeds)].into_iter().chain(spoils).collect()
}

#[test]
fn bills_and_refusals_are_answered_alike() {
    let mut bills = Bills::new(Plain::default(), Plain::default());
    all(&mut bills, 1500, 60);
    bills.report("bills", &wanted(1500));
    assert!(bills.large() > 1500, "too few totals above 32 bits");
}

#[test]
fn every_length_of_a_list_is_answered_alike() {
    let mut bills = Bills::new(Plain::default(), Plain::default());
    for length in 0..=300 {
        let mut random = Random::new(length as u64);
        let class = if length % 12 == 0 { "whole" } else { "cut" };
        let mut input = accepted(&mut random, class, length as u64, 25);
        input.replies.truncate(length);
        bills.compare(&input);
    }
    bills.report("lengths", &[("whole", 0, 26), ("cut", 20, 275)]);
}

#[test]
fn full_lists_and_longer_ones_are_answered_alike() {
    let mut bills = Bills::new(Plain::default(), Plain::default());
    for (step, count) in
        [MOST_REPLIES - 1, MOST_REPLIES, MOST_REPLIES + 1, 2 * 65_536 + 3].into_iter().enumerate()
    {
        for seed in 0..4 {
            let mut random = Random::new(seed);
            let class = if step < 2 { "full" } else { "too long" };
            bills.compare(&accepted(&mut random, class, seed, count));
        }
    }
    for place in [0, 1, 32_767, MOST_REPLIES - 2, MOST_REPLIES - 1] {
        let mut random = Random::new(place as u64);
        let mut input = accepted(&mut random, "unfit in a full list", place as u64, MOST_REPLIES);
        replaced(&mut input.replies, 3 * place + place % 2, 64);
        bills.compare(&input);
    }
    let wanted = [("full", 0, 8), ("too long", 20, 8), ("unfit in a full list", 20, 5)];
    bills.report("full lists", &wanted);
}

/// The same reply, so many times.
fn alike(class: &'static str, rate: u32, reply: [u32; 3], count: usize) -> Input {
    Input {
        source: Source { class, seed: u64::from(rate), step: count },
        rates: bytes(&[rate; OPERATIONS]),
        replies: bytes(&reply.repeat(count)),
        room: TOTAL_BYTES,
    }
}

#[test]
fn the_greatest_bills_are_answered_alike() {
    let mut bills = Bills::new(Plain::default(), Plain::default());
    for engine in 0..8 {
        for operation in [0, 63] {
            let greatest = [operation, engine, u32::MAX];
            bills.compare(&alike("greatest", HIGHEST_RATE, greatest, MOST_REPLIES));
            bills.compare(&alike("above the highest", HIGHEST_RATE + 1, greatest, 1));
            bills.compare(&alike("one cent each", 1, [operation, engine, 1], MOST_REPLIES));
        }
    }
    for seed in 0..16 {
        let mut random = Random::new(seed);
        let mut input = accepted(&mut random, "greatest rates", seed, 5000);
        input.rates = bytes(&[HIGHEST_RATE; OPERATIONS]);
        bills.compare(&input);
    }
    let wanted = [
        ("greatest", 0, 16),
        ("above the highest", 19, 16),
        ("one cent each", 0, 16),
        ("greatest rates", 0, 16),
    ];
    bills.report("greatest", &wanted);
    assert_eq!(bills.large(), 32, "a greatest bill has more than 32 bits");
}

#[test]
fn every_rate_is_looked_at_and_every_remainder_rounded() {
    let mut bills = Bills::new(Plain::default(), Plain::default());
    for operation in 0..OPERATIONS {
        let mut input = alike("rate too high", 1, [0, 0, 1], 1);
        replaced(&mut input.rates, operation, HIGHEST_RATE + 1);
        bills.compare(&input);
        replaced(&mut input.rates, operation, HIGHEST_RATE);
        input.source.class = "highest rate";
        bills.compare(&input);
    }
    let mut random = Random::new(0);
    for remainder in 0..1000 {
        let whole = 1000 * random.below(4_294_967) as u32;
        bills.compare(&alike("remainder", 1, [0, 0, whole + remainder], 1));
        bills.compare(&alike("remainder", 999, [0, 0, litres(&mut random)], 1));
    }
    let wanted = [("rate too high", 19, 64), ("highest rate", 0, 64), ("remainder", 0, 2000)];
    bills.report("rates and remainders", &wanted);
}

fn guarded(edge: Edge, name: &'static str) {
    memory_fault::report(name);
    let mut bills = Bills::new(Guarded::new(edge), Guarded::new(edge));
    all(&mut bills, 60, 300);
    let count = 40_960 / 12;
    bills.compare(&accepted(&mut Random::new(0), "as long as the pages", 0, count));
    let mut wanted = wanted(60);
    wanted.push(("as long as the pages", 0, 1));
    bills.report(name, &wanted);
}

#[test]
fn nothing_behind_what_is_lent_is_touched() {
    guarded(Edge::End, "bills end at a guard page");
}

#[test]
fn nothing_before_what_is_lent_is_touched() {
    guarded(Edge::Begin, "bills begin behind a guard page");
}
