//! The bill on both sides: the library's number and every byte of the totals are the second
//! implementation's, rates and replies stay as they were, and so does all around what was lent.

use crate::input::{Call, Source};
use crate::memory::{Lent, Memory};
use crate::memory_fault;
use crate::outputs::pattern;
use reference::billing::{self, HIGHEST_RATE, OPERATIONS};
use reference::generate::random::Random;
use std::collections::BTreeMap;

extern "C" {
    fn sock_bill(
        rates: *const u8,
        rates_length: usize,
        replies: *const u8,
        replies_length: usize,
        totals: *mut u8,
        totals_length: usize,
    ) -> u8;
}

fn exported(rates: Lent, replies: Lent, totals: Lent) -> u8 {
    // All three are lent whole for the call, and no reference to them is held meanwhile.
    unsafe {
        sock_bill(
            rates.start,
            rates.length,
            replies.start,
            replies.length,
            totals.start,
            totals.length,
        )
    }
}

/// What a bill is made from, and where it comes from.
#[derive(Clone, Debug)]
pub struct Input {
    pub source: Source,
    pub rates: Vec<u8>,
    pub replies: Vec<u8>,
    /// Length of the totals lent.
    pub room: usize,
}

/// Makes bills on memory of one kind and counts what they meet.
pub struct Bills<M> {
    /// Rates are lent from the one, replies and totals from the other.
    tariff: M,
    list: M,
    met: BTreeMap<(&'static str, u8), u64>,
    /// Accepted bills with a total above 32 bits.
    large: u64,
}

impl<M: Memory> Bills<M> {
    pub fn new(tariff: M, list: M) -> Bills<M> {
        Bills { tariff, list, met: BTreeMap::new(), large: 0 }
    }

    pub fn compare(&mut self, input: &Input) {
        let Input { source, rates, replies, room } = input;
        let before = pattern(source.seed, *room);
        let mut expected = before.clone();
        let number = billing::sock_bill(rates, replies, &mut expected);
        let lent_rates = self.tariff.configuration(rates);
        let lent_replies = self.list.configuration(replies);
        let totals = self.list.output(&before);
        let lengths = Call::Bill { rates: rates.len(), replies: replies.len(), totals: *room };
        memory_fault::entering(*source, lengths);
        let answer = exported(lent_rates, lent_replies, totals);
        assert_eq!(answer, number, "number of {source}: {lengths:?}");
        assert_eq!(totals.bytes(), expected, "totals of {source}: {lengths:?}");
        assert!(lent_rates.bytes() == rates, "the rates of {source} have changed");
        assert!(lent_replies.bytes() == replies, "the replies of {source} have changed");
        assert!(self.tariff.intact() && self.list.intact(), "{source} wrote outside");
        *self.met.entry((source.class, number)).or_insert(0) += 1;
        let high = |eight: &[u8]| eight[..4] != [0; 4];
        if number == 0 && expected[..64].chunks(8).any(high) {
            self.large += 1;
        }
    }

    /// Prints what was met and fails unless it is exactly this: classes with the numbers that they
    /// were answered, each at least so often.
    pub fn report(&self, test: &str, wanted: &[(&'static str, u8, u64)]) {
        println!("{test}: {:?}, {} with more than 32 bits", self.met, self.large);
        let classes: Vec<_> = self.met.keys().copied().collect();
        let mut expected: Vec<_> =
            wanted.iter().map(|(class, number, _)| (*class, *number)).collect();
        expected.sort_unstable();
        assert_eq!(classes, expected, "{test} met other classes and numbers");
        for (class, number, least) in wanted {
            let count = self.met[&(*class, *number)];
            assert!(count >= *least, "{test} met {class} answered {number} only {count} times");
        }
    }

    pub fn large(&self) -> u64 {
        self.large
    }
}

pub fn bytes(numbers: &[u32]) -> Vec<u8> {
    numbers.iter().flat_map(|number| number.to_be_bytes()).collect()
}

/// Rates up to the highest, with many near the ends.
pub fn rates(random: &mut Random) -> [u32; OPERATIONS] {
    std::array::from_fn(|_| match random.below(5) {
        0 => 0,
        1 => HIGHEST_RATE,
        2 => random.below(3) as u32,
        _ => random.between(0, HIGHEST_RATE as usize) as u32,
    })
}

/// A 32-bit number, with many near the ends, near the sign and near whole thousands.
pub fn litres(random: &mut Random) -> u32 {
    match random.below(6) {
        0 => random.below(4) as u32,
        1 => u32::MAX - random.below(4) as u32,
        2 => 0x7FFF_FFFE + random.below(4) as u32,
        3 => 1000 * random.below(4_294_967) as u32 + random.below(3) as u32,
        _ => random.bits() as u32,
    }
}

/// Replies in range, as numbers.
pub fn replies(random: &mut Random, count: usize) -> Vec<u32> {
    let reply = |_| [random.below(64) as u32, random.below(8) as u32, litres(random)];
    (0..count).flat_map(reply).collect()
}
