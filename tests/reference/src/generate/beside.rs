//! Steps side by side: pairs of steps with no engine in common, and what their two orders have to
//! come to (document 02, l). The caller makes the steps, on any implementation.

use crate::build;
use crate::calls::{transition, Answer, Numbers};
use crate::configuration::{Configuration, Engine};
use crate::generate::edges::filler;
use crate::generate::steps::fitting;
use crate::limits::Limits;
use crate::measure;
use crate::readable;

/// The kinds that send: notify, solicit, executor, notice.
const SENDING: [u8; 4] = [9, 10, 16, 18];

const SOLICIT: u8 = 10;

/// The refusals that depend on lengths alone: long, and short output.
const BY_LENGTH: [u8; 2] = [9, 10];

/// A step that is accepted, or refused for its result's length only.
#[derive(Clone, Debug)]
pub struct Proposed {
    pub numbers: Numbers,
    pub kind: u8,
    /// The first engine, and the second where the acting process sends.
    pub engines: Vec<u16>,
}

/// Every such step of a configuration.
pub fn proposed(limits: &Limits, configuration: &Configuration) -> Vec<Proposed> {
    let mut all = Vec::new();
    for (numbers, _) in fitting(configuration) {
        let Ok(result) = transition(configuration, numbers) else { continue };
        if result.configuration.depth() > limits.depth {
            continue;
        }
        let mut engines = vec![numbers.engine];
        if SENDING.contains(&result.kind) {
            engines.push(numbers.second_engine);
        }
        all.push(Proposed { numbers, kind: result.kind, engines });
    }
    all
}

/// Every two of them with no engine in common.
pub fn pairs(all: &[Proposed]) -> Vec<[&Proposed; 2]> {
    let mut pairs = Vec::new();
    for (index, one) in all.iter().enumerate() {
        for other in &all[index + 1..] {
            if !one.engines.iter().any(|engine| other.engines.contains(engine)) {
                pairs.push([one, other]);
            }
        }
    }
    pairs
}

/// What an order came to: an answer for each step that was made, and the words after both.
#[derive(Clone, Debug)]
pub struct Order {
    answers: Vec<Answer>,
    words: Option<Vec<u16>>,
}

/// Two steps, the second on what the first one wrote; none after a refusal.
pub fn in_order(
    words: &[u16],
    steps: [&Proposed; 2],
    mut step: impl FnMut(&[u16], Numbers) -> (Answer, Vec<u16>),
) -> Order {
    let mut order = Order { answers: Vec::new(), words: None };
    let mut current = words.to_vec();
    for proposed in steps {
        let (answer, result) = step(&current, proposed.numbers);
        order.answers.push(answer);
        if answer.number != 0 {
            return order;
        }
        others_stay(&current, &result, &proposed.engines);
        current = result;
    }
    order.words = Some(current);
    order
}

/// An accepted step changes no value or process of any other engine, nor how many there are.
fn others_stay(before: &[u16], after: &[u16], engines: &[u16]) {
    let limits = Limits { depth: usize::MAX, words: usize::MAX };
    let [before, after] =
        [before, after].map(|words| readable::read(&limits, words).expect("readable").engines);
    assert_eq!(before.len(), after.len());
    for (number, (old, new)) in before.iter().zip(&after).enumerate() {
        assert!(engines.contains(&(number as u16)) || old == new, "engine {number} changed");
    }
}

/// How many pairs came to what.
#[derive(Clone, Copy, Debug, Default)]
pub struct Seen {
    /// Both orders accepted; among them pairs with one solicit.
    pub both: usize,
    pub with_solicit: usize,
    /// One order accepted, no order accepted.
    pub one: usize,
    pub none: usize,
    /// Two solicits, both orders accepted.
    pub two_solicits: usize,
}

impl Seen {
    /// The first order is of the pair as it stands, the second the other way round; every step had
    /// an output of the same length.
    pub fn judge(&mut self, pair: [&Proposed; 2], orders: [&Order; 2]) {
        let solicits = pair.iter().filter(|step| step.kind == SOLICIT).count();
        match orders.map(|order| order.words.as_ref()) {
            [Some(one), Some(other)] if solicits == 2 => {
                assert_ne!(one, other, "two solicits took the same serials");
                self.two_solicits += 1;
            }
            _ if solicits == 2 => {}
            [Some(one), Some(other)] => {
                assert_eq!(one, other, "the orders end in different words");
                self.both += 1;
                self.with_solicit += solicits;
                let [first, second] = orders.map(|order| &order.answers);
                alike(&first[0], &second[1]);
                alike(&first[1], &second[0]);
            }
            [None, None] => {
                self.none += 1;
                orders.iter().for_each(|order| refused_by_length(order));
            }
            [one, _] => {
                self.one += 1;
                let refused = orders[usize::from(one.is_some())];
                refused_by_length(refused);
                assert_eq!(refused.answers.len(), 1, "refused only after the other step");
            }
        }
    }
}

/// The same kind, serial and fault mark; lengths may differ, since each order has its own between.
fn alike(one: &Answer, other: &Answer) {
    let said = |answer: &Answer| (answer.kind, answer.serial, answer.fault);
    assert_eq!(said(one), said(other));
}

fn refused_by_length(order: &Order) {
    let last = order.answers.last().expect("an answer");
    assert!(BY_LENGTH.contains(&last.number), "refused with {}", last.number);
}

/// The configuration with one more engine, which rests, so that it has exactly this many words;
/// none where there is no room for one.
pub fn padded(configuration: &Configuration, words: usize) -> Option<Configuration> {
    let rests = build::one_way(63, 31);
    // The engine's values, its root and seq.
    let own = 64 + 3 + 1 + measure::size(&rests);
    let rest = filler(words.checked_sub(configuration.size() + own)?)?;
    let mut engines = configuration.engines.clone();
    let process = build::scope(1, build::seq(rests, rest));
    engines.push(Engine { values: [0; 32], process });
    (engines.len() <= 8).then_some(Configuration { issued: configuration.issued, engines })
}
