//! The two cabinets on the same configurations, lent the same: the small one accepts exactly where the
//! large one does with input and result inside its figures, with the same answer and bytes. Runs in
//! which they take turns, with takings back, and what is finished delivered by each that reads it.

use library::cabinet::Cabinet;
use library::compare::{unpacked, Comparison};
use library::input::{Input, Source};
use library::journal::{Journals, Left};
use library::memory::Plain;
use library::outputs::{Output, LONGEST};
use library::walk::class;
use reference::bytes::{from_words, to_words};
use reference::generate::cabinets::{deep_here_long_there, Outcome, Seen};
use reference::generate::random::Random;
use reference::generate::run::{Origin, Run};
use reference::generate::steps::fitting;
use reference::journal::journal_of;
use reference::{check_readable, readable, write, Numbers, SMALL};

const FILL: u8 = 0x5a;

/// Each cabinet with journals of its own.
struct Pair {
    large: Journals<Plain>,
    small: Journals<Plain>,
    seen: Seen,
    /// Steps that each took, deliveries tried in the small one, takings back.
    taken: [usize; 2],
    delivered: usize,
    back: usize,
}

impl Pair {
    fn new() -> Pair {
        let journals = |cabinet| Journals::new(cabinet, Plain::default(), Plain::default());
        Pair {
            large: journals(Cabinet::Large),
            small: journals(Cabinet::Small),
            seen: Seen::default(),
            taken: [0; 2],
            delivered: 0,
            back: 0,
        }
    }

    /// A step in both, lent the same; what each left.
    fn step(
        &mut self,
        words: &[u16],
        numbers: Numbers,
        output: &[u8],
        journal: &[u8],
    ) -> [Left; 2] {
        let config = from_words(words);
        let large = self.large.step(&config, numbers, output, journal);
        let small = self.small.step(&config, numbers, output, journal);
        self.seen.judge(words, &outcome(&large), &outcome(&small));
        [large, small]
    }

    /// Every delivery of what is finished, in the small cabinet while it reads the words, with an
    /// output just as long as they are and a journal just long enough.
    fn deliveries(&mut self, words: &[u16]) {
        let Some(before) = readable::read(&SMALL, words) else { return };
        for (numbers, _) in fitting(&before) {
            let mut output = vec![0; words.len()];
            let answer = reference::step(&SMALL, words, numbers, &mut output);
            if !matches!(answer.kind, 16 | 18) {
                continue;
            }
            let needed = journal_of(words, &output[..usize::from(answer.length)]).len();
            let config = from_words(words);
            let lent = vec![FILL; config.len()];
            let left = self.small.step(&config, numbers, &lent, &vec![FILL; 2 * needed]);
            assert_eq!(left.number(), 0, "{numbers:?} is not delivered");
            assert_eq!(
                self.small.step(&config, numbers, &lent, &vec![FILL; 2 * needed - 1]).number(),
                16
            );
            self.delivered += 1;
        }
    }
}

fn outcome(left: &Left) -> Outcome<'_> {
    let answer = unpacked(left.answer);
    let result = to_words(&left.output[..2 * left.length()]).expect("whole words");
    Outcome { answer, result, left: vec![&left.output, &left.journal] }
}

/// A run in which either cabinet takes a step, by chance, and some of them are taken back.
fn walk(pair: &mut Pair, origin: Origin, seed: u64, steps: usize) {
    let mut run = Run::new(seed, origin);
    let mut turns = Random::new(seed);
    let mut standing: Vec<(Vec<u16>, Vec<u8>)> = Vec::new();
    for step in 0..steps {
        let Some(call) = run.call() else { return };
        let output = vec![FILL; 2 * call.room + step % 2];
        let length = [Cabinet::Large, Cabinet::Small][turns.below(2)].journal() + turns.below(2);
        let [large, small] = pair.step(&run.words, call.numbers, &output, &vec![FILL; length]);
        pair.deliveries(&run.words);
        let turn = turns.below(2);
        let left = if turn == 0 { &large } else { &small };
        if left.number() != 0 {
            continue;
        }
        pair.taken[turn] += 1;
        standing.push((run.words.clone(), left.journal.clone()));
        run.take(&unpacked(left.answer), &outcome(left).result);
        while turns.percent(20) {
            let Some((before, journal)) = standing.pop() else { break };
            let restored = pair.large.back(&from_words(&run.words), &journal, &[FILL; LONGEST]);
            assert_eq!((restored.number(), restored.length()), (0, before.len()));
            assert_eq!(to_words(&restored.output[..2 * before.len()]).expect("words"), before);
            run.words = before;
            pair.back += 1;
        }
    }
}

#[test]
fn cabinets_take_turns() {
    let mut pair = Pair::new();
    for (origin, seeds, steps) in [
        (Origin::Fresh, 300, 60),
        (Origin::Growing, 24, 160),
        (Origin::Readable, 300, 20),
        (Origin::Renumbered, 80, 20),
    ] {
        println!("{}", class(origin));
        for seed in 0..seeds {
            walk(&mut pair, origin, 0xCA_0000 + seed, steps);
        }
    }
    let Pair { seen, taken, delivered, back, .. } = pair;
    println!("{seen:?}, {taken:?} taken, {delivered} delivered, {back} back");
    assert!(seen.both > 5_000 && seen.alike > 5_000, "{seen:?}");
    assert!(
        seen.input_beyond > 10 && seen.deep > 10 && seen.long > 5 && seen.differ > 5,
        "{seen:?}"
    );
    assert!(taken[0] > 1_000 && taken[1] > 1_000 && delivered > 500 && back > 500);
}

/// 8 goes before 9: too deep for the small figures, and too long for either.
#[test]
fn a_result_too_deep_here_is_too_long_there() {
    let (before, position) = deep_here_long_there();
    let words = write::configuration(&before);
    assert_eq!(check_readable(&SMALL, &words), 0);
    let numbers = Numbers::new(0, position, 0, 0, 0);
    let mut pair = Pair::new();
    let [large, small] = pair.step(&words, numbers, &[FILL; LONGEST], &[FILL; 99]);
    assert_eq!([large.number(), small.number()], [9, 8]);
    let config = from_words(&words);
    let source = Source { class: "deep here, long there", seed: 0, step: 0 };
    let input = Input { source, config: &config };
    for (cabinet, number) in [(Cabinet::Large, 9), (Cabinet::Small, 8)] {
        let mut comparison = Comparison::new(cabinet, Plain::default());
        comparison.read_all(&input);
        for length in [0, LONGEST] {
            let output = Output { length, name: "longest" };
            assert_eq!(comparison.step(&input, numbers, output).answer.number, number);
        }
    }
}
