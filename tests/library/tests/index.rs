//! The index of open requests (document 02, g) through the static library: after each step and each
//! taking back of a run it is what a reading of the whole configuration gives; indexes that have
//! nothing to do with the configuration; indexes out of form; 2,047 and 2,048 serials; every length;
//! and guard pages around all that is lent.

use library::compare::unpacked;
use library::guard::{Edge, Guarded};
use library::index::{Indexes, Left};
use library::input::Source;
use library::memory::{Memory, Plain};
use library::memory_fault;
use reference::bytes::{from_words, to_words};
use reference::generate::edges;
use reference::generate::indexes::{crowded, in_order, serials, DISORDERS};
use reference::generate::random::Random;
use reference::generate::run::{Origin, Run};
use reference::index::{index_of, open_serials, Serials, INDEX_BYTES, MOST};
use reference::journal::{journal_of, JOURNAL_ENOUGH};
use reference::{write, Numbers, STANDARD};

const FILL: u8 = 0x5a;
const ALL: usize = 2 * 8192 + 1;
const ASKS: Numbers =
    Numbers { engine: 0, position: 3, second_engine: 1, second_position: 3, branch: 0 };

fn plain() -> Indexes<Plain> {
    Indexes::new([0; 3].map(|_| Plain::default()))
}

/// What a run met: the most serials open at once, takings back, and those after which more were open.
#[derive(Clone, Copy, Debug, Default)]
struct Seen {
    most: u16,
    back: usize,
    reopened: usize,
}

/// The index is the reading of the run's configuration, and the bytes past it are as they were.
fn follows<M: Memory>(indexes: &mut Indexes<M>, run: &Run, index: &[u8], past: &[u8]) -> u16 {
    let open = open_serials(&run.configuration().expect("a run stays readable"));
    assert!(index[..INDEX_BYTES] == from_words(&index_of(&open)), "{}", indexes.source);
    assert_eq!(&index[INDEX_BYTES..], past, "{}", indexes.source);
    let first = open.first().copied().unwrap_or(0);
    let count = open.len() as u16;
    assert_eq!(indexes.ask(index), (0, [count, first]), "{}", indexes.source);
    count
}

/// A run from a fresh start: steps, each with a journal and the index, takings back of some of them,
/// and calls that are refused between them.
fn walk<M: Memory>(
    indexes: &mut Indexes<M>,
    seen: &mut Seen,
    (seed, mut run): (u64, Run),
    steps: usize,
) {
    let past = [0x77, 0x88, 0x99][..seed as usize % 4].to_vec();
    indexes.source = Source { class: "run", seed, step: 0 };
    let before = [vec![FILL; INDEX_BYTES], past.clone()].concat();
    let (number, mut index) = indexes.begin(&from_words(&run.words), &before);
    assert_eq!(number, 0);
    let mut standing: Vec<(Vec<u16>, Vec<u8>)> = Vec::new();
    for step in 0..steps {
        indexes.source = Source { class: "run", seed, step };
        let open = follows(indexes, &run, &index, &past);
        seen.most = seen.most.max(open);
        let mut taken_back = false;
        while run.random.percent(25) && !standing.is_empty() {
            let (before, journal) = standing.pop().expect("one stands");
            let config = from_words(&run.words);
            refused_back(indexes, &config, &journal, &index);
            let left = indexes.back(&config, &journal, &vec![FILL; 2 * before.len() + 1], &index);
            assert_eq!((left.number(), left.length()), (0, before.len()));
            assert_eq!(left.output[..2 * before.len()], from_words(&before));
            index = left.index;
            run.words = before;
            seen.back += 1;
            seen.reopened += usize::from(follows(indexes, &run, &index, &past) > open);
            taken_back = true;
        }
        if taken_back {
            continue;
        }
        let Some(call) = run.call() else { return };
        let config = from_words(&run.words);
        let output = vec![FILL; 2 * call.room + step % 2];
        let enough = vec![FILL; 2 * JOURNAL_ENOUGH];
        refused_steps(indexes, &config, call.numbers, &output, &index);
        let left = indexes.step(&config, call.numbers, &output, &enough, &index);
        if left.number() != 0 {
            continue;
        }
        let next = to_words(&left.output[..2 * left.length()]).expect("whole words");
        let needed = journal_of(&run.words, &next).len();
        exact_journal(indexes, &config, call.numbers, &left, (needed, &index));
        standing.push((run.words.clone(), left.journal[..2 * needed].to_vec()));
        run.take(&unpacked(left.answer), &next);
        index = left.index;
    }
}

/// The step with a journal just long enough, and with one a byte shorter (16).
fn exact_journal<M: Memory>(
    indexes: &mut Indexes<M>,
    config: &[u8],
    numbers: Numbers,
    left: &Left,
    (needed, index): (usize, &[u8]),
) {
    let output = vec![FILL; 2 * left.length()];
    let exact = indexes.step(config, numbers, &output, &vec![FILL; 2 * needed], index);
    assert_eq!((exact.answer, &exact.index), (left.answer, &left.index));
    let short = indexes.step(config, numbers, &output, &vec![FILL; 2 * needed - 1], index);
    assert_eq!(short.number(), 16);
    let short = indexes.step(config, numbers, &output[1..], &vec![FILL; 2 * needed], index);
    assert_eq!(short.number(), 10);
}

/// Index out of form before all else; then an odd configuration.
fn refused_steps<M: Memory>(
    indexes: &mut Indexes<M>,
    config: &[u8],
    numbers: Numbers,
    output: &[u8],
    index: &[u8],
) {
    let short = &index[..INDEX_BYTES - 1];
    assert_eq!(indexes.step(config, numbers, output, &[FILL; 8], short).number(), 17);
    assert_eq!(indexes.step(&config[1..], numbers, output, &[], short).number(), 17);
    assert_eq!(indexes.step(&config[1..], numbers, output, &[], index).number(), 1);
}

fn refused_back<M: Memory>(indexes: &mut Indexes<M>, config: &[u8], journal: &[u8], index: &[u8]) {
    let output = vec![FILL; ALL];
    let short = &index[..INDEX_BYTES - 1];
    assert_eq!(indexes.back(config, journal, &output, short).number(), 17);
    assert_eq!(indexes.back(&config[1..], journal, &output, short).number(), 17);
    assert_eq!(indexes.back(&config[1..], journal, &output, index).number(), 1);
    assert_eq!(indexes.back(config, &journal[..6], &output, index).number(), 15);
    assert_eq!(indexes.back(config, journal, &output[..7], index).number(), 10);
}

#[test]
fn the_index_follows_the_configuration() {
    let (mut indexes, mut seen) = (plain(), Seen::default());
    for seed in 0x19_0000..0x19_0000 + 250 {
        let origin = if seed % 25 == 0 { Origin::Growing } else { Origin::Fresh };
        walk(&mut indexes, &mut seen, (seed, Run::new(seed, origin)), 60);
    }
    println!("{seen:?}");
    assert!(seen.most > 2 && seen.back > 1000 && seen.reopened > 30, "{seen:?}");
    let steps = [0, 1, 2, 3, 4, 5, 10, 16, 17].map(|number| ("run", "step", number, 20));
    let back = [0, 1, 10, 15, 17].map(|number| ("run", "back", number, 500));
    indexes.report("runs", &[&steps[..], &back].concat());
}

/// Hundreds of requests are open at once, issued and delivered out of turn.
#[test]
fn the_index_follows_many_open_requests() {
    let (mut indexes, mut seen) = (plain(), Seen::default());
    for (seed, count, steps) in [(1, 40, 500), (2, 150, 1200)] {
        let words = write::configuration(&crowded(count));
        let run = Run { random: Random::new(seed), words, limits: STANDARD };
        walk(&mut indexes, &mut seen, (seed, run), steps);
    }
    println!("{seen:?}");
    assert!(seen.most > 60 && seen.back > 200 && seen.reopened > 10, "{seen:?}");
    indexes.report("many", &[("run", "step", 0, 500), ("run", "back", 0, 200)]);
}

/// Indexes that have nothing to do with what the steps read: put in where it is not so already,
/// also in the middle, and taken out where it stands.
#[test]
fn any_index_in_order_is_taken() {
    let mut indexes = plain();
    let (mut put, mut there, mut out, mut absent) = (0, 0, 0, 0);
    for seed in 0..900 {
        let origin = [Origin::Fresh, Origin::Readable, Origin::Renumbered][seed as usize % 3];
        let mut run = Run::new(seed, origin);
        for step in 0..20 {
            indexes.source = Source { class: "any index", seed, step };
            let Some(call) = run.call() else { break };
            let near = [run.words[1].saturating_add(1), 2][run.random.below(2)];
            let index = from_words(&in_order(&mut run.random, near));
            let config = from_words(&run.words);
            let output = vec![FILL; 2 * call.room];
            let enough = vec![FILL; 2 * JOURNAL_ENOUGH];
            let left = indexes.step(&config, call.numbers, &output, &enough, &index);
            let answer = unpacked(left.answer);
            let changed = left.index != index;
            match answer.kind {
                10 if changed => put += 1,
                10 => there += 1,
                16 | 18 if changed => out += 1,
                16 | 18 => absent += 1,
                _ => assert!(!changed),
            }
            let next = to_words(&left.output[..2 * left.length()]).expect("whole words");
            if answer.number == 0 {
                let journal = from_words(&journal_of(&run.words, &next));
                let any = from_words(&in_order(&mut run.random, near));
                let back = indexes.back(&from_words(&next), &journal, &config, &any);
                let open = open_serials(&run.configuration().expect("readable"));
                assert!(back.index == from_words(&index_of(&open)), "{}", indexes.source);
            }
            run.take(&answer, &next);
        }
    }
    println!("{put} put in, {there} there already, {out} taken out, {absent} absent");
    assert!(put > 100 && there > 50 && out > 50 && absent > 50, "{put} {there} {out} {absent}");
}

/// What every call answers to an index: begun anew where it is long enough, else the number.
fn tried<M: Memory>(indexes: &mut Indexes<M>, index: &[u8], number: u8) {
    let words = write::configuration(&edges::serials(40));
    let start = from_words(&write::configuration(&edges::serials(0)));
    let config = from_words(&words);
    let (mut next, mut journal) = (vec![0; words.len()], vec![0; 400]);
    let answer = reference::journal::step_journal(&STANDARD, &words, ASKS, &mut next, &mut journal);
    let next = from_words(&next[..usize::from(answer.length)]);
    let journal = from_words(&journal);
    let source = indexes.source;
    let begun = if index.len() < INDEX_BYTES { 17 } else { 0 };
    assert_eq!(indexes.begin(&start, index).0, begun, "{source}");
    let left = indexes.step(&config, ASKS, &vec![FILL; config.len()], &[FILL; 800], index);
    assert_eq!(left.number(), number, "{source}: step");
    let left = indexes.back(&next, &journal, &vec![FILL; config.len()], index);
    assert_eq!(left.number(), number, "{source}: taking back");
    assert_eq!(indexes.ask(index).0, number, "{source}: questions");
    // Where other refusals would apply too.
    for (config, other) in [(&config[..3], 1), (&config[..0], 1)] {
        let expected = if number == 0 { other } else { 17 };
        assert_eq!(indexes.step(config, ASKS, &[], &[], index).number(), expected, "{source}");
        assert_eq!(indexes.back(config, &[], &[], index).number(), expected, "{source}");
        let expected = if index.len() < INDEX_BYTES { 17 } else { 1 };
        assert_eq!(indexes.begin(config, index).0, expected, "{source}");
    }
}

fn disorders<M: Memory>(indexes: &mut Indexes<M>, seeds: u64) {
    for seed in 0..seeds {
        let mut random = Random::new(seed);
        let index = in_order(&mut random, 41);
        indexes.source = Source { class: "in order", seed, step: 0 };
        tried(indexes, &from_words(&index), 0);
        for (step, (class, disorder)) in DISORDERS.iter().enumerate() {
            let Some(index) = disorder(&mut random, &index) else { continue };
            indexes.source = Source { class, seed, step };
            tried(indexes, &from_words(&index), 17);
        }
    }
    let wanted: Vec<_> = DISORDERS.iter().map(|(class, _)| (*class, "step", 17, 1)).collect();
    indexes.report("disorders", &wanted);
}

#[test]
fn indexes_out_of_form_are_refused() {
    disorders(&mut plain(), 300);
}

/// Each of the 2,049 words changed, in indexes of 0, 1, 60 and 2,047 serials.
#[test]
fn every_changed_word_is_answered_alike() {
    let mut indexes = plain();
    for (seed, count) in [0, 1, 60, MOST].into_iter().enumerate() {
        let mut random = Random::new(seed as u64);
        let index = index_of(&serials(&mut random, count, 41));
        for at in 0..index.len() {
            let own = index[at];
            let contents = [own.wrapping_add(1), own.wrapping_sub(1), own ^ 0x100, 0, u16::MAX];
            for (kind, content) in contents.into_iter().enumerate() {
                let mut damaged = index.clone();
                damaged[at] = content;
                indexes.source =
                    Source { class: "changed word", seed: seed as u64, step: 10 * at + kind };
                let number = if reference::index::listed(&damaged).is_some() { 0 } else { 17 };
                assert_eq!(indexes.ask(&from_words(&damaged)).0, number);
                if kind == at % 5 {
                    tried(&mut indexes, &from_words(&damaged), number);
                }
            }
        }
    }
    let wanted =
        [("changed word", "questions", 0, 1000), ("changed word", "questions", 17, 10_000)];
    indexes.report("changed words", &wanted);
}

/// 2,047 serials are in order; an accepted solicit makes them 2,048, and every call then refuses.
#[test]
fn a_full_index_takes_one_more() {
    let mut indexes = plain();
    indexes.source = Source { class: "full", seed: 0, step: 0 };
    let config = from_words(&write::configuration(&edges::serials(5000)));
    let mut step =
        |index: &[u8]| indexes.step(&config, ASKS, &vec![FILL; 400], &[FILL; 800], index);
    let all: [Serials; 3] = [
        (1..=MOST as u16).collect(),
        (6000..6000 + MOST as u16).collect(),
        (1..=1000).chain(60_000..60_000 + MOST as u16 - 1000).collect(),
    ];
    for mut serials in all {
        let left = step(&from_words(&index_of(&serials)));
        serials.insert(5001);
        assert_eq!((left.number(), serials.len()), (0, MOST + 1));
        assert!(left.index == from_words(&index_of(&serials)));
        assert_eq!(step(&left.index).number(), 17);
        let other = serials.iter().copied().find(|serial| *serial != 5001);
        serials.remove(&other.expect("others"));
        let left = step(&from_words(&index_of(&serials)));
        assert_eq!(left.number(), 0, "2,047, and 5,001 among them");
        assert!(left.index == from_words(&index_of(&serials)));
    }
    let over = from_words(&index_of(&(1..=MOST as u16 + 1).collect()));
    tried(&mut indexes, &over, 17);
}

#[test]
fn every_length_is_answered_alike() {
    let mut indexes = plain();
    let mut random = Random::new(3);
    let mut index = from_words(&index_of(&serials(&mut random, 300, 41)));
    index.extend([9; 40]);
    for length in (0..=index.len()).filter(|l| *l < 40 || l % 97 == 0 || *l + 12 > INDEX_BYTES) {
        let class = if length < INDEX_BYTES { "cut" } else { "whole" };
        indexes.source = Source { class, seed: 0, step: length };
        tried(&mut indexes, &index[..length], if length < INDEX_BYTES { 17 } else { 0 });
    }
    let wanted = [("cut", "step", 17, 90), ("whole", "step", 0, 40), ("whole", "begin", 0, 40)];
    indexes.report("lengths", &wanted);
}

/// 17, then 1 and 11 as the start check; whatever stood in the index before.
#[test]
fn an_index_is_begun_with_a_start() {
    let mut indexes = plain();
    for seed in 0..400 {
        let origin = [Origin::Fresh, Origin::Readable][seed as usize % 2];
        let config = from_words(&Run::new(seed, origin).words);
        indexes.source = Source { class: "begin", seed, step: 0 };
        for length in [0, 1, INDEX_BYTES - 1, INDEX_BYTES, INDEX_BYTES + 1, INDEX_BYTES + 7] {
            let before = library::outputs::pattern(seed, length);
            let (number, index) = indexes.begin(&config, &before);
            let expected = match length < INDEX_BYTES {
                true => 17,
                false => reference::sock_check_start(&config),
            };
            assert_eq!(number, expected);
            if number == 0 {
                assert!(index[..INDEX_BYTES].iter().all(|byte| *byte == 0));
                assert_eq!(index[INDEX_BYTES..], before[INDEX_BYTES..]);
            }
            indexes.begin(&config[1..], &before);
        }
    }
    let wanted = [0, 1, 11, 17].map(|number| ("begin", "begin", number, 100));
    indexes.report("begin", &wanted);
}

fn guarded(edge: Edge, name: &'static str) {
    memory_fault::report(name);
    let mut indexes = Indexes::new([0; 3].map(|_| Guarded::new(edge)));
    let mut seen = Seen::default();
    for seed in 0..20 {
        walk(&mut indexes, &mut seen, (seed, Run::new(seed, Origin::Fresh)), 30);
    }
    disorders(&mut indexes, 30);
    let words = index_of(&serials(&mut Random::new(4), MOST, 41));
    let index = from_words(&words);
    for length in [0, 1, 2, 3, 4, 2048, INDEX_BYTES - 2, INDEX_BYTES - 1, INDEX_BYTES] {
        indexes.source = Source { class: "cut", seed: 0, step: length };
        tried(&mut indexes, &index[..length], if length < INDEX_BYTES { 17 } else { 0 });
    }
}

#[test]
fn nothing_behind_what_is_lent_is_touched() {
    guarded(Edge::End, "indexes end at a guard page");
}

#[test]
fn nothing_before_what_is_lent_is_touched() {
    guarded(Edge::Begin, "indexes begin behind a guard page");
}
