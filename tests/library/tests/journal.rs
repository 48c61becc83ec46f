//! The step with a journal, of either cabinet, and taking back: long runs with takings back several
//! deep, journals cut, damaged and of other steps, every journal length near the needed one, guard
//! pages around all that is lent, and a stale journal that matches.

use library::cabinet::{Cabinet, CABINETS};
use library::compare::unpacked;
use library::guard::{Edge, Guarded};
use library::journal::Journals;
use library::memory::{Memory, Plain};
use library::memory_fault;
use reference::bytes::{from_words, to_words};
use reference::generate::run::{Origin, Run};
use reference::journal::journal_of;

const FILL: u8 = 0x5a;
const ALL: usize = 2 * 8192 + 1;

/// Steps of a run, each with a journal that is enough, and takings back of some of them.
fn walk<M: Memory>(journals: &mut Journals<M>, origin: Origin, seed: u64, steps: usize) {
    let mut run = Run::within(&journals.cabinet.limits(), seed, origin);
    let enough = vec![FILL; journals.cabinet.journal()];
    // what stands: the words before each step, and its journal
    let mut standing: Vec<(Vec<u16>, Vec<u8>)> = Vec::new();
    let mut stale: Vec<u8> = Vec::new();
    for step in 0..steps {
        let config = from_words(&run.words);
        let Some(call) = run.call() else { return };
        let output = vec![FILL; 2 * call.room + (step & 1)];
        let whole = journals.step(&config, call.numbers, &output, &enough);
        if whole.number() != 0 {
            run.take(
                &unpacked(whole.answer),
                &to_words(&whole.output[..output.len() / 2 * 2]).unwrap(),
            );
            journals.step(&config, call.numbers, &output, &[]);
            continue;
        }
        let new = to_words(&whole.output[..2 * whole.length()]).unwrap();
        let needed = journal_of(&run.words, &new).len();
        lengths(journals, &config, &call.numbers, &output, needed);
        let journal = whole.journal[..2 * needed].to_vec();
        damage(journals, &whole.output[..2 * whole.length()], &journal, &stale, step);
        standing.push((run.words.clone(), journal.clone()));
        run.take(
            &unpacked(whole.answer),
            &to_words(&whole.output[..output.len() / 2 * 2]).unwrap(),
        );
        stale = journal;
        if run.random.percent(30) {
            let depth =
                1 + usize::from(run.random.percent(50)) + 2 * usize::from(run.random.percent(20));
            for _ in 0..depth.min(standing.len()) {
                let (before, journal) = standing.pop().unwrap();
                let lent = [&journal[..], &[FILL; 7]].concat();
                let left = journals.back(&from_words(&run.words), &lent, &vec![FILL; ALL]);
                assert_eq!((left.number(), left.length()), (0, before.len()));
                assert_eq!(to_words(&left.output[..2 * before.len()]).unwrap(), before);
                run.words = before;
            }
        }
    }
}

/// Journals of every length near the needed one, and outputs too short with journals too short.
fn lengths<M: Memory>(
    journals: &mut Journals<M>,
    config: &[u8],
    numbers: &reference::Numbers,
    output: &[u8],
    needed: usize,
) {
    for length in (2 * needed).saturating_sub(5)..=2 * needed + 3 {
        let left = journals.step(config, *numbers, output, &vec![FILL; length]);
        assert_eq!(left.number(), if length / 2 < needed { 16 } else { 0 });
    }
    assert_eq!(journals.step(config, *numbers, &[], &[]).number(), 10);
}

/// Cut and damaged journals, one of another step, and outputs too short.
fn damage<M: Memory>(
    journals: &mut Journals<M>,
    config: &[u8],
    journal: &[u8],
    stale: &[u8],
    step: usize,
) {
    let output = vec![FILL; ALL];
    journals.back(config, stale, &output);
    let stride = if step % 8 == 0 { 1 } else { 1 + journal.len() / 9 };
    for length in (0..journal.len()).step_by(stride) {
        journals.back(config, &journal[..length], &output);
    }
    for word in (0..journal.len() / 2).step_by(stride) {
        for change in [1u16, 0x8000, 0xffff] {
            let mut damaged = journal.to_vec();
            let was = u16::from_be_bytes([journal[2 * word], journal[2 * word + 1]]);
            damaged[2 * word..2 * word + 2].copy_from_slice(&(was ^ change).to_be_bytes());
            journals.back(config, &damaged, &output);
        }
    }
    let old = usize::from(u16::from_be_bytes([journal[0], journal[1]]));
    for room in [0, 1, 2 * old - 1, 2 * old, 2 * old + 1] {
        let left = journals.back(config, journal, &vec![FILL; room]);
        assert_eq!(left.number(), if room / 2 < old { 10 } else { 0 });
    }
    assert_eq!(journals.back(&config[1..], journal, &output).number(), 1);
}

#[test]
fn runs_with_takings_back_are_alike() {
    runs_with_takings_back(Cabinet::Large);
}

#[test]
fn runs_of_the_small_cabinet_with_takings_back_are_alike() {
    runs_with_takings_back(Cabinet::Small);
}

fn runs_with_takings_back(cabinet: Cabinet) {
    let mut journals = Journals::new(cabinet, Plain::default(), Plain::default());
    for (origin, seeds, steps) in [
        (Origin::Fresh, 150, 60),
        (Origin::Growing, 4, 120),
        (Origin::Readable, 150, 20),
        (Origin::Renumbered, 50, 20),
    ] {
        for seed in 0..seeds {
            walk(&mut journals, origin, seed, steps);
        }
    }
    for number in [0, 1, 2, 3, 4, 5, 10, 15, 16] {
        assert!(journals.numbers[number] > 0, "no answer {number}");
    }
}

#[test]
fn nothing_behind_what_is_lent_is_touched() {
    memory_fault::report("journals that end at a guard page");
    guarded(Edge::End);
}

#[test]
fn nothing_before_what_is_lent_is_touched() {
    memory_fault::report("journals that begin behind a guard page");
    guarded(Edge::Begin);
}

fn guarded(edge: Edge) {
    for cabinet in CABINETS {
        let mut journals = Journals::new(cabinet, Guarded::new(edge), Guarded::new(edge));
        for seed in 0..12 {
            walk(&mut journals, Origin::Fresh, seed, 30);
        }
    }
}

/// Taking back does not compare the words alike: a stale journal of the same run can match after a
/// serial was issued afresh. So the theorem asks for the last standing step's own journal.
#[test]
fn a_stale_journal_may_match() {
    let text = include_str!("stale-journal.hex");
    let lines: Vec<Vec<u16>> = text
        .lines()
        .filter(|line| !line.starts_with('#'))
        .map(|line| {
            line.split_whitespace().map(|word| u16::from_str_radix(word, 16).unwrap()).collect()
        })
        .collect();
    let [words, journal, restored] = &lines[..] else { panic!("three lines") };
    let mut journals = Journals::new(Cabinet::Large, Plain::default(), Plain::default());
    let left = journals.back(&from_words(words), &from_words(journal), &vec![FILL; ALL]);
    assert_eq!((left.number(), left.length()), (0, restored.len()));
    assert_eq!(&to_words(&left.output[..2 * restored.len()]).unwrap(), restored);
    let ends = |s| reference::calls::ends(&reference::STANDARD, restored, s);
    assert_eq!(ends(2).waiters, 2, "serial 2 has two waiters");
}
