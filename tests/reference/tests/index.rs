//! Document 02, g: over runs with takings back from a fresh start the index is what a reading of the
//! whole configuration gives; what an index is, and which are refused.

use reference::generate::edges;
use reference::generate::indexes::{in_order, serials, DISORDERS};
use reference::generate::random::Random;
use reference::generate::run::{Origin, Run};
use reference::index::*;
use reference::journal::{journal_of, JOURNAL_ENOUGH};
use reference::{ends, write, Numbers, STANDARD};

const FILL: u16 = 0xA5C3;

/// What a reading gives: every serial issued is asked for its ends.
fn reading(words: &[u16]) -> Vec<u16> {
    let open = |serial: &u16| ends(&STANDARD, words, *serial).waiters > 0;
    (1..=words[1]).filter(open).collect()
}

/// The index's words, its first two as the questions give them, and all past them as they were.
fn follows(words: &[u16], index: &[u16]) {
    let open = reading(words);
    let mut expected = vec![open.len() as u16];
    expected.extend(&open);
    expected.resize(WORDS, 0);
    assert_eq!(index[..WORDS], expected);
    assert!(index[WORDS..].iter().all(|word| *word == FILL));
    assert_eq!(open_count(index), (0, open.len() as u16));
    assert_eq!(oldest(index), (0, open.first().copied().unwrap_or(0)));
}

#[test]
fn the_index_follows_the_configuration() {
    let (mut most, mut back, mut reopened) = (0, 0, 0);
    for seed in 0..500 {
        let mut run = Run::new(0x19_0000 + seed, Origin::Fresh);
        let mut index = vec![FILL; WORDS + 3];
        assert_eq!(begin_index(&STANDARD, &run.words, &mut index), 0);
        let mut standing: Vec<(Vec<u16>, Vec<u16>)> = Vec::new();
        for _ in 0..50 {
            follows(&run.words, &index);
            most = most.max(index[0]);
            if run.random.percent(25) {
                if let Some((before, journal)) = standing.pop() {
                    let mut output = vec![FILL; before.len()];
                    let open = index[0];
                    let left =
                        take_back_indexed(&STANDARD, &run.words, &journal, &mut output, &mut index);
                    assert_eq!((left, &output), ((0, before.len() as u16), &before));
                    run.words = before;
                    back += 1;
                    reopened += usize::from(index[0] > open);
                    continue;
                }
            }
            let Some(call) = run.call() else { break };
            let (mut output, mut journal) = (vec![FILL; call.room], vec![FILL; JOURNAL_ENOUGH]);
            let answer = step_indexed(
                &STANDARD,
                &run.words,
                call.numbers,
                &mut output,
                &mut journal,
                &mut index,
            );
            if answer.number == 0 {
                let next = &output[..usize::from(answer.length)];
                let needed = journal_of(&run.words, next).len();
                standing.push((run.words.clone(), journal[..needed].to_vec()));
            }
            run.take(&answer, &output);
        }
    }
    println!("{most} open at once, {back} taken back, {reopened} of them reopened");
    assert!(most > 2 && back > 1000 && reopened > 20, "{most} {back} {reopened}");
}

#[test]
fn an_index_in_order_is_a_set_laid_out() {
    let mut random = Random::new(0);
    for count in [0, 1, 2, 77, 2046, 2047] {
        let set = serials(&mut random, count, 500);
        let index = index_of(&set);
        assert_eq!((index.len(), listed(&index)), (WORDS, Some(set.clone())));
        let longer = [&index[..], &[7, 8]].concat();
        assert_eq!(listed(&longer), Some(set));
    }
    assert_eq!(listed(&index_of(&serials(&mut random, 2048, 1))), None);
}

#[test]
fn every_disorder_is_refused() {
    let mut random = Random::new(1);
    let mut met = vec![0; DISORDERS.len()];
    for _ in 0..300 {
        let index = in_order(&mut random, 9);
        assert!(listed(&index).is_some());
        for (number, (name, disorder)) in DISORDERS.iter().enumerate() {
            let Some(index) = disorder(&mut random, &index) else { continue };
            assert_eq!(listed(&index), None, "{name}");
            assert_eq!((open_count(&index), oldest(&index)), ((17, 0), (17, 0)), "{name}");
            met[number] += 1;
        }
    }
    assert!(met.iter().all(|count| *count > 100), "{met:?}");
}

/// An index of 2,047 serials is in order; an accepted solicit makes it 2,048, and it is refused then.
#[test]
fn a_full_index_takes_one_more() {
    let words = write::configuration(&edges::serials(5000));
    let asks = Numbers::new(0, 3, 1, 3, 0);
    let step = |index: &mut [u16]| {
        let (mut output, mut journal) = (vec![FILL; 400], vec![FILL; 400]);
        step_indexed(&STANDARD, &words, asks, &mut output, &mut journal, index).number
    };
    let full: Serials = (4000..4000 + 2047).collect();
    let mut index = index_of(&full);
    assert_eq!((step(&mut index), index[0]), (0, 2047), "5,001 stands there already");
    let full: Serials = (1..=2047).collect();
    let mut index = index_of(&full);
    assert_eq!((step(&mut index), index[0], index[2048]), (0, 2048, 5001));
    let before = index.clone();
    assert_eq!((step(&mut index), open_count(&index), oldest(&index)), (17, (17, 0), (17, 0)));
    assert_eq!(index, before);
}

/// 17 goes before the refusals of the start check, and a refusal changes no word.
#[test]
fn an_index_is_begun_with_a_start() {
    let start = write::configuration(&edges::long(100).expect("long enough"));
    let running = write::configuration(&edges::serials(3));
    for (words, number) in [(&start[..], 0), (&running, 11), (&start[1..], 1), (&[], 1)] {
        let mut index = vec![FILL; WORDS + 1];
        assert_eq!(begin_index(&STANDARD, words, &mut index), number);
        let expected = if number == 0 { vec![0; WORDS] } else { vec![FILL; WORDS] };
        assert_eq!((&index[..WORDS], index[WORDS]), (&expected[..], FILL));
        let mut short = vec![FILL; WORDS - 1];
        assert_eq!(begin_index(&STANDARD, words, &mut short), 17);
        assert_eq!(short, vec![FILL; WORDS - 1]);
    }
}
