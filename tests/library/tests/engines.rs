//! Engines that come and go (document 02, k) through the static library: runs that mix steps with a
//! journal and an index, takings back, joinings and leavings; each refusal and their order; one engine
//! and eight; 8,192 words; newcomers of any length; ends that name the last engine; configurations that
//! no run gives, and damaged ones; an old journal that matches again; and guard pages around all that
//! is lent.

use library::cabinet::Cabinet;
use library::compare::unpacked;
use library::engines::House;
use library::guard::{Edge, Guarded};
use library::index::Indexes;
use library::input::Source;
use library::journal::Journals;
use library::memory::{Memory, Plain};
use library::memory_fault;
use reference::build;
use reference::bytes::{from_words, to_words};
use reference::configuration::{Configuration, Engine};
use reference::engines::NEWCOMER;
use reference::generate::comers::{basin, ending, pump, unfit, words, UNFIT};
use reference::generate::random::Random;
use reference::generate::run::{Origin, Run, ORIGINS};
use reference::index::{index_of, open_serials, INDEX_BYTES};
use reference::journal::{journal_of, JOURNAL_ENOUGH};
use reference::process::Part;
use reference::{readable, write, Numbers, STANDARD};

const FILL: u8 = 0x5a;
const ALL: usize = 2 * 8192 + 1;

fn house() -> House<Plain> {
    House::new([0; 2].map(|_| Plain::default()))
}

fn bytes(configuration: &Configuration) -> Vec<u8> {
    from_words(&write::configuration(configuration))
}

fn idle(count: usize) -> Vec<u8> {
    bytes(&build::configuration(0, vec![build::nil(); count]))
}

fn newcomer(process: Part) -> Vec<u8> {
    from_words(&words(&Engine { values: [0x0102_0304; 32], process }))
}

/// What stands last: a step with the words before it and its journal, or what is not taken back.
enum Stood {
    Step(Vec<u16>, Vec<u8>),
    Other,
}

/// How often engines came, went, and a step was taken back.
#[derive(Clone, Copy, Debug, Default)]
struct Seen {
    joined: usize,
    left: usize,
    back: usize,
    open: usize,
}

/// A joining with every output length near the needed one, and an odd newcomer.
fn joining<M: Memory>(house: &mut House<M>, config: &[u8], comer: &[u8]) -> Option<Vec<u8>> {
    assert_eq!(house.join(&config[1..], comer, &[FILL; 9]).number(), 1);
    let whole = house.join(config, comer, &vec![FILL; ALL]);
    let odd = house.join(config, &comer[1..], &vec![FILL; ALL]).number();
    assert_eq!(odd, if config[1] == 8 { 21 } else { 11 });
    if whole.number() != 0 {
        return None;
    }
    let needed = 2 * whole.length();
    for length in needed - 3..needed + 3 {
        let near = house.join(config, comer, &vec![FILL; length]);
        assert_eq!(near.number(), if length < needed { 10 } else { 0 });
    }
    Some(whole.result().to_vec())
}

fn leaving<M: Memory>(house: &mut House<M>, config: &[u8]) -> Option<Vec<u8>> {
    assert_eq!(house.leave(&config[1..], &[FILL; 9]).number(), 1);
    let whole = house.leave(config, &vec![FILL; ALL]);
    if whole.number() != 0 {
        return None;
    }
    let needed = 2 * whole.length();
    for length in needed - 3..needed + 3 {
        let near = house.leave(config, &vec![FILL; length]);
        assert_eq!(near.number(), if length < needed { 10 } else { 0 });
    }
    Some(whole.result().to_vec())
}

/// A run of all events; after each the index is what a reading of the configuration gives.
fn walk<M: Memory>(
    house: &mut House<M>,
    indexes: &mut Indexes<M>,
    seen: &mut Seen,
    (seed, mut run): (u64, Run),
    events: usize,
) {
    let (_, mut index) = indexes.begin(&from_words(&run.words), &[FILL; INDEX_BYTES]);
    let mut standing: Vec<Stood> = Vec::new();
    for step in 0..events {
        house.source = Source { class: "run", seed, step };
        indexes.source = house.source;
        let before = readable::read(&STANDARD, &run.words).expect("a run stays readable");
        let open = open_serials(&before);
        assert!(index == from_words(&index_of(&open)), "{}", house.source);
        seen.open = seen.open.max(open.len());
        let config = from_words(&run.words);
        match run.random.below(12) {
            0 | 1 => {
                let comer = from_words(&words(&pump(&mut run.random)));
                if let Some(result) = joining(house, &config, &comer) {
                    run.words = to_words(&result).expect("whole words");
                    standing.push(Stood::Other);
                    seen.joined += 1;
                }
            }
            2 | 3 => {
                if let Some(result) = leaving(house, &config) {
                    run.words = to_words(&result).expect("whole words");
                    standing.push(Stood::Other);
                    seen.left += 1;
                }
            }
            4 if matches!(standing.last(), Some(Stood::Step(..))) => {
                let Some(Stood::Step(words, journal)) = standing.pop() else { unreachable!() };
                let left = indexes.back(&config, &journal, &vec![FILL; ALL], &index);
                assert_eq!((left.number(), left.length()), (0, words.len()));
                index = left.index;
                run.words = words;
                seen.back += 1;
            }
            _ => {
                let chosen = ending(&before).filter(|_| run.random.percent(50));
                let Some(call) = run.call() else { continue };
                let numbers = chosen.unwrap_or(call.numbers);
                let enough = vec![FILL; 2 * JOURNAL_ENOUGH];
                let left = indexes.step(&config, numbers, &vec![FILL; ALL], &enough, &index);
                if left.number() != 0 {
                    continue;
                }
                let next = to_words(&left.output[..2 * left.length()]).expect("whole words");
                let needed = journal_of(&run.words, &next).len();
                let journal = left.journal[..2 * needed].to_vec();
                standing.push(Stood::Step(run.words.clone(), journal));
                run.take(&unpacked(left.answer), &next);
                index = left.index;
            }
        }
    }
}

fn run_of(seed: u64) -> Run {
    let mut random = Random::new(seed);
    let words = write::configuration(&basin(&mut random));
    Run { random, words, limits: STANDARD }
}

#[test]
fn engines_come_and_go_in_runs() {
    let (mut house, mut seen) = (house(), Seen::default());
    let mut indexes = Indexes::new([0; 3].map(|_| Plain::default()));
    for seed in 0x6b_0000..0x6b_0000 + 150 {
        walk(&mut house, &mut indexes, &mut seen, (seed, run_of(seed)), 150);
    }
    println!("{seen:?}");
    assert!(seen.joined > 500 && seen.left > 200 && seen.back > 300 && seen.open > 2, "{seen:?}");
    house.report(
        "engines_come_and_go_in_runs",
        &[
            ("run", "join", 0, 2000),
            ("run", "join", 1, 1000),
            ("run", "join", 10, 1500),
            ("run", "join", 11, 500),
            ("run", "join", 21, 50),
            ("run", "leave", 0, 1000),
            ("run", "leave", 1, 1000),
            ("run", "leave", 10, 500),
            ("run", "leave", 22, 500),
        ],
    );
}

#[test]
fn joining_is_refused_in_order() {
    let mut house = house();
    let mut random = Random::new(3);
    for way in UNFIT {
        let comer = from_words(&unfit(&mut random, way));
        for output in [vec![], vec![FILL; ALL]] {
            assert_eq!(house.join(&idle(8)[1..], &comer, &output).number(), 1, "{way}");
            assert_eq!(house.join(&idle(8), &comer, &output).number(), 21, "{way}");
            assert_eq!(house.join(&idle(7), &comer, &output).number(), 11, "{way}");
            assert_eq!(house.join(&idle(1), &comer, &output).number(), 11, "{way}");
        }
    }
    let fit = newcomer(build::scope(1, build::nil()));
    let joined = house.join(&idle(7), &fit, &vec![FILL; ALL]);
    assert_eq!(joined.result(), [&[0, 8], &idle(7)[2..], &fit].concat());
    assert_eq!(house.join(joined.result(), &fit, &vec![FILL; ALL]).number(), 21);
}

/// A process of so many words and little depth.
fn balanced(to: &mut Vec<u16>, words: usize) {
    match words {
        1 => to.push(0x6800),
        2 => to.extend([0x0800, 0x2000]),
        _ => {
            to.push(0x1800);
            let left = (words - 1) / 2;
            balanced(to, left);
            balanced(to, words - 1 - left);
        }
    }
}

/// A newcomer of so many words in all.
fn long(count: usize) -> Vec<u8> {
    let mut words = vec![7; 64];
    words.extend([0x5800, 0, 0]);
    balanced(&mut words, count - 67);
    from_words(&words)
}

/// The last word nil, beside a par or before a seq.
fn spoiled(count: usize) -> Vec<u8> {
    let mut comer = long(count);
    comer.truncate(2 * count - 2);
    comer.extend([0, 0]);
    comer
}

#[test]
fn the_limit_of_words_is_the_configurations() {
    let mut house = house();
    for count in 1..8 {
        let most = 8192 - idle(count).len() / 2;
        let whole = house.join(&idle(count), &long(most), &[FILL; ALL]);
        assert_eq!((whole.number(), whole.length()), (0, 8192));
        assert_eq!(house.join(&idle(count), &long(most), &[FILL; ALL - 2]).number(), 10);
        assert_eq!(house.join(&idle(count), &spoiled(most), &[FILL; ALL]).number(), 11);
        for longer in [most + 1, 8192, 8193, NEWCOMER - 1, NEWCOMER] {
            assert_eq!(house.join(&idle(count), &long(longer), &[]).number(), 9, "{longer}");
            assert_eq!(house.join(&idle(count), &spoiled(longer), &[]).number(), 11, "{longer}");
        }
    }
    for unread in [NEWCOMER + 1, 70_000] {
        assert_eq!(house.join(&idle(7), &long(unread), &[]).number(), 9);
        assert_eq!(house.join(&idle(8), &long(unread), &[]).number(), 21);
        assert_eq!(house.join(&idle(7)[2..], &long(unread), &[]).number(), 1);
        assert_eq!(house.join(&idle(7)[1..], &long(unread), &[]).number(), 1);
    }
    let odd = [&long(NEWCOMER)[..], &[0]].concat();
    assert_eq!(house.join(&idle(7), &odd, &[]).number(), 9);
    assert_eq!(house.join(&idle(7), &odd[2..], &[]).number(), 11);
}

#[test]
fn leaving_is_refused_in_order() {
    let mut house = house();
    assert_eq!(house.leave(&[], &[]).number(), 1);
    assert_eq!(house.leave(&idle(1), &[]).number(), 22);
    for count in 2..=8 {
        let left = house.leave(&idle(count), &vec![FILL; ALL]);
        assert_eq!(left.result(), idle(count - 1));
        assert_eq!(house.leave(&idle(count)[1..], &[]).number(), 1);
        assert_eq!(house.leave(&idle(count)[2..], &[]).number(), 1);
        assert_eq!(house.leave(&idle(count), &[]).number(), 10);
        let mut roots = vec![build::nil(); count];
        roots[count - 1] = build::scope(1, build::nil());
        assert_eq!(house.leave(&bytes(&build::configuration(0, roots)), &[]).number(), 22);
    }
}

/// In input that no run gives an end elsewhere decides, wherever it stands; one that names another
/// engine does not.
#[test]
fn an_end_elsewhere_keeps_the_last_engine() {
    let mut house = house();
    let sorts: [fn(u8) -> Part; 4] = [
        |engine| build::waiter(1, [1, 2], true, engine, 1, build::list([])),
        |engine| build::executor(1, 1, engine, 1, build::throw(1)),
        |engine| build::executor(1, 1, 0, 1, build::notice(1, 1, engine, 1)),
        |engine| build::notice(1, 1, engine, 1),
    ];
    for sort in sorts {
        for count in 2..=8 {
            for at in 0..count - 1 {
                for named in 0..count {
                    let inside = build::seq(sort(named as u8), build::nil());
                    let mut roots = vec![build::nil(); count];
                    roots[at] = build::scope(1, build::par(build::throw(1), inside));
                    let config = bytes(&build::configuration(1, roots));
                    let number = house.leave(&config, &vec![FILL; ALL]).number();
                    assert_eq!(number, if named == count - 1 { 22 } else { 0 });
                }
            }
        }
    }
}

/// Configurations of every origin, also such as no run gives, and with single words changed.
#[test]
fn any_configuration() {
    let mut house = house();
    for origin in ORIGINS {
        for seed in 0..60 {
            let mut run = Run::new(0x6b_1000 + seed, *origin);
            let class = if *origin == Origin::Fresh { "fresh" } else { "other" };
            for step in 0..6 {
                house.source = Source { class, seed, step };
                let config = from_words(&run.words);
                let comer = from_words(&words(&pump(&mut run.random)));
                house.join(&config, &comer, &vec![FILL; ALL]);
                house.leave(&config, &vec![FILL; ALL]);
                house.source.class = "damaged";
                let mut damaged = run.words.clone();
                let at = run.random.below(damaged.len());
                damaged[at] ^= 1 << run.random.below(16);
                house.join(&from_words(&damaged), &comer, &vec![FILL; ALL]);
                house.leave(&from_words(&damaged), &vec![FILL; ALL]);
                let mut damaged = to_words(&comer).expect("whole words");
                let at = run.random.below(damaged.len());
                damaged[at] ^= 1 << run.random.below(16);
                house.join(&config, &from_words(&damaged), &vec![FILL; ALL]);
                let Some(call) = run.call() else { break };
                let mut output = vec![0; 8192];
                let answer = reference::step(&STANDARD, &run.words, call.numbers, &mut output);
                run.take(&answer, &output);
            }
        }
    }
    house.report(
        "any_configuration",
        &[
            ("fresh", "join", 0, 50),
            ("other", "join", 0, 100),
            ("damaged", "join", 1, 100),
            ("damaged", "join", 11, 100),
        ],
    );
}

/// A step that ends the last engine, two leavings and a joining of the right length: the step's journal
/// matches again, and what it restores no run gives. So a joining or a leaving stands between.
#[test]
fn an_old_journal_may_match_again() {
    let mut house = house();
    let mut journals = Journals::new(Cabinet::Large, Plain::default(), Plain::default());
    let root = || build::scope(1, build::nil());
    let mut config = bytes(&build::configuration(0, vec![root(), root(), root()]));
    let (mut last, mut before) = (Vec::new(), Vec::new());
    for engine in [1, 2] {
        let numbers = Numbers { engine, ..Numbers::default() };
        let left =
            journals.step(&config, numbers, &vec![FILL; ALL], &vec![FILL; 2 * JOURNAL_ENOUGH]);
        assert_eq!(left.number(), 0);
        before = std::mem::replace(&mut config, left.output[..2 * left.length()].to_vec());
        last = left.journal;
    }
    let stepped = config.len();
    for _ in 0..2 {
        config = house.leave(&config, &vec![FILL; ALL]).result().to_vec();
    }
    let row = (0..31).fold(build::nil(), |rest, _| build::seq(build::throw(1), rest));
    config =
        house.join(&config, &newcomer(build::scope(1, row)), &vec![FILL; ALL]).result().to_vec();
    assert_eq!(config.len(), stepped);
    let back = journals.back(&config, &last, &vec![FILL; ALL]);
    assert_eq!(back.number(), 0);
    let restored = &back.output[..2 * back.length()];
    assert_ne!(restored, before);
    assert_eq!(restored[1], 2);
}

#[test]
fn guard_pages() {
    for edge in [Edge::Begin, Edge::End] {
        memory_fault::report("guard_pages");
        let mut house = House::new([0; 2].map(|_| Guarded::new(edge)));
        let mut indexes = Indexes::new([0; 3].map(|_| Guarded::new(edge)));
        let mut seen = Seen::default();
        for seed in 0x6b_2000..0x6b_2000 + 20 {
            walk(&mut house, &mut indexes, &mut seen, (seed, run_of(seed)), 60);
        }
        for count in [66, 67, 8000, 8126, 8193, NEWCOMER, NEWCOMER + 1] {
            let comer = if count < 68 {
                newcomer(build::scope(1, build::nil()))[..2 * count].to_vec()
            } else {
                long(count)
            };
            house.join(&idle(1), &comer, &vec![FILL; ALL]);
            house.join(&idle(8), &comer, &[]);
        }
        assert!(seen.joined > 20 && seen.left > 10, "{seen:?}");
    }
}
