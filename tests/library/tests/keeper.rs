//! Keeper against the river (document 02, m) through the static library, against the naive recursion: small games of
//! every kind with every set of engines, every serial and every k that the recursion can follow; configurations of
//! runs, also such as no run gives, and damaged ones; each refusal and their order; document 01's worked case; and
//! guard pages around all that is lent.

use library::exported;
use library::guard::{Edge, Guarded};
use library::input::Source;
use library::keeper::{Asked, Keepers, ENOUGH};
use library::memory::{Lent, Memory, Plain};
use reference::build;
use reference::bytes::from_words;
use reference::configuration::Configuration;
use reference::generate::games::game;
use reference::generate::random::Random;
use reference::generate::run::{Run, ORIGINS};
use reference::keeper::{moves, step, unpack, Outcome, Packed, Side};
use reference::process::Part;
use reference::{readable, write, Numbers, STANDARD};
use std::time::{Duration, Instant};

/// Words of scratch that are too few.
const SHORT: [usize; 3] = [0, 8192, ENOUGH - 1];

fn keepers() -> Keepers<Plain> {
    Keepers::new(Plain::default(), Edge::End)
}

/// Every k for one set and serial, as far as the recursion follows. A yes stays a yes.
fn every_k<M: Memory>(keepers: &mut Keepers<M>, config: &[u8], engines: u8, serial: u16) -> bool {
    let mut yes = false;
    for k in 0..=6 {
        let asked = Asked { engines, serial, k, scratch: ENOUGH };
        let Some(packed) = keepers.keeper(config, asked) else { return false };
        assert!(!yes || packed.outcome.outcome != 0, "{}: {asked:?} is no more", keepers.source);
        yes = packed.outcome.outcome != 0;
    }
    true
}

/// Every set of the engines, with bits of engines that are not there.
fn sets(random: &mut Random, configuration: &Configuration) -> Vec<u8> {
    let count = configuration.engines.len();
    (0..1u16 << count).map(|set| (set | random.word() << count) as u8).collect()
}

fn small(seed: u64) -> (Random, Configuration, Vec<u8>) {
    let mut random = Random::new(seed);
    let configuration = game(&mut random);
    let words = write::configuration(&configuration);
    assert!(readable::read(&STANDARD, &words).is_some(), "seed {seed}");
    (random, configuration, from_words(&words))
}

/// Games with every set and every serial; answers how often the recursion followed to k 6.
fn every_set<M: Memory>(
    keepers: &mut Keepers<M>,
    seeds: std::ops::Range<u64>,
    class: &'static str,
) -> usize {
    let mut whole = 0;
    for seed in seeds {
        let (mut random, configuration, config) = small(seed);
        keepers.source = Source { class, seed, step: 0 };
        for engines in sets(&mut random, &configuration) {
            for serial in 1..=3 {
                whole += usize::from(every_k(keepers, &config, engines, serial));
            }
            for serial in [0, 4, 65_535] {
                let asked = Asked { engines, serial, k: random.below(9) as u16, scratch: ENOUGH };
                assert_eq!(keepers.keeper(&config, asked).expect("a refusal").outcome.number, 12);
            }
        }
    }
    whole
}

#[test]
fn small_games() {
    let mut keepers = keepers();
    keepers.positions = 60;
    let mut whole = every_set(&mut keepers, 0x6d_0000..0x6d_0000 + 25, "every set");
    for seed in 0x6d_8000..0x6d_8000 + 3_000 {
        let (mut random, configuration, config) = small(seed);
        keepers.source = Source { class: "game", seed, step: 0 };
        let engines = random.below(1 << configuration.engines.len()) as u8;
        whole += usize::from(every_k(&mut keepers, &config, engines, 1));
    }
    keepers.report("small_games");
    println!("followed to k 6: {whole}");
    assert!(whole > 1_000, "only {whole} followed to k 6");
    assert_eq!(keepers.met(0, 1) + keepers.met(0, 2) + keepers.met(1, 2), 0);
    for k in 1..=6 {
        assert!(keepers.met(k, 0) > 300 && keepers.met(k, 1) > 100, "few for k {k}");
        assert!(k == 1 || keepers.met(k, 2) > 30, "few passes for k {k}");
    }
}

/// Configurations of every origin along runs, serials that are open, gone and unknown, and with single words changed.
#[test]
fn any_configuration() {
    let mut keepers = keepers();
    keepers.positions = 12;
    for origin in ORIGINS {
        for seed in 0..40 {
            let mut run = Run::new(0x6d_1000 + seed, *origin);
            for at in 0..8 {
                keepers.source = Source { class: "run", seed, step: at };
                let Some(call) = run.call() else { break };
                let config = from_words(&run.words);
                let issued = run.words[1];
                let serials = [1, issued / 2, issued, issued.wrapping_add(1), run.random.word()];
                for serial in serials.into_iter().filter(|_| run.words.len() < 600) {
                    let engines = run.random.word() as u8;
                    every_k(&mut keepers, &config, engines, serial);
                }
                let mut damaged = run.words.clone();
                let place = run.random.below(damaged.len());
                damaged[place] ^= 1 << run.random.below(16);
                let asked = Asked { engines: 5, serial: 1, k: 1, scratch: ENOUGH };
                keepers.keeper(&from_words(&damaged), asked);
                let mut output = vec![0; 8192];
                let answer = reference::step(&STANDARD, &run.words, call.numbers, &mut output);
                run.take(&answer, &output);
            }
        }
    }
    keepers.report("any_configuration");
    let met = [0, 1, 12].map(|number| keepers.numbered(number));
    assert!(met[0] > 3_000 && met[1] > 100 && met[2] > 1_000, "{met:?}");
}

/// Document 01's worked case after the solicit: engine 1 has its executor with nothing left to run.
fn waiting() -> Vec<u16> {
    let mut words = vec![2, 0];
    let mut values = vec![0; 64];
    values[3] = 1;
    words.extend(&values);
    words.extend([0x5800, 0, 0, 0x5020, 0x0880, 1, 1, 0]);
    words.extend([0; 64]);
    words.extend([0x5800, 0, 0, 0x4020, 0, 1, 1, 0]);
    step(&words, Numbers::new(0, 3, 1, 3, 0)).expect("the solicit is accepted").words
}

#[test]
fn the_worked_case() {
    let (mut keepers, config) = (keepers(), from_words(&waiting()));
    let mut ask = |engines, k| {
        let asked = Asked { engines, serial: 1, k, scratch: ENOUGH };
        keepers.keeper(&config, asked).expect("a small game")
    };
    for k in 1..=6 {
        let reply = ask(0b10, k);
        assert_eq!((reply.outcome.outcome, reply.numbers), (1, Numbers::new(1, 3, 0, 3, 0)));
        assert_eq!(ask(0b01, k).outcome.outcome, if k == 1 { 0 } else { 2 });
    }
    assert_eq!(ask(0b11, 0).outcome, Outcome::default());
}

/// A scope whose body is so many assigns beside each other, and the end if one is given: the game's size.
fn busy(count: u8, end: Option<Part>) -> Part {
    let assign = |x: u8| build::assign(x, build::constant(7));
    let rest = (1..count).fold(assign(0), |rest, x| build::par(assign(x), rest));
    build::scope(1, end.map_or(rest.clone(), |end| build::par(end, rest)))
}

/// What the library alone answers.
fn asked(configuration: &Configuration, engines: u8, k: u16) -> Packed {
    let mut config = from_words(&write::configuration(configuration));
    let mut scratch = vec![0u8; 2 * ENOUGH];
    let lend = |bytes: &mut [u8]| Lent { start: bytes.as_mut_ptr(), length: bytes.len() };
    let bits = exported::keeper(lend(&mut config), engines, 1, k, lend(&mut scratch));
    unpack(bits).expect("zero bits are 0")
}

/// Ends that do not name each other are a no at once: by engine, by operation, or by either of two. The game would have 40 moves a turn, and six turns.
#[test]
fn ends_apart() {
    let waits = |o, server| build::waiter(o, 0, false, server, 1, build::list([]));
    let works = |o, client| build::executor(o, 0, client, 1, build::one_way(9, 0));
    let fault = |o, client| build::notice(o, 5, client, 1);
    let sets: [[Option<Part>; 4]; 6] = [
        [Some(waits(1, 1)), Some(works(1, 2)), None, None],
        [Some(waits(1, 2)), Some(works(1, 0)), None, None],
        [Some(waits(1, 1)), Some(works(2, 0)), None, None],
        [Some(waits(1, 1)), Some(fault(1, 2)), Some(works(1, 3)), None],
        [Some(waits(1, 2)), Some(works(1, 3)), Some(works(1, 3)), Some(waits(1, 0))],
        [
            Some(build::par(waits(1, 1), works(1, 1))),
            Some(build::par(waits(2, 0), works(3, 0))),
            None,
            None,
        ],
    ];
    for (at, ends) in sets.into_iter().enumerate() {
        let named = ends.into_iter().map(|end| busy(20, end)).collect();
        let configuration = build::configuration(1, named);
        let words = write::configuration(&configuration);
        assert!(readable::read(&STANDARD, &words).is_some(), "set {at}");
        assert_eq!(moves(&words, 0b0011, Side::Keeper).len(), 40);
        let start = Instant::now();
        for engines in [0, 0b0011, 0b0101, 0b1111] {
            assert_eq!(asked(&configuration, engines, 6).outcome, Outcome::default(), "set {at}");
        }
        let took = start.elapsed();
        assert!(took < Duration::from_millis(200), "set {at} took {took:?}");
    }
}

/// The keeper's last move: a reply that is ready is his, whoever waits for it; and such that only look ready.
#[test]
fn the_last_move() {
    let mut keepers = keepers();
    keepers.source.class = "last move";
    let list = || build::list([]);
    let waits = |o, x: &[u8], dead, server| build::waiter(o, x.to_vec(), dead, server, 1, list());
    let works = |o, y: &[u8], client, body| build::executor(o, y.to_vec(), client, 1, body);
    let nil = build::nil;
    let work = || build::assign(9, build::constant(7));
    let cases: [(Part, Part, Part, u8); 12] = [
        // Ready, its waiter live or dead, alone or beside others.
        (waits(1, &[2], false, 1), works(1, &[1], 0, nil()), nil(), 1),
        (waits(1, &[2], true, 1), works(1, &[1], 0, nil()), nil(), 1),
        (waits(1, &[2, 3], false, 1), works(1, &[4, 1], 0, nil()), nil(), 1),
        (
            build::par(work(), waits(1, &[2], false, 1)),
            build::par(work(), works(1, &[1], 0, nil())),
            work(),
            1,
        ),
        (
            build::par(waits(2, &[2], false, 1), waits(1, &[2], false, 1)),
            works(1, &[1], 0, nil()),
            nil(),
            1,
        ),
        // Counts that differ, another operation, work left, a waiter that names another engine or stands in one that is not named.
        (waits(1, &[2, 3], false, 1), works(1, &[1], 0, nil()), nil(), 0),
        (waits(2, &[2], false, 1), works(1, &[1], 0, nil()), nil(), 0),
        (waits(1, &[2], false, 1), works(1, &[1], 0, work()), nil(), 0),
        (waits(1, &[2], false, 2), works(1, &[1], 0, nil()), nil(), 0),
        (work(), works(1, &[1], 0, nil()), waits(1, &[2], false, 1), 0),
        // Nothing but a fault; and beside it a reply that no waiter names.
        (waits(1, &[2], false, 1), build::notice(1, 5, 0, 1), nil(), 0),
        (waits(1, &[2], false, 1), build::notice(1, 5, 0, 1), works(1, &[1], 0, nil()), 0),
    ];
    for (at, (client, server, other, yes)) in cases.into_iter().enumerate() {
        let roots = [client, server, other].map(|body| build::scope(1, body));
        let configuration = build::configuration(1, roots.to_vec());
        let config = from_words(&write::configuration(&configuration));
        for engines in 0..8 {
            let asked = Asked { engines, serial: 1, k: 1, scratch: ENOUGH };
            let packed = keepers.keeper(&config, asked).expect("one move");
            let expected = if engines & 0b010 == 0 { 0 } else { yes };
            assert_eq!((packed.outcome.number, packed.outcome.outcome), (0, expected), "case {at}");
            if expected == 1 {
                assert_eq!((packed.numbers.engine, packed.numbers.branch), (1, 0), "case {at}");
            }
            every_k(&mut keepers, &config, engines, 1);
        }
    }
}

/// 1, then 12, then 23, then 10: each with all that are later.
#[test]
fn refusals_in_their_order() {
    let mut keepers = keepers();
    keepers.source.class = "refusals";
    let config = from_words(&waiting());
    let mut number = |config: &[u8], serial, k, scratch| {
        let asked = Asked { engines: 2, serial, k, scratch };
        keepers.keeper(config, asked).expect("a refusal or a small game").outcome.number
    };
    for scratch in SHORT.into_iter().chain([ENOUGH, ENOUGH + 1000]) {
        for k in [0, 1, 6, 7, 65_535] {
            for serial in [0, 1, 2, 65_535] {
                let unreadable: [&[u8]; 4] =
                    [&[], &config[..1], &config[1..], &config[..config.len() - 2]];
                for config in unreadable {
                    assert_eq!(number(config, serial, k, scratch), 1);
                }
                let expected = match serial {
                    1 if k > 6 => 23,
                    1 if scratch < ENOUGH => 10,
                    1 => 0,
                    _ => 12,
                };
                assert_eq!(number(&config, serial, k, scratch), expected);
            }
        }
    }
}

#[test]
fn guard_pages() {
    for edge in [Edge::Begin, Edge::End] {
        let mut keepers = Keepers::new(Guarded::new(edge), edge);
        keepers.positions = 20;
        every_set(&mut keepers, 0x6d_2000..0x6d_2000 + 6, "guarded");
        for scratch in SHORT {
            let asked = Asked { engines: 2, serial: 1, k: 6, scratch };
            let packed = keepers.keeper(&from_words(&waiting()), asked).expect("a refusal");
            assert_eq!(packed.outcome.number, 10);
        }
    }
}
