//! The stack that each call needs: on configurations that are deep and long at once, every call is
//! made on a painted stack (the bill and the window, which read none, on the most they take), and the
//! most that one used stays below three quarters of what `include/sock.h` promises to be enough; the
//! small cabinet's calls have a promise of their own, and so have the call that translates and the one that plays. The answers are the second
//! implementation's.

use library::cabinet::Cabinet;
use library::counts::ACTORS;
use library::deep::{shapes, Extent, Shape};
use library::exported;
use library::memory::Lent;
use library::painted::Painted;
use reference::build;
use reference::bytes::{from_words, to_words};
use reference::configuration::{Configuration, Engine};
use reference::engines;
use reference::generate::comers::words;
use reference::generate::plans::{bare, beside, fixed, scope, start, NIL, PAR, THROW};
use reference::generate::steps::{fitting, stands};
use reference::index::{index_of, open_serials, Serials, INDEX_BYTES, MOST};
use reference::keeper::{sock_keeper, Game, SCRATCH};
use reference::planning;
use reference::{readable, write, Numbers};
use std::collections::{BTreeMap, BTreeSet};
use std::io::Write;

extern "C" {
    fn sock_bill(
        rates: *const u8,
        rates_length: usize,
        replies: *const u8,
        replies_length: usize,
        totals: *mut u8,
        totals_length: usize,
    ) -> u8;
    fn sock_window_next(
        width: u16,
        number: u8,
        fault: u8,
        operation: u16,
        window: *mut u8,
        length: usize,
    ) -> u8;
    fn sock_window_count(operation: u16, window: *const u8, length: usize) -> u64;
}

/// What the header promises: the number in its line `#define` of this name.
fn promised(name: &str) -> usize {
    let header = include_str!("../../../include/sock.h");
    let start = format!("#define {name} ");
    let line = header.lines().find_map(|line| line.strip_prefix(&start));
    line.expect("the header has it").trim().parse().expect("a plain number")
}

/// The most that a call used, and on which shape.
struct Most {
    cabinet: Cabinet,
    used: BTreeMap<&'static str, (usize, String)>,
    painted: Painted,
    kinds: BTreeSet<u64>,
}

/// The call's name in a cabinet.
fn named(cabinet: Cabinet, large: &'static str, small: &'static str) -> &'static str {
    match cabinet {
        Cabinet::Large => large,
        Cabinet::Small => small,
    }
}

fn lend(bytes: &mut [u8]) -> Lent {
    Lent { start: bytes.as_mut_ptr(), length: bytes.len() }
}

impl Most {
    fn new(cabinet: Cabinet) -> Most {
        Most { cabinet, used: BTreeMap::new(), painted: Painted::new(), kinds: BTreeSet::new() }
    }

    /// Makes the call on the painted stack and gives its answer.
    fn call(&mut self, call: &'static str, shape: &str, made: impl Fn() -> u64) -> u64 {
        let mut answer = 0;
        let used = self.painted.used(|| answer = made());
        let most = self.used.entry(call).or_default();
        if most.0 < used {
            *most = (used, shape.to_string());
        }
        answer
    }

    fn read(&mut self, shape: &str, config: &[u8]) {
        let (cabinet, limits) = (self.cabinet, self.cabinet.limits());
        let lent = Lent { start: config.as_ptr().cast_mut(), length: config.len() };
        let call = named(cabinet, "sock_check_readable", "sock_check_readable_small");
        let readable = self.call(call, shape, || cabinet.check_readable(lent).into());
        let other = reference::sock_check_readable_within(&limits, config);
        assert_eq!(readable, other.into(), "{shape}");
        let call = named(cabinet, "sock_check_start", "sock_check_start_small");
        let start = self.call(call, shape, || cabinet.check_start(lent).into());
        let other = reference::sock_check_start_within(&limits, config);
        assert_eq!(start, other.into(), "{shape}");
        if cabinet == Cabinet::Small {
            return;
        }
        let mut index = [7u8; INDEX_BYTES];
        let begun = lend(&mut index);
        let number =
            self.call("sock_begin_index", shape, || exported::begin_index(lent, begun).into());
        assert_eq!(number, start, "{shape}");
        self.engines(shape, config);
        self.translate(shape, config);
        let ends = self.call("sock_ends", shape, || exported::ends(lent, 1));
        assert_eq!(ends, reference::sock_ends(config, 1), "{shape}");
        for engine in 0..3 {
            let process = self.call("sock_process", shape, || exported::process(lent, engine));
            assert_eq!(process, reference::sock_process(config, engine), "{shape}");
            let pending = self.call("sock_pending", shape, || exported::pending(lent, engine, 0));
            assert_eq!(pending, reference::sock_pending(engine, 0, config), "{shape}");
        }
    }

    /// Leaving; and joining with the configuration as it is and, so that it is the newcomer that is deep and
    /// long, with its engines one by one joining a house of one.
    fn engines(&mut self, shape: &str, config: &[u8]) {
        let lent = Lent { start: config.as_ptr().cast_mut(), length: config.len() };
        let (mut out, mut expected) = (vec![7u8; 16_384], vec![7u8; 16_384]);
        let output = lend(&mut out);
        let left = self.call("sock_leave", shape, || exported::leave(lent, output));
        assert_eq!(left, engines::sock_leave(config, &mut expected), "{shape}");
        let house = from_words(&write::configuration(&build::configuration(0, vec![build::nil()])));
        let small = Lent { start: house.as_ptr().cast_mut(), length: house.len() };
        let all = readable::read(&self.cabinet.limits(), &to_words(config).expect("words"));
        for engine in all.expect("readable").engines {
            let mut comer = from_words(&words(&engine));
            let newcomer = lend(&mut comer);
            for (house, bytes) in [(lent, config), (small, &house[..])] {
                let came =
                    self.call("sock_join", shape, || exported::join(house, newcomer, output));
                assert_eq!(
                    came,
                    engines::sock_join(bytes, newcomer.bytes(), &mut expected),
                    "{shape}"
                );
                assert!(output.bytes() == expected, "{shape}: another output");
            }
        }
    }

    fn translate(&mut self, shape: &str, config: &[u8]) -> u64 {
        let lent = Lent { start: config.as_ptr().cast_mut(), length: config.len() };
        let (mut out, mut expected) = (vec![7u8; 16_384], vec![7u8; 16_384]);
        let output = lend(&mut out);
        let laid = self.call("sock_translate", shape, || exported::translate(lent, output));
        assert_eq!(laid, planning::sock_translate(config, &mut expected), "{shape}");
        assert!(output.bytes() == expected, "{shape}: another output");
        laid >> 56
    }

    /// The longest game, in which the river's first move decides, so that it goes down to the last move: with a keeper who has no engine and
    /// passes, and with one who has one move each time, so that a position of each move is on the stack; and one move of a keeper who has all
    /// engines. Two engines more have the ends of serial 1, or nothing would be played, and a third the keeper's moves.
    fn keeper(&mut self, shape: &str, configuration: &Configuration) {
        let mut played = configuration.clone();
        let count = played.engines.len() as u8;
        let waits = build::waiter(1, 1, false, count + 1, 1, build::list([]));
        let works = build::executor(1, 1, count, 1, build::nil());
        let assign = || build::assign(1, build::constant(7));
        let moves = (0..4).fold(assign(), |rest, _| build::seq(assign(), rest));
        for end in [waits, works, moves] {
            played.engines.push(Engine { values: [0; 32], process: build::scope(1, end) });
        }
        played.issued = played.issued.max(1);
        let config = from_words(&write::configuration(&played));
        let lent = Lent { start: config.as_ptr().cast_mut(), length: config.len() };
        let mut words = vec![7u8; 2 * SCRATCH];
        let scratch = lend(&mut words);
        for (engines, k) in [(0, 6), (4 << count, 6), (0xff, 1)] {
            let played =
                self.call("sock_keeper", shape, || exported::keeper(lent, engines, 1, k, scratch));
            let expected = sock_keeper(&config, Game::new(engines, 1, 1), 0, SCRATCH);
            assert_eq!((played >> 56) as u8, expected.expect("no moves").number, "{shape}");
        }
    }

    /// Past the capture of the test's output, so that a run that passes shows it too.
    fn print(&self) {
        let mut out = std::io::stdout();
        for (call, (used, shape)) in &self.used {
            let _ = writeln!(out, "{call}: {used} bytes of stack ({shape})");
        }
    }

    fn step(&mut self, shape: &str, config: &[u8], numbers: Numbers) {
        let (cabinet, limits) = (self.cabinet, self.cabinet.limits());
        let mut out = vec![7u8; 16_384];
        let mut expected = out.clone();
        let output = lend(&mut out);
        let lent = Lent { start: config.as_ptr().cast_mut(), length: config.len() };
        let call = named(cabinet, "sock_step", "sock_step_small");
        let answer = self.call(call, shape, || cabinet.step(numbers, lent, output));
        let other = reference::sock_step_within(&limits, numbers, config, &mut expected);
        assert_eq!(answer, other, "{shape}, {numbers:?}");
        assert!(output.bytes() == expected, "{shape}, {numbers:?}: another output");
        self.journal(shape, config, numbers);
        if answer >> 56 == 0 {
            self.kinds.insert(answer >> 48);
        }
    }

    /// The same step with a journal and, where it is accepted, taken back.
    fn journal(&mut self, shape: &str, config: &[u8], numbers: Numbers) {
        let (cabinet, limits) = (self.cabinet, self.cabinet.limits());
        let (mut out, mut noted) = (vec![7u8; 16_384], vec![7u8; 32_772]);
        let lent = Lent { start: config.as_ptr().cast_mut(), length: config.len() };
        let (output, journal) = (lend(&mut out), lend(&mut noted));
        let call = named(cabinet, "sock_step_journal", "sock_step_journal_small");
        let answer =
            self.call(call, shape, || cabinet.step_journal(numbers, lent, output, journal));
        let (mut expected, mut written) = (vec![7u8; 16_384], vec![7u8; 32_772]);
        let other = reference::journal::sock_step_journal_within(
            &limits,
            numbers,
            config,
            &mut expected,
            &mut written,
        );
        assert_eq!(answer, other, "{shape}, {numbers:?}");
        assert!(output.bytes() == expected && journal.bytes() == written, "{shape}, {numbers:?}");
        if answer >> 56 == 0 && cabinet == Cabinet::Large {
            let next = Lent { start: output.start, length: 2 * usize::from(answer as u16) };
            self.back(shape, config, next, journal);
            self.indexed(shape, config, numbers, (next, journal));
        }
    }

    /// The same step with an index of as many serials as there may be, and taken back.
    fn indexed(
        &mut self,
        shape: &str,
        config: &[u8],
        numbers: Numbers,
        (next, noted): (Lent, Lent),
    ) {
        let full: Serials = (2..2 + MOST as u16).collect();
        let mut index = from_words(&index_of(&full));
        let (mut out, mut journal) = (vec![7u8; 16_384], vec![7u8; 32_772]);
        let lent = Lent { start: config.as_ptr().cast_mut(), length: config.len() };
        let [output, journal, listed] = [&mut out, &mut journal, &mut index].map(|b| lend(b));
        let answer = self.call("sock_step_indexed", shape, || {
            exported::step_indexed(numbers, lent, output, journal, listed)
        });
        assert_eq!(usize::from(answer as u16), next.length / 2, "{shape}, {numbers:?}");
        assert!(output.bytes()[..next.length] == *next.bytes(), "{shape}, {numbers:?}");
        let mut index = from_words(&index_of(&full));
        let listed = lend(&mut index);
        let taken = self.call("sock_take_back_indexed", shape, || {
            exported::take_back_indexed(next, noted, output, listed)
        });
        assert_eq!(taken, config.len() as u64 / 2, "{shape} taken back");
        let before = readable::read(&self.cabinet.limits(), &to_words(config).expect("words"));
        let open = open_serials(&before.expect("readable"));
        assert!(listed.bytes() == from_words(&index_of(&open)), "{shape}: another index");
        let count = self.call("sock_open_count", shape, || exported::open_count(listed));
        let oldest = self.call("sock_oldest", shape, || exported::oldest(listed));
        assert_eq!((count, oldest), (open.len() as u64, open.first().map_or(0, |s| u64::from(*s))));
    }

    /// Takes back to the configuration.
    fn back(&mut self, shape: &str, config: &[u8], next: Lent, journal: Lent) {
        let mut back = vec![7u8; 16_384];
        let output = lend(&mut back);
        let taken =
            self.call("sock_take_back", shape, || exported::take_back(next, journal, output));
        assert_eq!(taken, config.len() as u64 / 2, "{shape} taken back");
        assert!(output.bytes()[..config.len()] == *config, "{shape} taken back");
    }

    /// Every call on every shape.
    fn all(&mut self, shapes: Vec<Shape>) {
        for (shape, configuration) in shapes {
            let config = from_words(&write::configuration(&configuration));
            self.read(&shape, &config);
            if self.cabinet == Cabinet::Large {
                self.keeper(&shape, &configuration);
            }
            for numbers in steps(&configuration) {
                self.step(&shape, &config, numbers);
            }
        }
    }

    /// Every kind acted, and each of so many calls stayed below three quarters of the promise.
    fn judge(&self, calls: usize, promised: usize) {
        self.print();
        let actors = ACTORS.iter().map(|kind| u64::from(*kind));
        assert!(self.kinds.iter().copied().eq(actors), "accepted kinds {:?}", self.kinds);
        assert_eq!(self.used.len(), calls, "a call was not made");
        for (call, (used, shape)) in &self.used {
            let enough = match *call {
                "sock_translate" => self::promised("SOCK_STACK_PLAN"),
                "sock_keeper" => self::promised("SOCK_STACK_KEEPER"),
                _ => promised,
            };
            assert!(4 * used <= 3 * enough, "{call} used {used} bytes of stack ({shape})");
        }
    }
}

/// The calls that read no configuration: a full list, and a window that is full.
fn others(most: &mut Most) {
    let (rates, replies) = ([0u8; 256], vec![0u8; 12 * 65_535]);
    let mut totals = [7u8; 64];
    let start = totals.as_mut_ptr();
    let number = most.call("sock_bill", "a full list", || unsafe {
        sock_bill(rates.as_ptr(), 256, replies.as_ptr(), replies.len(), start, 64).into()
    });
    assert_eq!((number, totals), (0, [0; 64]));
    let mut window = [0u8; 2178];
    let start = window.as_mut_ptr();
    for _ in 0..1030 {
        let number = most.call("sock_window_next", "a full window", || unsafe {
            sock_window_next(1024, 0, 1, 63, start, 2178).into()
        });
        assert_eq!(number, 0);
    }
    let count = most.call("sock_window_count", "a full window", || unsafe {
        sock_window_count(63, start, 2178)
    });
    assert_eq!(count, 1024);
}

/// Planners' starts, as deep as is read and as long: fixed scopes nested in each of their places, and in all in turn; what they become is
/// too deep and too long. And starts that are accepted.
fn plans(most: &mut Most) {
    let nil: &[u16] = &[NIL];
    let around = |place: usize, inner: Vec<u16>| match place {
        0 => fixed(1, &[(0, &inner)], nil, nil, nil),
        1 => fixed(1, &[], &inner, nil, nil),
        2 => fixed(1, &[], nil, &inner, nil),
        _ => fixed(1, &[], nil, nil, &inner),
    };
    for (name, places) in [
        ("fault handlers", vec![0]),
        ("termination processes", vec![1]),
        ("compensation processes", vec![2]),
        ("bodies", vec![3]),
        ("all in turn", vec![0, 1, 2, 3]),
        ("compensation processes and bodies", vec![2, 3]),
    ] {
        for (levels, beside_it, number) in [(61, 1200, 8), (61, 1, 8), (12, 490, 0), (12, 900, 9)] {
            let deep = (0..levels)
                .fold(vec![THROW], |inner, level| around(places[level % places.len()], inner));
            let all = [vec![PAR], deep, beside(&vec![bare(); beside_it])].concat();
            let config = from_words(&start(&scope(&all)));
            let shape = format!("{levels} {name}, {beside_it} beside");
            assert!(config.len() <= 16_384, "{shape}");
            assert_eq!(most.translate(&shape, &config), number, "{shape}");
        }
    }
}

/// What acts, first of all; also the first and the last that are enabled, whatever they are.
fn steps(configuration: &Configuration) -> Vec<Numbers> {
    let mut all: Vec<Numbers> = fitting(configuration).into_iter().map(|step| step.0).collect();
    let stands = stands(configuration);
    for stand in [stands.first(), stands.last()].into_iter().flatten() {
        all.push(Numbers::new(stand.engine as u16, stand.position as u16, 0, 0, 0));
    }
    all
}

/// The cabinet's own shapes: readable there, deep and long.
fn own(cabinet: Cabinet) -> Vec<Shape> {
    let limits = cabinet.limits();
    let shapes = shapes(Extent::of(cabinet));
    for (shape, configuration) in &shapes {
        let words = write::configuration(configuration);
        assert!(readable::read(&limits, &words).is_some(), "{shape} is not readable");
        let (long, deep) = (3 * limits.words / 4, limits.depth - 4);
        assert!(words.len() > long && configuration.depth() > deep, "{shape} is not deep and long");
    }
    shapes
}

#[test]
fn no_call_needs_more_stack_than_three_quarters_of_the_promise() {
    let mut most = Most::new(Cabinet::Large);
    most.all(own(Cabinet::Large));
    others(&mut most);
    plans(&mut most);
    most.judge(20, promised("SOCK_STACK"));
}

/// Also on configurations that it refuses: too long, and too deep only.
#[test]
fn no_call_of_the_small_cabinet_needs_more_than_three_quarters_of_its_promise() {
    let mut most = Most::new(Cabinet::Small);
    most.all(own(Cabinet::Small));
    let deep = Extent { levels: 60, beside: 300 };
    for (shape, configuration) in shapes(deep).into_iter().chain(shapes(Extent::of(Cabinet::Large)))
    {
        let config = from_words(&write::configuration(&configuration));
        most.read(&shape, &config);
        most.step(&shape, &config, steps(&configuration)[0]);
    }
    most.judge(4, promised("SOCK_STACK_SMALL"));
}
