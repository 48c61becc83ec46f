//! The rewriting of the format before document 02's change c. The earlier step is held to vectors
//! that were recorded with it; then, on these and on generated runs: where rewritten input and
//! result are within the limits, today's step on the rewritten input, its positions moved along,
//! answers the same kind, serial and fault and gives the rewriting of the earlier result, and
//! refuses with the same number. 9 and 10 depend on lengths, and those have grown.

mod common;

use common::FILL;
use reference::bytes::{from_words, to_words};
use reference::earlier::{self, input, rewrite, without_counts};
use reference::generate::damage::random_damage;
use reference::generate::run::{Origin, Run, ORIGINS};
use reference::handover::handover;
use reference::process::{List, Part, Process};
use reference::variables::Variables;
use reference::{
    build, check_readable, check_start, ends, process_range, readable, step, write, Answer,
    Numbers, STANDARD,
};
use std::rc::Rc;

/// What stands in the output of a vector's program before a step.
const FILLED: u16 = 42_405;

/// The words of recorded vectors, taken from the front.
struct Recorded {
    words: Vec<u16>,
    at: usize,
}

impl Recorded {
    fn new(bytes: &[u8]) -> Recorded {
        Recorded { words: to_words(bytes).expect("whole words"), at: 0 }
    }

    fn take(&mut self, count: usize) -> Vec<u16> {
        let taken = self.words[self.at..self.at + count].to_vec();
        self.at += count;
        taken
    }
}

fn numbers_of(line: &str) -> Vec<u16> {
    line.split(' ').map(|number| number.parse().expect("a number")).collect()
}

fn sum(words: &[u16]) -> u16 {
    words.iter().fold(0u16, |sum, word| sum.wrapping_mul(3).wrapping_add(*word))
}

/// What the theorem on rewriting says of a step, tried with output enough for both. Gives the
/// earlier answer, and whether rewritten input and result were within the limits.
fn rewritten_alike(words: &[u16], numbers: Numbers) -> (Answer, bool) {
    let mut output = vec![FILL; STANDARD.words];
    let earlier = earlier::step(words, numbers, &mut output);
    let Some(rewriting) = rewrite(words) else {
        assert_eq!(earlier.number, 1, "laid out in no way, and read");
        return (earlier, false);
    };
    assert_eq!(without_counts(&rewriting.words).as_deref(), Some(words), "there and back");
    if words.len() > STANDARD.words || rewriting.words.len() > STANDARD.words {
        return (earlier, false);
    }
    let mut today_output = vec![FILL; STANDARD.words];
    let moved = rewriting.numbers(numbers);
    let today = step(&STANDARD, &rewriting.words, moved, &mut today_output);
    if earlier.number != 0 {
        // An earlier result that is too long is, rewritten, longer still.
        assert_eq!(today, earlier, "{numbers:?} of {words:x?}");
        return (earlier, true);
    }
    let result =
        rewrite(&output[..usize::from(earlier.length)]).expect("a result is laid out").words;
    if result.len() > STANDARD.words {
        assert_eq!(today.number, 9);
        return (earlier, false);
    }
    let length = result.len() as u16;
    assert_eq!(today, Answer { length, ..earlier }, "{numbers:?} of {words:x?}");
    assert!(length >= earlier.length);
    let (made, past) = today_output.split_at(result.len());
    assert_eq!(made, result, "{numbers:?} of {words:x?}");
    assert!(past.iter().all(|word| *word == FILL));
    (earlier, true)
}

#[test]
fn the_earlier_step_is_as_recorded_and_rewritten_alike() {
    let mut recorded = Recorded::new(include_bytes!("../earlier/step_cases/stdin"));
    let lines = include_str!("../earlier/step_cases/stdout").lines();
    let (mut cases, mut accepted, mut within) = (0, 0, 0);
    for line in lines {
        let length = usize::from(recorded.take(1)[0]);
        let [engine, position, second, place, branch, room] = recorded.take(6)[..] else {
            panic!("six numbers")
        };
        let words = recorded.take(length);
        let numbers = Numbers::new(engine, position, second, place, branch);
        let mut output = vec![FILLED; usize::from(room)];
        let Answer { number, kind, serial, fault, length } =
            earlier::step(&words, numbers, &mut output);
        let answer = [number.into(), kind.into(), serial, fault.into(), length, sum(&output)];
        assert_eq!(answer[..], numbers_of(line), "case {cases}");
        let (with_room, both_within) = rewritten_alike(&words, numbers);
        assert!(number == 10 || with_room.number == number);
        cases += 1;
        accepted += u32::from(with_room.number == 0);
        within += u32::from(with_room.number == 0 && both_within);
    }
    assert_eq!(recorded.at, recorded.words.len());
    assert!(cases == 1199 && accepted > 600 && within > 600, "{cases} {accepted} {within}");
}

/// The other calls: readable, fresh, ends and an engine's process are the same of the rewriting.
#[test]
fn the_reading_calls_are_as_recorded() {
    let mut recorded = Recorded::new(include_bytes!("../earlier/reading_cases/stdin"));
    let lines = include_str!("../earlier/reading_cases/stdout").lines();
    let (mut cases, mut readable) = (0, 0);
    for line in lines {
        let [length, serial, engine] = recorded.take(3)[..] else { panic!("three numbers") };
        let words = recorded.take(usize::from(length));
        let expected = numbers_of(line);
        let found = earlier::read(&words);
        assert_eq!(u16::from(found.is_none()), expected[0], "case {cases}");
        cases += 1;
        readable += u32::from(found.is_some());
        let Some((_, rewriting)) = found else { continue };
        let part = rewriting.processes.get(usize::from(engine)).cloned().unwrap_or(0..0);
        assert_eq!([part.len() as u16, sum(&words[part.clone()])], expected[5..]);
        let today = &rewriting.words;
        if today.len() <= STANDARD.words {
            let counts = ends(&STANDARD, today, serial);
            let answers = [check_readable(&STANDARD, today), check_start(&STANDARD, today)];
            assert_eq!(answers.map(u16::from), expected[..2]);
            let counts = [counts.number.into(), counts.waiters, counts.workers];
            assert_eq!(counts, expected[2..5]);
            let moved = rewriting.places[part.start]..rewriting.places[part.end];
            let expected = if part.is_empty() { 0..0 } else { moved };
            assert_eq!(process_range(&STANDARD, today, engine), expected);
        }
    }
    assert_eq!(recorded.at, recorded.words.len());
    assert!(cases == 322 && readable > 100, "{cases} {readable}");
}

/// The process with the first variable of each list alone.
fn plain(process: &Part) -> Part {
    let lists = |list: &List| list.iter().map(|(key, entry)| (*key, plain(entry))).collect();
    let one = |variables: &Variables| variables.first();
    match &**process {
        Process::Seq(first, second) => build::seq(plain(first), plain(second)),
        Process::Par(left, right) => build::par(plain(left), plain(right)),
        Process::If(condition, yes, no) => build::if_else(condition.clone(), plain(yes), plain(no)),
        Process::While(condition, body) => build::while_true(condition.clone(), plain(body)),
        Process::Choice(branches) => {
            build::choice(branches.iter().map(|b| (plain(&b.receiver), plain(&b.then))).collect())
        }
        Process::OneWay { operation, x } => build::one_way(*operation, one(x)),
        Process::Request { operation, x, y, body } => {
            build::request(*operation, one(x), one(y), plain(body))
        }
        Process::Notify { operation, y, z } => build::notify(*operation, one(y), *z),
        Process::Solicit { operation, y, z, x, list } => {
            build::solicit(*operation, one(y), *z, one(x), lists(list))
        }
        Process::Scope(scope, body) => {
            let mut scope = scope.clone();
            scope.list = lists(&scope.list);
            Rc::new(Process::Scope(scope, plain(body)))
        }
        Process::Inst(list) => build::inst(lists(list)),
        Process::Executor(e, body) => {
            build::executor(e.operation, one(&e.y), e.client, e.serial, plain(body))
        }
        Process::Waiter(w) => {
            build::waiter(w.operation, one(&w.x), w.dead, w.server, w.serial, lists(&w.list))
        }
        _ => process.clone(),
    }
}

#[test]
fn generated_runs_are_rewritten_alike() {
    let mut met = [0u32; 14];
    for seed in 0..1200 {
        let origin = ORIGINS[seed as usize % ORIGINS.len()];
        let steps = match origin {
            Origin::Growing if seed > 60 => continue,
            Origin::Growing => 140,
            _ => 20,
        };
        let mut run = Run::new(0xE000 + seed, origin);
        let mut start = run.configuration().expect("readable");
        for engine in &mut start.engines {
            engine.process = plain(&engine.process);
        }
        // The run goes on in today's format, which has the likely steps.
        run.words = write::configuration(&start);
        for _ in 0..steps {
            let Some(words) = without_counts(&run.words) else { panic!("more than one variable") };
            let Some(call) = run.call() else { break };
            let back = earlier_numbers(&words, call.numbers);
            met[usize::from(rewritten_alike(&words, back).0.number)] += 1;
            rewritten_alike(&random_damage(&mut run.random, &words), back);
            let arbitrary = Numbers { position: run.random.below(200) as u16, ..back };
            rewritten_alike(&words, arbitrary);
            let mut output = vec![FILL; STANDARD.words];
            let answer = step(&STANDARD, &run.words, call.numbers, &mut output);
            run.take(&answer, &output);
        }
    }
    assert!([0, 2, 3, 5, 6, 7, 8, 9, 13].iter().all(|number| met[*number] > 0), "{met:?}");
}

/// The earlier numbers that are moved along to these; the same ones where there are none.
fn earlier_numbers(words: &[u16], moved: Numbers) -> Numbers {
    let (_, rewriting) = earlier::read(words).expect("readable");
    let back = |engine: u16, position: u16| {
        let tried = (0..=position).rev().find(|each| {
            let numbers = Numbers::new(engine, *each, 0, 0, 0);
            rewriting.numbers(numbers).position <= position
        });
        tried.unwrap_or(position)
    };
    Numbers {
        position: back(moved.engine, moved.position),
        second_position: back(moved.second_engine, moved.second_position),
        ..moved
    }
}

/// Positions in the process, behind it, and in no engine.
#[test]
fn positions_are_moved_along() {
    let process = build::par(build::one_way(1, 1), build::notify(1, 1, 1));
    let before = build::configuration(0, vec![build::scope(1, process), build::nil()]);
    let words = without_counts(&write::configuration(&before)).expect("one variable each");
    let (_, rewriting) = earlier::read(&words).expect("readable");
    let moved =
        |engine, position| rewriting.numbers(Numbers::new(engine, position, 0, 0, 0)).position;
    // Scope 0, fault 1, list 2, par 3, one-way 4, notify 5, z 6; the counts are 5 and 8.
    let expected = [0, 1, 2, 3, 4, 6, 7];
    assert_eq!([0, 1, 2, 3, 4, 5, 6].map(|position| moved(0, position)), expected);
    assert_eq!(
        [7, 8, 65_533, 65_534, 65_535].map(|position| moved(0, position)),
        [9, 10, 65_535, 65_535, 65_535]
    );
    assert_eq!([0, 1, 65_535].map(|position| moved(1, position)), [0, 1, 65_535]);
    assert_eq!([0, 1, 65_535].map(|position| moved(2, position)), [0, 1, 65_535]);
    let second = rewriting.numbers(Numbers::new(1, 0, 0, 5, 7));
    assert_eq!(second, Numbers::new(1, 0, 0, 6, 7));
}

/// Lengths at the limit: earlier words that are too long today, and results that are.
#[test]
fn what_is_too_long_today_is_refused() {
    let wide = |count: usize| {
        let mut processes = vec![build::one_way(1, 1); count];
        while processes.len() > 1 {
            let (one, two) = (processes.remove(0), processes.remove(0));
            processes.push(build::par(one, two));
        }
        let repeats = build::while_true(build::constant(1), build::comp(1));
        let body = build::par(repeats, processes.remove(0));
        write::configuration(&build::configuration(0, vec![build::scope(1, body)]))
    };
    let again = Numbers::new(0, 4, 0, 0, 0);
    let mut met = [0; 3];
    for count in 2690..2720 {
        let today = wide(count);
        let words = without_counts(&today).expect("one variable each");
        let (answer, within) = rewritten_alike(&words, again);
        assert_eq!(answer.number, 0);
        let grown = today.len() + 2;
        assert_eq!(within, grown <= STANDARD.words);
        met[usize::from(grown > STANDARD.words) + usize::from(today.len() > STANDARD.words)] += 1;
        assert!(earlier::read(&words).is_some());
        assert_eq!(readable::read(&STANDARD, &today).is_some(), today.len() <= STANDARD.words);
    }
    assert!(met.iter().all(|count| *count > 0), "{met:?}");
}

#[test]
fn inputs_of_handover_are_rewritten() {
    let worked = include_bytes!("../earlier/handover/stdin");
    let text = include_str!("../earlier/handover/stdout");
    let rewritten = input::bytes(worked).expect("an earlier input");
    assert_eq!(String::from_utf8_lossy(&handover(&rewritten)), text);
    assert_eq!(rewritten[..2], [0, 146]);
    // Bytes behind the last whole step stay.
    for cut in 1..10 {
        let whole = &worked[..worked.len() - cut];
        let rewritten = input::bytes(whole).expect("an earlier input");
        assert_eq!(rewritten.len(), whole.len() + 8);
        assert!(String::from_utf8_lossy(&handover(&rewritten)).ends_with("cut\n"));
    }
    let mut odd = worked.to_vec();
    odd.push(0x77);
    assert_eq!(input::bytes(&odd).expect("an earlier input").last(), Some(&0x77));
}

/// The lines of an earlier run, by the earlier step, and its calls, from today's steps moved back.
fn earlier_run(run: &mut Run, most: usize) -> (Vec<u16>, Vec<String>) {
    let mut words = without_counts(&run.words).expect("one variable each");
    let (mut input, mut lines) = (words.clone(), Vec::new());
    input.insert(0, words.len() as u16);
    for count in 1..=most {
        let Some(call) = run.call() else { break };
        let Numbers { engine, position, second_engine, second_position, branch } =
            earlier_numbers(&words, call.numbers);
        input.extend([engine, position, second_engine, second_position, branch]);
        let numbers = Numbers::new(engine, position, second_engine, second_position, branch);
        let mut output = vec![FILL; STANDARD.words];
        let answer = earlier::step(&words, numbers, &mut output);
        let Answer { number, kind, serial, fault, length } = answer;
        lines.push(format!("{count} {number} {kind} {serial} {fault}"));
        if number == 0 {
            words = output[..usize::from(length)].to_vec();
            run.words = rewrite(&words).expect("a result is laid out").words;
        }
    }
    (input, lines)
}

/// Whole inputs: the positions of each step are those of what the steps before have made.
#[test]
fn runs_of_handover_are_rewritten() {
    let (mut steps, mut moved) = (0, 0);
    for seed in 0..400 {
        let mut run = Run::new(0xF000 + seed, Origin::Fresh);
        let mut start = run.configuration().expect("readable");
        for engine in &mut start.engines {
            engine.process = plain(&engine.process);
        }
        run.words = write::configuration(&start);
        let (input, lines) = earlier_run(&mut run, 40);
        let rewritten = input::bytes(&from_words(&input)).expect("an earlier input");
        let text = String::from_utf8(handover(&rewritten)).expect("text");
        let printed: Vec<&str> = text.lines().collect();
        assert_eq!(printed[0], "start 0");
        assert_eq!(printed[1..printed.len() - 1], lines);
        let end = format!("end {}", run.words.len());
        assert_eq!(printed.last().copied(), Some(end.as_str()));
        steps += lines.len();
        let tail = |words: &[u16]| words[words.len() - 5 * lines.len()..].to_vec();
        moved += usize::from(tail(&input) != tail(&to_words(&rewritten).expect("whole words")));
    }
    assert!(steps > 5000 && moved > 200, "{steps} {moved}");
}

#[test]
fn what_is_no_earlier_input_is_said_so() {
    let says = |input: &[u8], why: &str| {
        let said = input::bytes(input).expect_err("no earlier input");
        assert!(said.contains(why), "{said}");
    };
    says(&[], "empty");
    says(&[7], "empty");
    says(&from_words(&[8193, 1]), "8193 words");
    says(&from_words(&[5, 1]), "5 words, and 1 follow");
    says(&from_words(&[2, 1, 0]), "no configuration");
    let worked = include_bytes!("../earlier/handover/stdin");
    // What is in today's format already is not rewritten again.
    let once = input::bytes(worked).expect("an earlier input");
    says(&once, "no configuration");
    // Too long, at the start and after a step.
    let mut long = vec![build::one_way(1, 1); 1400];
    while long.len() > 1 {
        let (one, two) = (long.remove(0), long.remove(0));
        long.push(build::par(one, two));
    }
    let root = |body: Part| build::configuration(0, vec![build::scope(1, body)]);
    let given = |today: Vec<u16>, steps: &[u16]| {
        let words = without_counts(&today).expect("one variable each");
        from_words(&[&[words.len() as u16], &words[..], steps].concat())
    };
    let twice = build::par(long[0].clone(), long[0].clone());
    says(&given(write::configuration(&root(twice)), &[]), "the start has");
    let again = build::while_true(build::constant(1), long[0].clone());
    let grows = given(write::configuration(&root(again)), &[0, 3, 0, 0, 0]);
    says(&grows, "the result of step 1");
}

/// A text keeps its lines and comments; what it says is what its bytes say.
#[test]
fn texts_are_rewritten_like_bytes() {
    let worked = include_bytes!("../earlier/examples/worked.hex");
    let rewritten = input::text(worked).expect("an earlier input");
    let lines = |text: &[u8]| text.iter().filter(|byte| **byte == b'\n').count();
    assert_eq!(lines(&rewritten), lines(worked));
    for (earlier, made) in worked.split(|b| *b == b'\n').zip(rewritten.split(|b| *b == b'\n')) {
        let comment =
            |line: &[u8]| line.iter().position(|b| *b == b'#').map(|at| line[at..].to_vec());
        assert_eq!(comment(made), comment(earlier));
    }
    let text = String::from_utf8(rewritten).expect("text");
    assert!(text.contains("  5020 0880 0001 0001 0000"), "{text}");
    assert!(text.contains("  4020 0000 0001 0001    "), "comments keep their column: {text}");
    assert_eq!(words_of(&text), words_of_bytes(include_bytes!("../earlier/handover/stdin")));
    let marked = [&b"\xEF\xBB\xBF# \xFF\r\n"[..], &worked[..]].concat();
    let marked = input::text(&marked).expect("an earlier input");
    assert!(marked.starts_with(b"\xEF\xBB\xBF# \xFF\r\n"));
    for wrong in ["00zz", "8e", "0001*0", "+001", "0001*2*3", "0001*20000"] {
        assert!(input::text(wrong.as_bytes()).is_err(), "{wrong}");
    }
    assert!(text.contains("\n0092 "), "the count of words: {text}");
    // Repeated words stay as they are written, unless there is something between them now.
    let repeated = b"0048 0001 0000 0000*64 5820 0000*2 1800 3821*2 # two one-ways\n";
    let expected = b"004a 0001 0000 0000*64 5820 0000*2 1800 3821 0001 3821 0001 # two one-ways\n";
    assert_eq!(input::text(repeated).as_deref(), Ok(&expected[..]));
}

fn words_of(text: &str) -> Vec<u16> {
    let mut words = Vec::new();
    for line in text.lines() {
        for item in line.split('#').next().unwrap_or("").split_whitespace() {
            let (word, times) = item.split_once('*').unwrap_or((item, "1"));
            let word = u16::from_str_radix(word, 16).expect("a word");
            words.extend(vec![word; times.parse().expect("a count")]);
        }
    }
    words
}

fn words_of_bytes(earlier: &[u8]) -> Vec<u16> {
    to_words(&input::bytes(earlier).expect("an earlier input")).expect("whole words")
}
