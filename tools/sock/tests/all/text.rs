//! The text form: round trips both ways on every example and on generated configurations, and the words that each form means.

use crate::texts::{assembled, examples, round_trip, round_trip_from};
use reference::generate::edges;
use reference::generate::run::{Run, ORIGINS};
use reference::write;
use sock::assemble::assemble;
use sock::diagnose;
use sock::files::{load, text, Form};
use sock::library::{self, Move};
use sock::names::Names;
use sock::state::State;
use sock::tree::{places, Expression, Process};
use sock::words::{self, Input};

#[test]
fn every_example() {
    let all = examples(".hex").into_iter();
    let all = all.map(|(name, content)| (name, words::read(Form::Hex, &content).unwrap()));
    // A planners' start has no text; what it becomes has one.
    let (starts, plans): (Vec<_>, Vec<_>) =
        all.partition(|(_, input)| library::check_start(&input.words) == 0);
    for (name, Input { words, steps }) in plans {
        let words = library::translate(&words).unwrap();
        round_trip(&Input { words, steps }, &Names::default(), &name);
    }
    assert_eq!(starts.len(), examples(".sock").len());
    for (name, input) in starts {
        round_trip(&input, &Names::default(), &name);
        let beside = std::fs::read_to_string(name.replace(".hex", ".sock")).unwrap();
        let beside = assembled(&beside).unwrap_or_else(|trouble| panic!("{name}: {trouble:?}"));
        assert_eq!(beside.input, input, "{name}: the text beside it has other words");
    }
}

#[test]
fn every_text_with_its_names() {
    let all = examples(".sock");
    assert!(all.len() >= 8);
    for (name, content) in all {
        let loaded = load(&name, &content).unwrap();
        assert_eq!(library::check_start(&loaded.input.words), 0, "{name}");
        round_trip(&loaded.input, &loaded.names, &name);
        let start = loaded.start.unwrap();
        round_trip_from(&start, &loaded.input.steps, &loaded.names, &name);
        let written = text(&loaded.names, &start, &loaded.input.steps);
        let steps = steps_of(&written);
        assert_eq!(steps.len(), loaded.input.steps.len());
        for (had, has) in steps_of(&String::from_utf8(content).unwrap()).iter().zip(&steps) {
            assert!(had == has || had.contains(" at "), "{name}: '{had}' is written '{has}'");
        }
    }
}

/// The lines of a text's steps, without comments.
fn steps_of(text: &str) -> Vec<String> {
    let (_, steps) = text.split_once("steps {").unwrap();
    let lines = steps.lines().map(|line| line.split('#').next().unwrap_or("").trim());
    lines.filter(|line| !["", "}"].contains(line)).map(str::to_string).collect()
}

/// Names for all numbers.
fn all_names() -> Names {
    let table = |word: &str, count: u8| {
        (0..count).rev().map(|number| (format!("{word}-{number}"), number)).collect()
    };
    Names {
        operations: table("operation", 64),
        faults: table("f", 64),
        scopes: table("s", 64),
        engines: table("e", 8),
        variables: vec![table("v", 32); 8],
    }
}

/// How often what the format has was met: kinds, operators, counts of a message's variables.
#[derive(Default)]
struct Met {
    kinds: [usize; 19],
    operators: [usize; 6],
    counts: [usize; 4],
}

impl Met {
    fn process(&mut self, process: &Process) {
        self.kinds[process.kind as usize] += 1;
        process.expression.iter().for_each(|expression| self.expression(expression));
        for variables in [&process.x, &process.y].into_iter().filter(|list| !list.is_empty()) {
            self.counts[variables.len() - 1] += 1;
        }
    }

    fn expression(&mut self, expression: &Expression) {
        if let Expression::Binary(operator, left, right) = expression {
            self.operators[*operator as usize] += 1;
            self.expression(left);
            self.expression(right);
        }
    }

    fn all(&self, least: usize) -> bool {
        let mut all = self.kinds.iter().chain(&self.operators).chain(&self.counts);
        all.all(|count| *count > least)
    }
}

#[test]
fn generated_configurations() {
    let named = all_names();
    let mut met = Met::default();
    for seed in 0..2000 {
        let run = Run::new(seed, ORIGINS[seed as usize % ORIGINS.len()]);
        let steps = vec![Move::of(&[1, 2, 3, 4, 5]).unwrap(), Move::alone(65535, 7)];
        let input =
            Input { words: run.words, steps: if seed % 2 == 0 { steps } else { Vec::new() } };
        let what = format!("seed {seed}");
        let configuration = round_trip(&input, &Names::default(), &what);
        let mut some = named.clone();
        some.engines.retain(|(_, number)| usize::from(*number) < configuration.engines.len());
        some.variables.truncate(configuration.engines.len());
        round_trip(&input, &some, &what);
        for engine in &configuration.engines {
            places(&engine.process).iter().for_each(|place| met.process(place.process));
        }
    }
    assert!(met.all(100), "{:?} {:?} {:?}", met.kinds, met.operators, met.counts);
}

/// At the limits, in every way to nest: depth 64 goes both ways, 65 is refused with its line; so are 8,192 words and 8,193.
#[test]
fn at_the_limits() {
    for way in edges::WAYS {
        let input =
            Input { words: write::configuration(&edges::deep(*way, 64)), steps: Vec::new() };
        assert_eq!(library::check_start(&input.words), 0);
        round_trip(&input, &Names::default(), "depth 64");
        let deeper = write::configuration(&edges::deep(*way, 65));
        assert_eq!(diagnose::read(&deeper).unwrap_err().sentence, "depth is at most 64");
    }
    let long = |words| write::configuration(&edges::long(words).unwrap());
    let longest = Input { words: long(8192), steps: Vec::new() };
    let tree = round_trip(&longest, &Names::default(), "8,192 words");
    let longest = State { words: longest.words, tree };
    let longer = text(&Names::default(), &longest, &[]).replacen("comp 1", "one-way 1 ($1)", 1);
    let trouble = assembled(&longer).unwrap_err();
    assert_eq!(trouble.text, "unreadable: a configuration has at most 8,192 words");
    let lines = longer.lines().enumerate().filter(|(_, line)| line.contains("comp 1"));
    assert_eq!(trouble.at.map(|at| at.line), lines.last().map(|(index, _)| index + 1));
    assert_eq!(
        diagnose::read(&long(8193)).unwrap_err().sentence,
        "a configuration has at most 8,192 words"
    );
}

/// Each form of the text with its words, put together by hand from docs/FORMAT.md.
const MEANT: &[(&str, &str)] = &[
    ("$3 := 5", "08c0 0000 0000 0005"),
    ("throw 2; comp 3", "1000 6840 7060"),
    ("throw 2 | comp 3", "1800 6840 7060"),
    ("if $1 less 2 { throw 1 } else { comp 1 }", "2000 8000 2100 0000 0000 0002 6820 7020"),
    ("if 2 { throw 1 }", "2000 0000 0000 0002 6820 0000"),
    ("while $1 equal -1 { throw 1 }", "2800 a000 2100 0000 ffff ffff 6820"),
    ("$1 := $2 sum 3", "0840 4000 2200 0000 0000 0003"),
    ("$1 := $2 difference 3", "0840 6000 2200 0000 0000 0003"),
    ("$1 := $2 decimal sum 0x19", "0840 c000 2200 0000 0000 0019"),
    ("$1 := $2 decimal difference 0x19", "0840 e000 2200 0000 0000 0019"),
    (
        "$1 := 1 difference 2 sum 3 less 4",
        "0840 8000 4000 6000 0000 0000 0001 0000 0000 0002 0000 0000 0003 0000 0000 0004",
    ),
    (
        "$1 := 1 difference (2 sum @6)",
        "0840 6000 0000 0000 0001 4000 0000 0000 0002 0000 0000 0006",
    ),
    (
        "choice { one-way 2 ($5) then { throw 1 } request 3 ($6) reply ($7) }",
        "3002 3845 0001 6820 4066 3800 0001 0001 0000 0000",
    ),
    ("one-way 2 ($5, $6, $0, $8)", "3845 0004 3000 0000 4000"),
    ("request 1 ($2, $3) reply ($6) { throw 1 }", "4022 3000 0002 1800 0001 6820"),
    ("notify 2 ($2) to $1", "4842 0800 0001"),
    ("notify 2 ($2, $3, $4, $2) to $1", "4842 0800 0004 1800 2000 1000"),
    ("solicit 1 ($2, $3) to $1 reply ($6)", "5022 0980 0002 1800 0001 0000"),
    (
        "solicit 1 ($2) to $1 reply ($6) { on scope 2 { throw 1 } on fault 4 { cH } }",
        "5022 0980 0001 0001 0002 0800 7800 8400 6820",
    ),
    ("scope 5 { throw 1 }; throw 2", "1000 58a0 0000 0000 6820 6840"),
    (
        "scope 5 zombie marked fault 3 handlers { on fault 3 { } } { throw 1 }",
        "58ac 0c00 0001 0600 0000 6820",
    ),
    ("scope 5 zombie marked own { throw 1 }", "58b4 0000 0000 6820"),
    ("inst { on fault 1 { throw 2 } }", "6000 0001 0200 6840"),
    ("executor 3 reply ($4, $5) for 6 serial 9 { throw 1 }", "8064 c000 0009 0002 2800 6820"),
    (
        "waiter 3 reply ($4) from 6 serial 9 dead { on fault 1 { cH } }",
        "8864 e000 0009 0001 0001 0200 7800",
    ),
    ("waiter 3 reply ($4) from 6 serial 9", "8864 6000 0009 0001 0000"),
    ("notice 3 fault 5 for 6 serial 9", "9060 1700 0009"),
    ("", "0000"),
];

#[test]
fn what_each_form_means() {
    for (process, words) in MEANT {
        let others = "engine { } ".repeat(6);
        let text = format!("issued 9 engine {{ scope 1 {{ {process} }} }} {others}");
        let loaded = assembled(&text).unwrap_or_else(|trouble| panic!("{process}: {trouble:?}"));
        let place = library::process(&loaded.input.words, 0);
        // Behind the scope's three words.
        let written: Vec<String> =
            loaded.input.words[place].iter().skip(3).map(|word| format!("{word:04x}")).collect();
        assert_eq!(written.join(" "), *words, "{process}");
        round_trip(&loaded.input, &Names::default(), process);
    }
}

/// Names without number take what is free, whether what is declared has a name or not.
#[test]
fn numbers_that_are_left() {
    let text =
        "fault late, first 0, last\nengine { var level = 7, $0 = 5, gate $2 = 6, light = 8 }";
    let assembled = assemble(text).unwrap();
    assert_eq!(assembled.configuration.engines[0].values[..5], [5, 7, 6, 8, 0]);
    let faults = [("first", 0), ("late", 1), ("last", 2)];
    let faults: Vec<(String, u8)> =
        faults.map(|(name, number)| (name.to_string(), number)).to_vec();
    assert_eq!(assembled.names.faults, faults);
}

/// Hexadecimal text as the program handover takes it, and where it is wrong.
#[test]
fn hexadecimal_text() {
    let words = |text: &str| words::read(Form::Hex, text.as_bytes());
    let two = Input { words: vec![0xab, 0], steps: vec![Move::default()] };
    for text in [
        "0002 00AB\t0000 0000*5",
        "\u{feff}0002 00ab # \r\n 0000 0000*5\r\n# end",
        "0002\n00ab\n0000*6",
    ] {
        assert_eq!(words(text).as_ref(), Ok(&two), "{text}");
    }
    for (text, line, column) in [
        ("0001 00zz", 1, 6),
        ("0001\n 000", 2, 2),
        ("0001 00000", 1, 6),
        ("0001 0000*", 1, 6),
        ("0001 0000*0", 1, 6),
        ("0001 0000*16385", 1, 6),
        ("0001 0000*2*2", 1, 6),
        ("0001 # a\rb", 1, 9),
        ("0001 \u{e9}", 1, 6),
    ] {
        let at = words(text).unwrap_err().at.unwrap();
        assert_eq!((at.line, at.column), (line, column), "{text}");
    }
    assert!(words::read(Form::Bytes, &[0, 0, 0]).is_err());
}
