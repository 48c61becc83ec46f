//! What is wrong with a text or with words: line, column and what was expected, whatever is written.

use crate::texts::{assembled, examples, round_trip_from};
use reference::generate::random::Random;
use sock::files::Form;
use sock::parser;
use sock::words;

/// Text, line, column, and what is said.
const WRONG: &[(&str, usize, usize, &str)] = &[
    ("", 1, 1, "'engine'"),
    (
        "engine {\n  scope 1 { throw }\n}",
        2,
        19,
        "the name or the number of a fault is expected, not '}'",
    ),
    (
        "engine {\n  scope 1 { throw 64 }\n}",
        2,
        19,
        "the number of a fault from 0 to 63 is expected, not 64",
    ),
    ("fault a 2, b 2\nengine {}", 1, 12, "another number is expected: 2 is called 'a'"),
    ("fault a, a\nengine {}", 1, 10, "another name is expected: 'a' is declared already"),
    ("engine { var $1 = 1, $1 = 2 }", 1, 22, "another number is expected: $1 is declared already"),
    ("engine { var a $1, b $1 }", 1, 20, "another number is expected: $1 is declared already"),
    ("fault if\nengine {}", 1, 7, "'if' is a word of the text form"),
    ("engine lock { scope 1 { x := 1 } }", 1, 25, "no variable is called 'x': none is declared"),
    (
        "engine lock { var a, b scope 1 { x := 1 } }",
        1,
        34,
        "no variable is called 'x': there are a, b",
    ),
    ("engine lock { scope 1 { $32 := 1 } }", 1, 25, "a variable's number from 0 to 31"),
    ("engine lock { scope 1 { $1 := 4294967296 } }", 1, 31, "a number from 0 to 4294967295"),
    ("engine lock { scope 1 { $1 := -2147483649 } }", 1, 31, "a number from -2147483648 on"),
    ("engine lock { scope 1 { $1 := 0x123456789 } }", 1, 31, "hexadecimal digits"),
    ("engine lock { scope 1 { $1 = 1 } }", 1, 25, "a process is expected"),
    ("engine lock { scope 1 { one-way 1 ($1, $2, $3, $4, $5) } }", 1, 52, "at most 4 variables"),
    ("engine lock { scope 1 { one-way 1 ($1, $1) } }", 1, 42, "none may receive twice"),
    (
        "engine lock { scope 1 { nil; throw 1 | throw 2 } }",
        1,
        38,
        "braces have to say what belongs together",
    ),
    ("engine lock { scope 1 { nil; throw 1 } }", 1, 25, "no seq begins with nil"),
    ("engine lock { scope 1 { throw 1 | nil } }", 1, 35, "no par has a nil side"),
    ("engine lock { throw 1 }", 1, 15, "an engine's process is nil or a scope"),
    ("engine lock { scope 1 { cH } }", 1, 25, "cH stands only inside"),
    ("engine lock { scope 1 marked own { } }", 1, 15, "mark 2 stands only on a zombie"),
    (
        "engine lock { scope 1 marked fault 2 { } }",
        1,
        15,
        "with mark 1 the list holds the marked fault",
    ),
    (
        "engine lock { scope 1 { waiter 1 reply ($1) from lock serial 1 } }",
        1,
        25,
        "a serial is from 1 to issued",
    ),
    (
        "engine lock { scope 1 { inst { on fault 1 {} on fault 1 {} } } }",
        1,
        49,
        "a handler for it already",
    ),
    ("engine lock { scope 1 { choice { } } }", 1, 34, "a branch"),
    (
        "engine lock { scope 1 { choice { throw 1 } } }",
        1,
        34,
        "a branch ('one-way' or 'request') or '}'",
    ),
    ("engine lock { scope 1 { if $1 less 2 less 3 {} } }", 1, 38, "parentheses"),
    ("engine lock { scope 1 { $1 := $2 decimal less 2 } }", 1, 42, "'sum' or 'difference'"),
    ("engine lock { scope 1 { } \n # comment\n", 3, 1, "'}' is expected, not the end of the text"),
    ("engine lock { scope 1 { ? } }", 1, 25, "a sign of the text form is expected, not '?'"),
    ("engine lock { var x scope 1 { x := x + 1 } }", 1, 38, "'sum' is expected, not '+'"),
    ("engine lock { var x scope 1 { x := x - 1 } }", 1, 38, "'difference', or a number's digits"),
    ("engine lock { var x scope 1 { x := x -1 } }", 1, 38, "';', '|' or '}' is expected, not -1"),
    ("engine lock { var x scope 1 { if x < 3 {} } }", 1, 36, "'less' is expected, not '<'"),
    (
        "engine lock { scope 1 { throw 1 throw 2 } }",
        1,
        33,
        "';', '|' or '}' is expected, not 'throw'",
    ),
    (
        "engine lock { var b = @weir scope 1 { throw 1 }\nengine weir { }",
        2,
        1,
        "';', '|' or '}' is expected, not 'engine'",
    ),
    (
        "engine lock { scope 1 { a: throw 1 } }\nsteps {\n  lock.b\n}",
        3,
        3,
        "a label of engine lock is expected",
    ),
    (
        "engine lock { scope 1 { a: throw 1 } }\nsteps {\n  lock.a\n  lock.a }",
        4,
        3,
        "an enabled process is expected",
    ),
    (
        "engine lock { scope 1 { a: throw 1 | a: throw 2 } }\nsteps { lock.a }",
        2,
        9,
        "one process is expected: 2 enabled",
    ),
    (
        "engine lock { scope 1 { } }\nsteps { lock 3 }",
        2,
        14,
        "'.' and a label, or 'at' and a position, is expected",
    ),
    (
        "engine lock { scope 1 { } }\nsteps { weir at 3 }",
        2,
        9,
        "no engine is called 'weir': there are lock",
    ),
    (
        "engine{} engine{} engine{} engine{} engine{} engine{} engine{} engine{} engine{}",
        1,
        73,
        "at most 8 engines",
    ),
];

#[test]
fn errors_have_their_place() {
    for (text, line, column, said) in WRONG {
        let trouble = assembled(text).err().unwrap_or_else(|| panic!("accepted: {text}"));
        let at = trouble.at.unwrap_or_else(|| panic!("no place: {text}: {trouble:?}"));
        assert_eq!((at.line, at.column), (*line, *column), "{text}: {trouble:?}");
        assert!(trouble.text.contains(said), "{text}: {}", trouble.text);
        assert_eq!(trouble.in_file("a.sock"), format!("a.sock:{line}:{column}: {}", trouble.text));
    }
}

#[test]
fn too_deep_texts_are_refused_with_their_line() {
    for (open, close, line) in [
        ("{ throw 1;\n", "}", 63),
        ("if 1 {\n", "}", 63),
        ("scope 1 {\n", "}", 64),
        ("inst { on fault 1 {\n", "} }", 64),
    ] {
        let (open, close) = (open.repeat(63), close.repeat(63));
        let text = format!("engine {{ scope 1 {{ {open} throw 1 {close} }} }}");
        let trouble = assembled(&text).unwrap_err();
        assert!(trouble.text.contains("depth is at most 64"), "{text}: {trouble:?}");
        assert_eq!(trouble.at.unwrap().line, line, "{text}: {trouble:?}");
    }
}

#[test]
fn deep_texts_are_refused_not_overflowed() {
    for (open, close) in [
        ("{", "}"),
        ("if 1 {", "}"),
        ("scope 1 {", "}"),
        ("inst { on fault 1 {", "} }"),
        ("request 1 ($1) reply ($1) {", "}"),
    ] {
        let text = format!(
            "engine {{ scope 1 {{ {} nil {} }} }}",
            open.repeat(10_000),
            close.repeat(10_000)
        );
        assert!(parser::parse(&text).is_err());
    }
    for part in ["throw 1 ;", "throw 1 |"] {
        assert!(parser::parse(&format!(
            "engine {{ scope 1 {{ {} throw 1 }} }}",
            part.repeat(10_000)
        ))
        .is_err());
    }
    let sum =
        format!("engine {{ scope 1 {{ $1 := {}1{} }} }}", "(".repeat(10_000), ")".repeat(10_000));
    assert!(parser::parse(&sum).is_err());
    let sum = format!("engine {{ scope 1 {{ $1 := 1 {} }} }}", "sum 1 ".repeat(10_000));
    assert!(parser::parse(&sum).is_err());
}

/// Hexadecimal text that is no input.
#[test]
fn words_that_are_no_input() {
    let words = |text: &str| words::read(Form::Hex, text.as_bytes());
    for (text, line, column, said) in [
        ("", 1, 1, "the input is empty"),
        ("# nothing\n", 2, 1, "the input is empty"),
        ("# short\n 0002 0000", 2, 2, "says 2 words, and 1 follow"),
        ("2001 0000", 1, 1, "8,192 are the most"),
        ("0001 0000\n0000*4", 2, 7, "ends inside step 1"),
    ] {
        let trouble = words(text).unwrap_err();
        let at = trouble.at.unwrap();
        assert_eq!((at.line, at.column), (line, column), "{text}: {trouble:?}");
        assert!(trouble.text.contains(said), "{text}: {trouble:?}");
    }
    let trouble = words::read(Form::Hex, b"0001\n00\xff").unwrap_err();
    assert_eq!(trouble.in_file("a.hex"), "a.hex:2:3: a text in UTF-8 is expected");
}

/// What is put into texts to mangle them.
const PIECES: &str =
    "{ } ( ) ; | $31 $ - 0x @ := é \u{feff} 99999999999 nil end: on_fault_1_{} \t \r\n # + engine";

/// A text with one to three signs or pieces taken out, put in or exchanged.
fn mangled(text: &str, random: &mut Random) -> String {
    let pieces: Vec<&str> = PIECES.split(' ').collect();
    let mut text: Vec<char> = text.chars().collect();
    for _ in 0..random.between(1, 3) {
        let (at, last) = (random.below(text.len()), text.len() - 1);
        match random.below(3) {
            0 => drop(text.remove(at)),
            1 => {
                let piece = random.pick(&pieces).unwrap().replace('_', " ");
                text.splice(at..at, piece.chars()).for_each(drop);
            }
            _ => text.swap(at, (at + 1).min(last)),
        }
    }
    text.into_iter().collect()
}

/// Whatever is typed is answered: with words that go both ways, or with a line and a column inside the text.
#[test]
fn mangled_texts_are_answered() {
    let texts = examples(".sock").into_iter();
    let texts: Vec<String> =
        texts.map(|(_, content)| String::from_utf8(content).unwrap()).collect();
    let mut random = Random::new(7);
    let (mut accepted, mut refused) = (0, 0);
    for turn in 0..6000 {
        let text = mangled(&texts[turn % texts.len()], &mut random);
        match assembled(&text) {
            Ok(loaded) => {
                accepted += 1;
                let names = loaded.names;
                round_trip_from(&loaded.start.unwrap(), &loaded.input.steps, &names, &text);
            }
            Err(trouble) => {
                refused += 1;
                let at = trouble.at.unwrap_or_else(|| panic!("no place: {trouble:?}\n{text}"));
                let lines = text.split('\n').count();
                assert!((1..=lines).contains(&at.line) && at.column > 0, "{trouble:?}");
            }
        }
    }
    assert!(accepted > 500 && refused > 500, "{accepted} accepted, {refused} refused");
}
