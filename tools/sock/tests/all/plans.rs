//! Planners' starts: by each command that takes `--plan`, what is said where one is refused or not asked for, and the call itself, held to the
//! second implementation.

use crate::given::{example, prints, says, scratch, sock};
use crate::texts::round_trip;
use reference::generate::plans::{
    bare, beside, fixed, large, nested, plan, scope, start, CH, NIL, THROW, ZOMBIE,
};
use reference::generate::random::Random;
use reference::limits::STANDARD;
use reference::planning::translated;
use sock::library::{check_start, translate, WORDS};
use sock::names::Names;
use sock::words::{to_bytes, Input};

/// The commands that take a configuration of words.
const COMMANDS: [&str; 5] = ["dis", "check", "show", "moves", "run"];

fn written(name: &str, words: &[u16]) -> String {
    let file = scratch(name);
    std::fs::write(&file, to_bytes(words, &[])).unwrap();
    file
}

/// Each command says of a plan what it says of the text of what this becomes, at the start and after steps.
#[test]
fn by_each_command() {
    let plan = example("plan.hex");
    let text = scratch("plan.sock");
    prints(0, &["dis", "--plan", "-o", &text, &plan], "");
    for options in [
        &["dis"][..],
        &["check"],
        &["show"],
        &["show", "--svg"],
        &["moves", "--most", "3"],
        &["run"],
        &["run", "--replay", "--trace"],
        &["run", "--random", "1", "20"],
    ] {
        let said = prints(0, &[options, &["--plan", &plan]].concat(), "1\nh\nq\n");
        assert_eq!(said, prints(0, &[options, &[&text]].concat(), "1\nh\nq\n"), "{options:?}");
    }
    for (command, has) in [
        ("show", "engine 0: scope 1 runs its handler for fault 1\n"),
        ("moves", "0000 0003 0001 0003 0000 # "),
    ] {
        let said = prints(0, &[command, "--plan", &plan, "7"], "");
        assert_eq!(said, prints(0, &[command, &text, "7"], ""));
        assert!(said.contains(has), "{said}");
    }
    assert_eq!(
        prints(0, &["check", "--plan", &plan], ""),
        "readable 0 accepted\nstart 0 accepted\n"
    );
    assert_eq!(
        prints(0, &["run", "--plan", "--replay", &plan], ""),
        "10 steps taken; nothing moves any more\n"
    );
}

#[test]
fn a_start_without_fixed_scopes_stays() {
    let worked = example("worked.hex");
    for command in COMMANDS {
        assert_eq!(
            prints(0, &[command, "--plan", &worked], "q\n"),
            prints(0, &[command, &worked], "q\n")
        );
    }
}

/// Every number that the call has but 10, which needs less room than the command lends; each command says it, and prints nothing.
#[test]
fn refused() {
    let long = beside(&vec![vec![THROW]; 4061]);
    for (said, process) in [
        ("1 unreadable", vec![bare()[0] | 1, NIL, NIL, NIL, NIL]),
        ("14 cH in a fixed scope", fixed(1, &[], &[CH], &[NIL], &[NIL])),
        ("11 not fresh", fixed(1, &[], &[NIL], &[NIL], &[ZOMBIE, 0, 0, NIL])),
        ("8 deep", nested(16, &[THROW])),
        ("9 long", fixed(1, &[], &[NIL], &[NIL], &long)),
    ] {
        let file = written(&format!("refused-{}", &said[..2].trim_end()), &start(&process));
        for command in COMMANDS {
            assert_eq!(
                says(1, &[command, "--plan", &file]),
                format!("{file}: the planners' start is refused: {said}\n")
            );
        }
    }
    let earlier = "../../tests/reference/earlier/examples/worked.hex";
    assert!(says(1, &["moves", "--plan", earlier]).ends_with("is refused: 1 unreadable\n"));
}

/// Texts have no fixed scopes, so neither have they the option.
#[test]
fn texts_are_none() {
    let text = example("worked.sock");
    for command in COMMANDS {
        assert!(says(2, &[command, "--plan", &text]).contains("--plan is for words"));
    }
    assert!(says(2, &["asm", "--plan", &text]).contains("no such option: --plan"));
}

/// Without the option it is said what kind 19 is; of other kinds there are not it is not.
#[test]
fn the_option_is_named_where_kind_19_stands() {
    let check = |file: &str| String::from_utf8(sock(&["check", file], "").stdout).unwrap();
    let said = check(&example("plan.hex"));
    assert!(said.starts_with("readable 1 unreadable\nstart 1 unreadable\nwhere: word 66, engine 0: 9820, where the engine's process begins\nwhy: the first 5 bits of a head are a kind, 0 to 18\n(kind 19 is the planners': with --plan their start is translated first)\n"), "{said}");
    for command in ["dis", "show", "moves", "run"] {
        assert!(says(1, &[command, &example("plan.hex")]).contains("with --plan"), "{command}");
    }
    let inside = check(&written("inside", &start(&scope(&bare()))));
    assert!(inside.contains("in the scope at position 0\n") && inside.contains("with --plan"));
    for kind in [20, 31] {
        let other = check(&written("other-kind", &start(&[kind << 11])));
        assert!(other.contains("a kind, 0 to 18") && !other.contains("--plan"), "{other}");
    }
}

/// What the call answers here is what the second implementation answers, and what it gives is a start with a text.
#[test]
fn as_the_second_implementation() {
    let mut random = Random::new(19);
    let mut accepted = 0;
    for turn in 0..500 {
        let words = match turn % 10 {
            0 => large(&mut random),
            _ => plan(&mut random, 4),
        };
        let answer = translate(&words);
        assert_eq!(answer, translated(&STANDARD, &words, WORDS), "turn {turn}");
        if let Ok(words) = answer {
            assert_eq!(check_start(&words), 0, "turn {turn}");
            round_trip(&Input { words, steps: Vec::new() }, &Names::default(), "a plan");
            accepted += 1;
        }
    }
    assert!((100..500).contains(&accepted), "{accepted}");
    assert_eq!(translate(&[]), Err(1));
}
