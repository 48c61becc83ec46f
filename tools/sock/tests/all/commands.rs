//! The command's asm, dis, check, show and moves, from files to what they print and their status; pictures that are well-formed.

use crate::given::{example, prints, says, scratch, sock};
use sock::files::load;
use sock::library;
use std::process::{Command, Stdio};

#[test]
fn errors_with_file_line_and_column() {
    let file = scratch("wrong.sock");
    std::fs::write(&file, "engine lock {\n    scope 1 { throw alarm }\n}\n").unwrap();
    for command in ["asm", "check", "show", "moves", "run", "dis"] {
        let said = says(1, &[command, &file]);
        assert_eq!(said, format!("{file}:2:21: no fault is called 'alarm': none is declared\n"));
    }
    let file = scratch("wrong.hex");
    std::fs::write(&file, "# words\n0001 00zz\n").unwrap();
    assert!(says(1, &["check", &file]).starts_with(&format!("{file}:2:6: '00zz': a word of four")));
}

#[test]
fn assembled_and_back() {
    for name in [
        "worked",
        "counting",
        "lockage",
        "bridge",
        "compensation",
        "dead-waiter",
        "choice",
        "booking",
    ] {
        let (text, hex) = (example(&format!("{name}.sock")), example(&format!("{name}.hex")));
        let (out, bytes, again) = (
            scratch(&format!("{name}.hex")),
            scratch(&format!("{name}.bytes")),
            scratch(&format!("{name}.sock")),
        );
        prints(0, &["asm", "-o", &out, &text], "");
        prints(0, &["asm", "-o", &bytes, &text], "");
        prints(0, &["dis", "--names", &text, "-o", &again, &hex], "");
        let words = |file: &str| load(file, &std::fs::read(file).unwrap()).unwrap().input;
        for file in [&out, &bytes, &again, &text] {
            assert_eq!(words(file), words(&hex), "{file}");
        }
        // What is printed with these names is printed again from its words.
        let named = prints(0, &["dis", "--names", &text, &out], "");
        assert_eq!(named, std::fs::read_to_string(&again).unwrap());
    }
}

/// Hexadecimal text says of each process what it is, and of each step what it does.
#[test]
fn hexadecimal_text_is_explained() {
    let hex = prints(0, &["asm", &example("bridge.sock")], "");
    for line in [
        "    6000 0001                            # prepare: inst\n",
        "      0400 0940 0000 0000 0001           # on fault stuck: red: light := 1\n",
        "0000 0008 0001 0003 0000 # lock.ask -> bridge.work: lock asks bridge: open ($2 = 0)\n",
        "0001 0003 0000 0008 0000 # bridge.work -> lock.ask: bridge replies to lock: open ($3 = 0), serial 1: refused, 3 no move\n",
    ] {
        assert!(hex.contains(line), "{line}: {hex}");
    }
}

/// Where there are no names a sentence says what a number is.
#[test]
fn numbers_are_named() {
    let traced = prints(0, &["run", "--replay", "--trace", &example("bridge.hex")], "");
    for text in [
        "engine 0 asks engine 1: operation 1 ($2 = 0); serial 1 is issued\n",
        "engine 0 installs a handler for fault 2\n",
        "engine 0: $5 := 1; $5 of engine 0: 0 -> 1\n",
    ] {
        assert!(traced.contains(text), "{text}: {traced}");
    }
    assert_eq!(
        prints(0, &["moves", &example("bridge.hex"), "1"], ""),
        "0000 0008 0001 0003 0000 # 0 at 8 -> 1 at 3: engine 0 asks engine 1: operation 1 ($2 = 0)\n"
    );
}

/// What a text prints of itself has its labels, also in its steps.
#[test]
fn a_text_of_a_text() {
    let printed = prints(0, &["dis", &example("bridge.sock")], "");
    assert!(printed.contains("    bridge.work -> lock.ask\n    bridge.jam\n"), "{printed}");
    let steps = scratch("labelled.sock");
    prints(0, &["run", "--replay", "--steps", &steps, &example("bridge.sock")], "");
    let written = std::fs::read_to_string(steps).unwrap();
    assert!(written.contains("    lock.ask -> bridge.work\n    bridge.jam\n"), "{written}");
}

#[test]
fn check_says_where_and_why() {
    assert_eq!(
        prints(0, &["check", &example("worked.hex")], ""),
        "readable 0 accepted\nstart 0 accepted\n"
    );
    let mut words =
        load("a.sock", &std::fs::read(example("bridge.sock")).unwrap()).unwrap().input.words;
    // The first of the seq at position 3 of engine 0 becomes nil, and the words behind it a configuration no more.
    words[2 + 64 + 4] = 0;
    let file = scratch("damaged");
    let written: Vec<u16> = std::iter::once(words.len() as u16).chain(words).collect();
    std::fs::write(&file, library::bytes(&written)).unwrap();
    let output = sock(&["check", &file], "");
    assert_eq!(output.status.code(), Some(1));
    let said = String::from_utf8(output.stdout).unwrap();
    assert!(said.starts_with("readable 1 unreadable\nstart 1 unreadable\n"), "{said}");
    assert!(
        said.contains("where: word 70, engine 0, position 4: 0000, in the seq at position 3\n"),
        "{said}"
    );
    assert!(said.contains("why: no seq begins with nil\n"), "{said}");
    assert!(said.contains("not proved"), "{said}");
    for command in ["show", "moves", "run", "dis"] {
        assert!(says(1, &[command, &file]).contains("why: no seq begins with nil"));
    }
}

/// Of a text the place is said too, and the other commands say it as compilers do.
#[test]
fn an_unreadable_text() {
    let file = scratch("unreadable.sock");
    std::fs::write(&file, "engine lock {\n    scope 1 {\n        cH\n    }\n}\n").unwrap();
    let said = String::from_utf8(sock(&["check", &file], "").stdout).unwrap();
    let sentence = "cH stands only inside the list entries of kinds 10, 12, 17";
    assert_eq!(
        said,
        format!("readable 1 unreadable\nstart 1 unreadable\nat: {file}:3:9\nwhere: word 69, engine 0, position 3: 7800, in the cH at position 3\nwhy: {sentence}\n(where and why are found by a second reader, which is not proved)\n")
    );
    for command in ["asm", "dis", "show", "moves", "run"] {
        assert_eq!(says(1, &[command, &file]), format!("{file}:3:9: unreadable: {sentence}\n"));
    }
}

/// Words of the time when a message had one value are told from others.
#[test]
fn check_of_an_earlier_input() {
    let output = sock(&["check", "../../tests/reference/earlier/examples/worked.hex"], "");
    let said = String::from_utf8(output.stdout).unwrap();
    assert!(
        said.contains("where: word 71, engine 0, position 5: 0000, in the solicit at position 3\n"),
        "{said}"
    );
    assert!(said.contains("bin/handover --rewrite"), "{said}");
}

#[test]
fn check_of_a_configuration_in_the_middle_of_a_run() {
    let file = scratch("middle.sock");
    prints(0, &["run", "--random", "1", "2", "--write", &file, &example("worked.sock")], "");
    let output = sock(&["check", &file], "");
    assert_eq!(output.status.code(), Some(1));
    let said = String::from_utf8(output.stdout).unwrap();
    assert!(said.starts_with("readable 0 accepted\nstart 11 not fresh\nwhere: word 1: 0001, in no process\nwhy: in a start the word issued is 0\n"), "{said}");
    let output = sock(&["asm", &file], "");
    assert_eq!(output.status.code(), Some(0));
    assert!(String::from_utf8(output.stderr).unwrap().contains("no start (11, not fresh)"));
    std::fs::write(&file, "engine {\n}\n").unwrap();
    let said = String::from_utf8(sock(&["check", &file], "").stdout).unwrap();
    let at = format!(
        "at: {file}:2:1\nwhere: word 66, engine 0, position 0: 0000, in the nil at position 0\n"
    );
    assert!(
        said.contains(&at) && said.contains("why: in a start every engine's process is a scope"),
        "{said}"
    );
}

#[test]
fn show_and_what_changed() {
    let shown = prints(0, &["show", &example("bridge.sock")], "");
    assert!(
        shown.contains("    4 >     prepare: inst\n")
            && shown.contains("    3 *   work: request open ($2) reply ($3)\n"),
        "{shown}"
    );
    assert!(
        shown.contains("   11       ask: solicit open") && shown.contains("no open serials"),
        "{shown}"
    );
    assert!(!shown.contains('\x1b'), "colour where there is no terminal");
    let step = prints(0, &["show", &example("bridge.sock"), "2"], "");
    for text in [
        "before step 2\n",
        "step 2: lock.ask -> bridge.work\n",
        "after step 2\n",
        "changed\n      issued: 0 -> 1\n",
        "    - lock: ask: solicit",
    ] {
        assert!(step.contains(text), "{text}: {step}");
    }
    assert!(
        step.contains("1 waiter at position 8 of lock, executor at position 3 of bridge (ends: 1 waiting, 1 working)\n"),
        "{step}"
    );
    let refused = prints(0, &["show", &example("bridge.sock"), "3"], "");
    assert!(refused.contains("refused, 3 no move\n      nothing changes\n"), "{refused}");
}

/// On a terminal there is colour, by `script`, which gives the command one; not with NO_COLOR.
#[test]
fn colour_on_a_terminal_only() {
    for (variable, colour) in [("SOME", true), ("NO_COLOR", false)] {
        let command = format!("{} show {}", env!("CARGO_BIN_EXE_sock"), example("bridge.sock"));
        let output = Command::new("script")
            .args(["-qec", &command, "/dev/null"])
            .env(variable, "1")
            .stdin(Stdio::null())
            .output()
            .unwrap();
        assert_eq!(output.stdout.contains(&0x1b), colour, "{variable}");
    }
}

#[test]
fn pictures_are_well_formed() {
    for (name, step) in [
        ("bridge.sock", "2"),
        ("counting.sock", "0"),
        ("dead-waiter.hex", "1"),
        ("booking.sock", "2"),
    ] {
        let svg = prints(0, &["show", "--svg", &example(name), step], "");
        let rows = prints(0, &["show", "-o", "/dev/stdout", &example(name)], "").lines().count();
        assert!(svg.starts_with("<svg ") && svg.ends_with("</svg>\n") && balanced(&svg), "{svg}");
        assert!(svg.matches("<rect ").count() > 3 && rows > 3, "{svg}");
        let dot = prints(0, &["show", "--dot", &example(name), step], "");
        assert!(dot.starts_with("digraph configuration {\n") && dot.ends_with("}\n"), "{dot}");
        assert_eq!(dot.matches('{').count(), dot.matches('}').count(), "{dot}");
        assert_eq!(
            svg.matches("<rect ").count(),
            dot.matches(" [label=").count(),
            "{name}: a box for each process in both"
        );
    }
    let file = scratch("bridge.svg");
    prints(0, &["show", "--svg", "-o", &file, &example("bridge.sock"), "2"], "");
    assert!(std::fs::read_to_string(file).unwrap().contains("serial 1</text>"));
}

/// Every element that is opened is closed, in order, and no sign stands bare.
fn balanced(svg: &str) -> bool {
    let mut open = Vec::new();
    for piece in svg.split('<').skip(1) {
        let Some((tag, text)) = piece.split_once('>') else { return false };
        let name = tag.trim_start_matches('/').split([' ', '\n', '/']).next().unwrap_or("");
        match (tag.starts_with('/'), tag.ends_with('/')) {
            (true, _) if open.pop() != Some(name) => return false,
            (false, false) => open.push(name),
            _ => {}
        }
        if text.contains('>')
            || text
                .split('&')
                .skip(1)
                .any(|rest| !["lt;", "gt;", "amp;"].iter().any(|name| rest.starts_with(name)))
        {
            return false;
        }
    }
    open.is_empty()
}

#[test]
fn moves_are_steps() {
    let listed = prints(0, &["moves", &example("bridge.sock"), "1"], "");
    assert_eq!(
        listed,
        "0000 0008 0001 0003 0000 # lock.ask -> bridge.work: lock asks bridge: open ($2 = 0)\n"
    );
    assert_eq!(prints(0, &["moves", &example("bridge.sock"), "10"], ""), "# nothing moves\n");
    let cut = prints(0, &["moves", "--most", "1", &example("lockage.sock"), "2"], "");
    assert!(cut.lines().count() <= 2, "{cut}");
    // Put behind the configuration, what is listed is accepted.
    let hex = std::fs::read_to_string(example("choice.hex")).unwrap();
    let (start, _) = hex.split_once("# steps").unwrap();
    let file = scratch("with-moves.hex");
    std::fs::write(
        &file,
        format!("{start}\n{}", prints(0, &["moves", &example("choice.hex")], "")),
    )
    .unwrap();
    assert_eq!(prints(0, &["run", "--replay", &file], ""), "1 step taken; 2 moves are open\n");
}

#[test]
fn what_cannot_be_written_is_said() {
    for arguments in [
        vec!["--help"],
        vec!["asm", "../../examples/worked.sock"],
        vec!["run", "--replay", "../../examples/worked.sock"],
    ] {
        let full = std::fs::OpenOptions::new().write(true).open("/dev/full").unwrap();
        let output = Command::new(env!("CARGO_BIN_EXE_sock"))
            .args(&arguments)
            .stdout(full)
            .stderr(Stdio::piped())
            .output()
            .unwrap();
        assert_eq!(output.status.code(), Some(3), "{arguments:?}");
        assert!(!output.stderr.is_empty());
    }
}
