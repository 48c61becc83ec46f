//! Runs by the command: typed, at random, traced, written out and resumed.

use crate::given::{example, prints, scratch};
use sock::files::load;

#[test]
fn a_run_by_typed_lines() {
    let (later, steps, hex) = (scratch("later.sock"), scratch("steps.hex"), scratch("later.hex"));
    let typed = format!("1\n1\n1\nb\n?\nh\ns\nm\n7\nnonsense\nw\nw {later}\nw {hex}\nl {steps}\nw /no/such/folder\nq\n");
    let printed = prints(0, &["run", &example("bridge.sock")], &typed);
    assert!(printed.contains("> 1\n   1  lock installs a handler for fault stuck\n"), "{printed}");
    assert!(printed.contains("'nonsense': the number of a move is expected, 1 to 1"), "{printed}");
    assert!(
        printed.contains("a file's name is expected\n") && printed.contains("could not be written"),
        "{printed}"
    );
    // After two steps, the third taken back.
    let start =
        load(&example("bridge.sock"), &std::fs::read(example("bridge.sock")).unwrap()).unwrap();
    let taken = load(&steps, &std::fs::read(&steps).unwrap()).unwrap();
    assert_eq!(taken.input.words, start.input.words);
    assert_eq!(taken.input.steps, start.input.steps[..2]);
    let mut state = start.start.unwrap();
    for step in &taken.input.steps {
        state = state.take(*step).1.unwrap();
    }
    for file in [&later, &hex] {
        assert_eq!(
            load(file, &std::fs::read(file).unwrap()).unwrap().input.words,
            state.words,
            "{file}"
        );
    }
    // Resumed: names and labels are there, and the rest of the run.
    let resumed = prints(0, &["run", &later], "1\n1\n1\n1\n1\n1\nb\nb\nb\nb\nb\nb\nb\n");
    assert!(
        resumed.contains("   1  bridge.jam                       bridge throws fault stuck\n"),
        "{resumed}"
    );
    assert!(
        resumed.contains("lock: light := 1; lock.light: 0 -> 1")
            && resumed.contains("this is the start"),
        "{resumed}"
    );
}

#[test]
fn random_runs_are_the_same_by_seed_and_can_be_resumed() {
    let run = |seed: &str, count: &str, file: &str, from: &str| {
        prints(0, &["run", "--trace", "--random", seed, count, "--write", file, from], "")
    };
    let (one, two) = (scratch("one.sock"), scratch("two.sock"));
    let from = example("counting.sock");
    assert_eq!(run("5", "9", &one, &from), run("5", "9", &two, &from));
    assert_eq!(std::fs::read(&one).unwrap(), std::fs::read(&two).unwrap());
    let whole = run("5", "100", &two, &from);
    assert!(whole.ends_with("16 steps taken; nothing moves any more\n"), "{whole}");
    let rest = run("5", "100", &two, &one);
    assert!(rest.ends_with("7 steps taken; nothing moves any more\n"), "{rest}");
    let steps = scratch("random.hex");
    prints(0, &["run", "--random", "3", "50", "--steps", &steps, &example("lockage.hex")], "");
    let again = prints(0, &["run", "--replay", "--trace", &steps], "");
    assert!(again.lines().all(|line| !line.contains("refused")), "{again}");
}

#[test]
fn a_trace_has_values_and_names() {
    let traced = prints(0, &["run", "--replay", "--trace", &example("booking.sock")], "");
    for text in [
        "   -  lock asks office: book (litres = 90000, pound = 3, class = 2, lockage = 11): refused, 5 no fit\n",
        "serial 1 is issued; office.litres: 0 -> 90000; office.pound: 0 -> 3",
        "office replies to lock: book (number = 12, hour = 9), serial 1; lock.number: 0 -> 12; lock.hour: 0 -> 9\n",
    ] {
        assert!(traced.contains(text), "{text}: {traced}");
    }
    let counted = prints(0, &["run", "--replay", "--trace", &example("counting.sock")], "");
    assert!(
        counted.contains("while level less 0; true: once more\n")
            && counted.contains("while level less 0; false: it ends\n"),
        "{counted}"
    );
    assert!(
        counted.contains("if level less 1; true\n") && counted.contains("weir.light: 0 -> 1\n"),
        "{counted}"
    );
}
