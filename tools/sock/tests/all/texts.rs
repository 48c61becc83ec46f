//! What the tests of the text form share: examples, a text as the command takes it, and the way from words to text and back.

use sock::assemble::assemble;
use sock::files::{content, load, text, Form, Loaded};
use sock::library::{self, Move};
use sock::names::Names;
use sock::state::State;
use sock::tree::Configuration;
use sock::words::{self, Input, Trouble};

pub fn examples(ending: &str) -> Vec<(String, Vec<u8>)> {
    let mut found = Vec::new();
    for entry in std::fs::read_dir("../../examples").unwrap() {
        let path = entry.unwrap().path();
        let name = path.to_string_lossy().to_string();
        if name.ends_with(ending) {
            found.push((name, std::fs::read(path).unwrap()));
        }
    }
    found.sort();
    found
}

/// A text as the command takes it: loaded, and refused if its words are not readable.
pub fn assembled(text: &str) -> Result<Loaded, Trouble> {
    let loaded = load("a.sock", text.as_bytes())?;
    if loaded.start.is_none() {
        return Err(loaded.refusal());
    }
    Ok(loaded)
}

/// Words to text to words, and the text to words to the same text.
pub fn round_trip(input: &Input, names: &Names, what: &str) -> Configuration {
    let state = State::of(&input.words).unwrap_or_else(|| panic!("{what}: unreadable"));
    round_trip_from(&state, &input.steps, names, what);
    state.tree
}

/// The same of a configuration that may have labels.
pub fn round_trip_from(state: &State, steps: &[Move], names: &Names, what: &str) {
    let input = Input { words: state.words.clone(), steps: steps.to_vec() };
    assert_eq!(state.tree.words(), input.words, "{what}: tree and words");
    for (engine, start) in state.tree.starts().into_iter().enumerate() {
        let length = state.tree.engines[engine].process.words().len();
        assert_eq!(library::process(&input.words, engine as u16), start..start + length, "{what}");
    }
    let written = text(names, state, steps);
    let back = assembled(&written);
    let back = back.unwrap_or_else(|trouble| panic!("{what}: {trouble:?}\n{written}"));
    assert_eq!(back.input, input, "{what}\n{written}");
    assert_eq!(text(&back.names, &back.start.unwrap(), &back.input.steps), written, "{what}");
    let start = assemble(&written).unwrap().start;
    assert_eq!(start, library::check_start(&input.words), "{what}");
    for form in [Form::Hex, Form::Bytes] {
        let other = content(form, names, state, steps);
        assert_eq!(words::read(form, &other).as_ref(), Ok(&input), "{what}");
    }
}
