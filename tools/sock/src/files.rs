//! Files: what one of a name holds, by its ending, and the content of one that is to be written.

use crate::assemble::{assemble, Assembled};
use crate::diagnose::{self, Diagnosis};
use crate::hex::hex;
use crate::library::{translate, word_for, Move};
use crate::names::Names;
use crate::print::print;
use crate::state::{along, State};
use crate::tell::step_by_labels;
use crate::tree::{At, Configuration};
use crate::words::{self, Input, Trouble};

/// How a file holds a configuration and steps.
#[derive(Clone, Copy, Debug, PartialEq, Eq)]
pub enum Form {
    /// docs/TEXT.md.
    Text,
    /// Hexadecimal words.
    Hex,
    /// Two bytes a word.
    Bytes,
}

impl Form {
    pub fn of(name: &str) -> Form {
        match name.rsplit_once('.') {
            Some((_, "sock")) => Form::Text,
            Some((_, "hex" | "HEX")) => Form::Hex,
            _ => Form::Bytes,
        }
    }
}

/// A file with what it holds: names if it is a text, words and steps.
#[derive(Clone, Debug)]
pub struct Loaded {
    pub names: Names,
    /// Without steps if it is a text whose words are not readable.
    pub input: Input,
    /// With the labels of a text; None if the words are not readable.
    pub start: Option<State>,
    /// The tree of a text, with the places in it.
    text: Option<Configuration>,
}

impl Loaded {
    /// Of words, which have no names.
    fn of(input: Input) -> Loaded {
        let start = State::of(&input.words);
        Loaded { names: Names::default(), input, start, text: None }
    }

    /// These words as a planners' start: what the proved call makes of it, and the steps as they are.
    pub fn translated(self) -> Result<Loaded, Trouble> {
        let words = translate(&self.input.words).map_err(|number| {
            Trouble::new(format!("the planners' start is refused: {number} {}", word_for(number)))
        })?;
        Ok(Loaded::of(Input { words, steps: self.input.steps }))
    }

    /// The place in the text of what a diagnosis names; none in words.
    pub fn place(&self, why: &Diagnosis) -> Option<At> {
        self.text.as_ref().and_then(|tree| why.source(tree))
    }

    /// Why there is no start: words that are not readable.
    pub fn refusal(&self) -> Trouble {
        match diagnose::read(&self.input.words) {
            Ok(_) => Trouble::new(diagnose::UNEXPLAINED),
            Err(why) if self.text.is_some() => {
                Trouble { at: self.place(&why), text: format!("unreadable: {}", why.sentence) }
            }
            Err(why) => {
                let said = why.said();
                Trouble::new(format!("unreadable (the proved check answers 1)\n{said}"))
            }
        }
    }
}

/// What a file of this name holds.
pub fn load(name: &str, content: &[u8]) -> Result<Loaded, Trouble> {
    if Form::of(name) != Form::Text {
        return words::read(Form::of(name), content).map(Loaded::of);
    }
    let Assembled { names, configuration, input, start } = assemble(words::utf8(content)?)?;
    let readable = start != 1;
    let start = readable.then(|| State { words: input.words.clone(), tree: configuration.clone() });
    Ok(Loaded { names, input, start, text: Some(configuration) })
}

/// The content of a file of this form.
pub fn content(form: Form, names: &Names, state: &State, steps: &[Move]) -> Vec<u8> {
    match form {
        Form::Text => text(names, state, steps).into_bytes(),
        Form::Hex => hex(names, state, steps).into_bytes(),
        Form::Bytes => words::to_bytes(&state.words, steps),
    }
}

/// The text, whose steps name processes by labels where there are any.
pub fn text(names: &Names, state: &State, steps: &[Move]) -> String {
    let steps = along(state, steps, |before, step| step_by_labels(names, &before.tree, step));
    print(names, &state.tree, &steps)
}
