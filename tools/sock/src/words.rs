//! Files of words, as the program handover takes them (docs/FORMAT.md): word L, L words of a configuration, then steps of five words;
//! bytes, or hexadecimal text if the name ends in `.hex`. Reading says line and column of what is wrong.

use crate::files::Form;
use crate::library::{bytes, from_bytes, Move, WORDS};
use crate::tree::At;

/// What is wrong with an input: where, in a text, and what was expected.
#[derive(Clone, Debug, PartialEq, Eq)]
pub struct Trouble {
    pub at: Option<At>,
    pub text: String,
}

impl Trouble {
    pub fn new(text: impl Into<String>) -> Trouble {
        Trouble { at: None, text: text.into() }
    }

    pub fn at(at: At, text: impl Into<String>) -> Trouble {
        Trouble { at: Some(at), text: text.into() }
    }

    /// With the file's name in front, as compilers write it.
    pub fn in_file(&self, file: &str) -> String {
        match self.at {
            Some(at) => format!("{}: {}", at.in_file(file), self.text),
            None => format!("{file}: {}", self.text),
        }
    }
}

/// A configuration's words and the steps behind them.
#[derive(Clone, Debug, PartialEq, Eq, Default)]
pub struct Input {
    pub words: Vec<u16>,
    pub steps: Vec<Move>,
}

/// The input in a file of words.
pub fn read(form: Form, content: &[u8]) -> Result<Input, Trouble> {
    if form == Form::Hex {
        let (words, first, end) = hex_words(utf8(content)?)?;
        return split(&words).map_err(|wrong| match wrong {
            Wrong::Length(text) => Trouble::at(first, text),
            Wrong::End(text) => Trouble::at(end, text),
        });
    }
    if content.len() % 2 == 1 {
        return Err(Trouble::new(format!(
            "{} bytes, and a word is two: an even count is expected",
            content.len()
        )));
    }
    split(&from_bytes(content)).map_err(|wrong| match wrong {
        Wrong::Length(text) | Wrong::End(text) => Trouble::new(text),
    })
}

/// A text in UTF-8.
pub fn utf8(content: &[u8]) -> Result<&str, Trouble> {
    std::str::from_utf8(content).map_err(|wrong| {
        let before = String::from_utf8_lossy(&content[..wrong.valid_up_to()]);
        Trouble::at(At::behind(&before), "a text in UTF-8 is expected")
    })
}

/// Words that are no input: the first one says something else, or they end too early.
enum Wrong {
    Length(String),
    End(String),
}

fn split(all: &[u16]) -> Result<Input, Wrong> {
    let Some((length, rest)) = all.split_first() else {
        let expected = "word L, the count of the configuration's words, is expected";
        return Err(Wrong::End(format!("the input is empty: {expected}")));
    };
    let (length, follow) = (usize::from(*length), rest.len());
    let says = format!("the first word says {length} words");
    if length > WORDS {
        return Err(Wrong::Length(format!("{says}, and 8,192 are the most")));
    }
    if follow < length {
        return Err(Wrong::Length(format!("{says}, and {follow} follow")));
    }
    let (words, steps) = rest.split_at(length);
    let steps: Vec<Move> = steps.chunks(5).map_while(Move::of).collect();
    if length + 5 * steps.len() != follow {
        let number = steps.len() + 1;
        return Err(Wrong::End(format!(
            "the input ends inside step {number}: five words are expected"
        )));
    }
    Ok(Input { words: words.to_vec(), steps })
}

/// The words of a hexadecimal text, where the first stands, and where the text ends.
fn hex_words(text: &str) -> Result<(Vec<u16>, At, At), Trouble> {
    let mut words = Vec::new();
    let mut first = None;
    for (index, line) in text.strip_prefix('\u{feff}').unwrap_or(text).split('\n').enumerate() {
        let line = line.strip_suffix('\r').unwrap_or(line);
        if let Some(before) = line.find('\r') {
            let at = At { line: index + 1, column: before + 1 };
            return Err(Trouble::at(at, "LF or CR LF is expected at a line's end, not CR alone"));
        }
        let code = line.split('#').next().unwrap_or("");
        let mut rest = code;
        while let Some(skip) = rest.find(|c| !matches!(c, ' ' | '\t')) {
            let column = code[..code.len() - rest.len() + skip].chars().count() + 1;
            let end = rest[skip..].find([' ', '\t']).map_or(rest.len(), |length| skip + length);
            let at = At { line: index + 1, column };
            let (word, count) = hex_word(&rest[skip..end], at)?;
            if words.len() + count > 1 << 20 {
                return Err(Trouble::at(at, "more words than any run has"));
            }
            words.extend(std::iter::repeat_n(word, count));
            first = first.or(Some(at));
            rest = &rest[end..];
        }
    }
    let end = At::behind(text);
    Ok((words, first.unwrap_or(end), end))
}

/// `0000`, or `0000*64`.
fn hex_word(token: &str, at: At) -> Result<(u16, usize), Trouble> {
    let wrong = || {
        Trouble::at(at, format!("'{token}': a word of four hexadecimal digits is expected, or a word, * and a count"))
    };
    let (digits, count) = token.split_once('*').unwrap_or((token, "1"));
    if digits.len() != 4 || !digits.bytes().all(|digit| digit.is_ascii_hexdigit()) {
        return Err(wrong());
    }
    if count.is_empty() || !count.bytes().all(|digit| digit.is_ascii_digit()) {
        return Err(wrong());
    }
    let word = u16::from_str_radix(digits, 16).map_err(|_| wrong())?;
    let count: usize = count.parse().map_err(|_| wrong())?;
    if count == 0 || count > 16_384 {
        return Err(wrong());
    }
    Ok((word, count))
}

/// The bytes of an input: a configuration's words, and steps.
pub fn to_bytes(words: &[u16], steps: &[Move]) -> Vec<u8> {
    let mut all = vec![words.len() as u16];
    all.extend(words);
    all.extend(steps.iter().flat_map(|step| step.words()));
    bytes(&all)
}
