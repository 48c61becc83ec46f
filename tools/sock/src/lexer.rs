//! Tokens of the text form, each with line and column. Blanks, line ends and comments (from # to the line's end) separate them.

use crate::tree::At;
use crate::words::Trouble;

#[derive(Clone, Debug, PartialEq, Eq)]
pub enum Token {
    /// A word; letters, digits, _ and, between them, -.
    Word(String),
    /// A constant of 32 bits: decimal, with sign or not, or hexadecimal behind 0x.
    Number(u32),
    /// A variable by its number: $7.
    Variable(u8),
    /// One of the signs below.
    Sign(&'static str),
    End,
}

/// Longer ones first where one begins another.
const SIGNS: [&str; 13] = [":=", "->", "{", "}", "(", ")", ",", ";", "|", ":", "=", ".", "@"];

/// What is expected in the place of signs that other languages have.
const INSTEAD: [(&str, &str); 9] = [
    ("+", "'sum'"),
    ("-", "'difference', or a number's digits behind the sign,"),
    ("<", "'less'"),
    (">", "'less' with the sides changed"),
    ("/", "'#' before a comment"),
    ("!", "'equal' and a test against 0"),
    ("&", "'|' between processes"),
    ("[", "'{'"),
    ("]", "'}'"),
];

impl Token {
    /// How a person would call it.
    pub fn said(&self) -> String {
        match self {
            Token::Word(word) => format!("'{word}'"),
            Token::Number(number) => (*number as i32).to_string(),
            Token::Variable(variable) => format!("${variable}"),
            Token::Sign(sign) => format!("'{sign}'"),
            Token::End => "the end of the text".to_string(),
        }
    }
}

/// All tokens with where they begin; the last is `End`.
pub fn tokens(text: &str) -> Result<Vec<(Token, At)>, Trouble> {
    let mut out = Vec::new();
    let mut last = At { line: 1, column: 1 };
    for (index, line) in text.strip_prefix('\u{feff}').unwrap_or(text).split('\n').enumerate() {
        let line = line.strip_suffix('\r').unwrap_or(line);
        let mut rest = line;
        loop {
            rest = rest.trim_start_matches([' ', '\t']);
            let column = line[..line.len() - rest.len()].chars().count() + 1;
            let at = At { line: index + 1, column };
            last = at;
            if rest.is_empty() || rest.starts_with('#') {
                break;
            }
            let (token, length) = token(rest, at)?;
            out.push((token, at));
            rest = &rest[length..];
        }
    }
    out.push((Token::End, last));
    Ok(out)
}

/// The token that the text begins with, and its length in bytes.
fn token(text: &str, at: At) -> Result<(Token, usize), Trouble> {
    let length = word_length(text);
    let word = &text[..length];
    if word.starts_with(|c: char| c.is_ascii_alphabetic() || c == '_') {
        return Ok((Token::Word(word.to_string()), length));
    }
    if length > 0 {
        let value = number(word);
        let expected =
            "a number from 0 to 4294967295 is expected, or 0x and up to eight hexadecimal digits";
        let value = value.ok_or_else(|| Trouble::at(at, format!("'{word}': {expected}")))?;
        return Ok((Token::Number(value), length));
    }
    if let Some(digits) = text.strip_prefix('$') {
        return variable(digits, at);
    }
    for sign in SIGNS {
        if text.starts_with(sign) {
            return Ok((Token::Sign(sign), sign.len()));
        }
    }
    match text.strip_prefix('-') {
        Some(digits) if word_length(digits) > 0 => negative(digits, at),
        _ => Err(foreign(text, at)),
    }
}

/// A sign that is none of the text form.
fn foreign(text: &str, at: At) -> Trouble {
    let first: String = text.chars().take(1).collect();
    let instead = INSTEAD.iter().find(|(sign, _)| text.starts_with(sign));
    let expected = instead.map_or("a word, a number or a sign of the text form", |(_, what)| what);
    Trouble::at(at, format!("{expected} is expected, not '{first}'"))
}

/// A minus stands inside a word only where a letter, digit or _ follows; there is no operator of that sign.
fn word_length(text: &str) -> usize {
    let bytes = text.as_bytes();
    let letter =
        |index: usize| bytes.get(index).is_some_and(|c| c.is_ascii_alphanumeric() || *c == b'_');
    let mut length = 0;
    while letter(length) || length > 0 && bytes.get(length) == Some(&b'-') && letter(length + 1) {
        length += 1;
    }
    length
}

fn number(word: &str) -> Option<u32> {
    match word.strip_prefix("0x") {
        Some(digits) if digits.bytes().all(|digit| digit.is_ascii_hexdigit()) => {
            u32::from_str_radix(digits, 16).ok()
        }
        Some(_) => None,
        None => word.parse().ok(),
    }
}

fn variable(digits: &str, at: At) -> Result<(Token, usize), Trouble> {
    let length = word_length(digits);
    match digits[..length].parse::<u8>() {
        Ok(variable) if variable < 32 => Ok((Token::Variable(variable), 1 + length)),
        _ => Err(Trouble::at(
            at,
            format!(
                "'${}': a variable's number from 0 to 31 is expected behind $",
                &digits[..length]
            ),
        )),
    }
}

/// -1 is 0xffffffff: two's complement of 32 bits.
fn negative(digits: &str, at: At) -> Result<(Token, usize), Trouble> {
    let length = word_length(digits);
    match digits[..length].parse::<u32>() {
        Ok(value) if value <= 1 << 31 => Ok((Token::Number(value.wrapping_neg()), 1 + length)),
        _ => Err(Trouble::at(
            at,
            format!("'-{}': a number from -2147483648 on is expected behind -", &digits[..length]),
        )),
    }
}
