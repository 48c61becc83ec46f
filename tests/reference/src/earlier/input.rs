//! Inputs of the program handover, rewritten: the word L, the configuration and the positions of
//! every step. A step's positions are those of the configuration that it reads, so the steps are
//! run, by the earlier step.

use super::{read, rewrite, step};
use crate::bytes::{from_words, to_words};
use crate::calls::Numbers;
use crate::limits::STANDARD;

/// The input's bytes rewritten, or why they cannot be. Bytes behind the last whole step stay.
pub fn bytes(input: &[u8]) -> Result<Vec<u8>, String> {
    let (whole, odd) = input.split_at(input.len() & !1);
    let words = to_words(whole).unwrap_or_default();
    let mut rewritten = from_words(&each(&words)?.concat());
    rewritten.extend(odd);
    Ok(rewritten)
}

/// The same for hexadecimal text (`docs/FORMAT.md`). Its lines and comments stay; what a comment
/// says of lengths is not changed.
pub fn text(input: &[u8]) -> Result<Vec<u8>, String> {
    let mut words = Vec::new();
    for item in items(input)?.iter().filter_map(|piece| piece.as_ref().ok()) {
        words.extend(vec![item.word; item.times]);
    }
    let mut rewritten = each(&words)?.into_iter();
    let mut made = Vec::new();
    let mut longer = 0;
    let mut pieces = items(input)?.into_iter().peekable();
    while let Some(piece) = pieces.next() {
        match piece {
            Ok(item) => {
                let text = written(&item, rewritten.by_ref().take(item.times));
                longer += text.len() - item.written.len().min(text.len());
                made.extend(text);
            }
            // Of several blanks those are left out that keep what follows in its column.
            Err(b' ') if longer > 0 && matches!(pieces.peek(), Some(Err(b' '))) => longer -= 1,
            Err(other) => {
                longer = if matches!(other, b'#' | b'\n') { 0 } else { longer };
                made.push(other);
            }
        }
    }
    Ok(made)
}

/// A word of the text, how often it stands there, and how it is written.
struct Item<'a> {
    word: u16,
    times: usize,
    written: &'a [u8],
}

/// The text in pieces: words, and the bytes between them.
fn items(input: &[u8]) -> Result<Vec<Result<Item<'_>, u8>>, String> {
    let mut pieces = Vec::new();
    let (mut comment, mut rest) = (false, input);
    if let Some(behind_mark) = input.strip_prefix(b"\xEF\xBB\xBF") {
        pieces.extend([0xEF, 0xBB, 0xBF].map(Err));
        rest = behind_mark;
    }
    while let Some(first) = rest.first() {
        comment = *first == b'#' || (comment && *first != b'\n');
        let between = |byte: &u8| byte.is_ascii_whitespace() || *byte == b'#';
        if comment || between(first) {
            pieces.push(Err(*first));
            rest = &rest[1..];
            continue;
        }
        let end = rest.iter().position(between).unwrap_or(rest.len());
        pieces.push(Ok(item(&rest[..end])?));
        rest = &rest[end..];
    }
    Ok(pieces)
}

fn item(written: &[u8]) -> Result<Item<'_>, String> {
    let text = String::from_utf8_lossy(written);
    let (word, times) = text.split_once('*').unwrap_or((&text, "1"));
    let wrong = || format!("not a word of four hexadecimal digits: {text}");
    if word.len() != 4 || !word.bytes().all(|digit| digit.is_ascii_hexdigit()) {
        return Err(wrong());
    }
    let word = u16::from_str_radix(word, 16).map_err(|_| wrong())?;
    let times = times.parse().ok().filter(|times| (1..=16_384).contains(times));
    let times = times.ok_or_else(|| format!("not 1 to 16384 times: {text}"))?;
    Ok(Item { word, times, written })
}

/// How an item is written now: as it was, as far as its words stay, or word by word.
fn written(item: &Item, words: impl Iterator<Item = Vec<u16>>) -> Vec<u8> {
    let words: Vec<u16> = words.flatten().collect();
    if words == vec![item.word; item.times] {
        return item.written.to_vec();
    }
    let mut texts = Vec::new();
    let mut rest = &words[..];
    while let Some(word) = rest.first() {
        let same = rest.iter().take_while(|other| *other == word).count();
        match same {
            0..=3 => texts.extend(vec![format!("{word:04x}"); same]),
            _ => texts.push(format!("{word:04x}*{same}")),
        }
        rest = &rest[same..];
    }
    texts.join(" ").into_bytes()
}

/// For each word of an input those that stand for it now.
fn each(words: &[u16]) -> Result<Vec<Vec<u16>>, String> {
    let (length, rest) = words.split_first().ok_or("the input is empty")?;
    let length = usize::from(*length);
    if length > STANDARD.words {
        return Err(format!("the first word says {length} words, and 8,192 are the most"));
    }
    let (configuration, mut rest) = rest
        .split_at_checked(length)
        .ok_or_else(|| format!("the first word says {length} words, and {} follow", rest.len()))?;
    let not_earlier = "no configuration that can be read in the earlier format";
    let mut before = configuration.to_vec();
    let (_, mut rewriting) = read(&before).ok_or(not_earlier)?;
    within(&rewriting.words, "the start")?;
    let mut made = vec![vec![rewriting.words.len() as u16]];
    made.extend(rewriting.places.windows(2).map(|pair| rewriting.words[pair[0]..pair[1]].to_vec()));
    let mut count = 0;
    while let Some((five, behind)) = rest.split_first_chunk::<5>() {
        rest = behind;
        count += 1;
        let numbers = Numbers::new(five[0], five[1], five[2], five[3], five[4]);
        let moved = rewriting.numbers(numbers);
        made.extend(
            [five[0], moved.position, five[2], moved.second_position, five[4]].map(|w| vec![w]),
        );
        let mut output = vec![0; STANDARD.words];
        let answer = step(&before, numbers, &mut output);
        if answer.number == 0 {
            output.truncate(usize::from(answer.length));
            before = output;
            rewriting = rewrite(&before).ok_or(not_earlier)?;
            within(&rewriting.words, &format!("the result of step {count}"))?;
        }
    }
    made.extend(rest.iter().map(|word| vec![*word]));
    Ok(made)
}

fn within(words: &[u16], what: &str) -> Result<(), String> {
    match words.len() <= STANDARD.words {
        true => Ok(()),
        false => {
            Err(format!("rewritten, {what} has {} words, and 8,192 are the most", words.len()))
        }
    }
}
