//! Document 02, e: planners' starts and what they become.

use reference::planning::{translated, FIXED};
use reference::{check_start, STANDARD};

const NIL: u16 = 0;
const THROW: u16 = 13 * 2048;
const CH: u16 = 15 * 2048;
const INST: u16 = 12 * 2048;
const SEQ: u16 = 2 * 2048;
const PAR: u16 = 3 * 2048;

fn start(process: &[u16]) -> Vec<u16> {
    let mut words = vec![1, 0];
    words.extend([0; 64]);
    words.extend_from_slice(process);
    words
}

fn fixed(name: u16, faults: &[(u16, &[u16])], t: &[u16], c: &[u16], p: &[u16]) -> Vec<u16> {
    let mut words = vec![FIXED * 2048 + name * 32, faults.len() as u16];
    for (key, process) in faults {
        words.push(key * 512);
        words.extend_from_slice(process);
    }
    words.extend([t, c, p].concat());
    words
}

fn scope(body: &[u16]) -> Vec<u16> {
    [&[11 * 2048, 0, 0], body].concat()
}

fn number(process: &[u16]) -> u8 {
    translated(&STANDARD, &start(process), 8192).err().unwrap_or(0)
}

/// What is accepted passes the start check, and does not change when it is translated again.
fn accepted(process: &[u16]) -> Vec<u16> {
    let words = start(process);
    let result = translated(&STANDARD, &words, 8192).expect("accepted");
    assert_eq!(check_start(&STANDARD, &result), 0);
    assert_eq!(translated(&STANDARD, &result, 8192).as_ref(), Ok(&result));
    result
}

#[test]
fn a_fixed_scope_installs_its_handlers() {
    let plan = fixed(5, &[(3, &[THROW])], &[THROW + 32], &[THROW + 64], &[THROW + 96]);
    let key = (64 + 5) * 512;
    let head = 11 * 2048 + 5 * 32;
    let mut expected = start(&[
        head,
        0,
        0,
        SEQ,
        INST,
        1,
        3 * 512,
        THROW,
        SEQ,
        INST,
        1,
        key,
        THROW + 32,
        SEQ,
        THROW + 96,
        INST,
        1,
        key,
        THROW + 64,
    ]);
    assert_eq!(accepted(&plan), expected);
    let bare = fixed(5, &[], &[NIL], &[NIL], &[NIL]);
    expected = start(&[head, 0, 0, SEQ, INST, 0, SEQ, INST, 1, key, NIL, INST, 1, key, NIL]);
    assert_eq!(accepted(&bare), expected);
}

#[test]
fn each_adds_twelve_words_or_ten() {
    for (depth, body) in [(1, NIL), (3, NIL), (1, THROW), (4, THROW)] {
        let mut plan = vec![body];
        for _ in 0..depth {
            plan = fixed(0, &[], &[NIL], &[NIL], &plan);
        }
        let added = 12 * depth - if body == NIL { 2 } else { 0 };
        assert_eq!(accepted(&plan).len(), start(&plan).len() + added);
    }
}

#[test]
fn fifteen_nested_fit_and_sixteen_do_not() {
    let mut plan = vec![THROW];
    for _ in 0..15 {
        plan = fixed(0, &[], &[NIL], &[NIL], &plan);
    }
    assert_eq!(start(&plan).len(), 127);
    assert_eq!(accepted(&plan).len(), 307);
    assert_eq!(number(&fixed(0, &[], &[NIL], &[NIL], &plan)), 8);
}

#[test]
fn refusals_and_their_order() {
    let plain = fixed(1, &[], &[NIL], &[NIL], &[NIL]);
    assert_eq!(number(&plain), 0);
    // bits behind the name; scope keys, equal keys; cH in the body
    assert_eq!(number(&[&[FIXED * 2048 + 1], &plain[1..]].concat()), 1);
    assert_eq!(number(&fixed(1, &[(64, &[NIL])], &[NIL], &[NIL], &[NIL])), 1);
    assert_eq!(number(&fixed(1, &[(2, &[NIL]), (2, &[NIL])], &[NIL], &[NIL], &[NIL])), 1);
    assert_eq!(number(&fixed(1, &[], &[NIL], &[NIL], &[CH])), 1);
    assert_eq!(number(&scope(&[PAR, NIL, THROW])), 1);
    // 14 in each handler, also through the body of another; not behind a list
    for place in 0..3 {
        let mut parts = [vec![NIL], vec![NIL], vec![NIL]];
        parts[place] = vec![CH];
        assert_eq!(number(&fixed(1, &[(0, &parts[0])], &parts[1], &parts[2], &[NIL])), 14);
        parts[place] = fixed(2, &[], &[NIL], &[NIL], &[CH]);
        assert_eq!(number(&fixed(1, &[(0, &parts[0])], &parts[1], &parts[2], &[NIL])), 14);
        parts[place] = vec![INST, 1, 0, CH];
        assert_eq!(number(&fixed(1, &[(0, &parts[0])], &parts[1], &parts[2], &[NIL])), 0);
    }
    let inner = fixed(2, &[], &[CH], &[NIL], &[NIL]);
    assert_eq!(number(&scope(&[&[INST, 1, 0][..], &inner].concat())), 14);
    let inner = fixed(2, &[], &[NIL], &[NIL], &[CH]);
    assert_eq!(number(&scope(&[&[INST, 1, 0][..], &inner].concat())), 0);
    // 14 before 11: a zombie in the body of an enabled fixed scope
    let zombie = [11 * 2048 + 4, 0, 0, NIL];
    assert_eq!(number(&fixed(1, &[], &[NIL], &[NIL], &zombie)), 11);
    assert_eq!(number(&fixed(1, &[], &[CH], &[NIL], &zombie)), 14);
    assert_eq!(number(&fixed(1, &[], &zombie, &[NIL], &[NIL])), 1);
    assert_eq!(number(&[NIL]), 11);
    let words = start(&plain);
    assert_eq!(translated(&STANDARD, &words, words.len() + 9), Err(10));
}

/// What `docs/FORMAT.md` shows: a fixed scope and what it becomes.
#[test]
fn the_format_documents_example() {
    let document = include_str!("../../../docs/FORMAT.md");
    let section =
        document.split("## ").find(|part| part.starts_with("A planners' start")).expect("there");
    let is_word = |word: &str| word.len() == 4 && u16::from_str_radix(word, 16).is_ok();
    let mut shown = section.lines().filter_map(|line| {
        let words: Vec<&str> = line.strip_prefix("    ")?.split_whitespace().collect();
        let all = words.len() > 3 && words.iter().all(|word| is_word(word));
        all.then(|| {
            words
                .iter()
                .map(|word| u16::from_str_radix(word, 16).expect("hexadecimal"))
                .collect::<Vec<u16>>()
        })
    });
    let (plan, becomes) = (shown.next().expect("a plan"), shown.next().expect("what it becomes"));
    assert_eq!(shown.next(), None);
    assert_eq!(
        plan,
        fixed(5, &[(3, &[THROW + 7 * 32])], &[NIL], &[THROW + 8 * 32], &[THROW + 9 * 32])
    );
    assert_eq!(accepted(&plan), start(&becomes));
}
