//! Planners' starts (document 02, e) through the static library: every process of a few nodes in every
//! place, kind 19 wherever an unmarked scope may stand, each refusal and their order, the edges of depth and length, random plans,
//! damaged ones and arbitrary bytes, outputs of every length near the result's, and guard pages around all that is lent.

use library::guard::{Edge, Guarded};
use library::input::Source;
use library::memory::{Memory, Plain};
use library::memory_fault;
use library::planning::Office;
use reference::bytes::from_words;
use reference::generate::plans::{
    all_of, bare, beside, fixed, large, nested, places, plan, scope, start, CH, INST, NIL, PAR,
    SEQ, THROW, ZOMBIE,
};
use reference::generate::random::Random;
use reference::generate::run::{Run, ORIGINS};
use reference::planning::FIXED;

const FILL: u8 = 0x5a;
const ALL: usize = 2 * 8192 + 1;

fn office() -> Office<Plain> {
    Office::new(Plain::default())
}

fn number<M: Memory>(office: &mut Office<M>, words: &[u16]) -> u8 {
    office.translate(&from_words(words), &vec![FILL; ALL]).number()
}

/// An odd length, the whole, every output length near the needed one, and once more what came out.
fn around<M: Memory>(office: &mut Office<M>, words: &[u16]) -> u8 {
    let config = from_words(words);
    assert_eq!(office.translate(&config[1..], &[FILL; 9]).number(), 1);
    let whole = office.translate(&config, &vec![FILL; ALL]);
    if whole.number() == 0 {
        let needed = 2 * whole.length();
        for length in needed - 3..needed + 3 {
            let near = office.translate(&config, &vec![FILL; length]);
            assert_eq!(near.number(), if length < needed { 10 } else { 0 });
        }
        let again = office.translate(whole.result(), &vec![FILL; ALL]);
        assert_eq!(again.result(), whole.result(), "{}: another time", office.source);
    }
    whole.number()
}

#[test]
fn every_process_of_a_few_nodes_in_every_place() {
    let mut office = office();
    office.source.class = "small";
    for nodes in 1..=5 {
        for words in all_of(nodes) {
            number(&mut office, &start(&words));
            number(&mut office, &start(&scope(&words)));
            let nil: &[u16] = &[NIL];
            number(&mut office, &start(&fixed(1, &[(5, &words)], nil, nil, nil)));
            number(&mut office, &start(&fixed(1, &[], &words, nil, nil)));
            number(&mut office, &start(&fixed(1, &[], nil, &words, nil)));
            number(&mut office, &start(&fixed(1, &[], nil, nil, &words)));
        }
    }
    for words in all_of(6) {
        number(&mut office, &start(&words));
    }
    let wanted = [("small", 0, 2000), ("small", 1, 5000), ("small", 11, 500), ("small", 14, 500)];
    office.report("every_process_of_a_few_nodes_in_every_place", &wanted);
}

/// Where an unmarked scope is accepted a fixed scope is, and where its host is used both are 11. A used fixed scope there
/// is none; nor may one begin a branch, or stand beside words that do not belong there.
#[test]
fn wherever_an_unmarked_scope_may_stand() {
    let mut office = office();
    for (name, fresh, before, after) in places() {
        let with = |inside: &[u16]| {
            let mut words = start(&[&before, inside, &after].concat());
            words[1] = u16::from(!fresh);
            words
        };
        let expected = if fresh { 0 } else { 11 };
        assert_eq!(number(&mut office, &with(&scope(&[THROW]))), expected, "{name}");
        for inside in [
            bare(),
            fixed(63, &[(0, &[THROW]), (63, &[NIL])], &[THROW], &[THROW], &[THROW]),
            fixed(0, &[], &bare(), &bare(), &bare()),
            nested(5, &[NIL]),
        ] {
            assert_eq!(around(&mut office, &with(&inside)), expected, "{name}");
            office.others_refuse(&from_words(&with(&inside)));
            assert_eq!(number(&mut office, &with(&inside)[1..]), 1, "{name}");
            let last = inside.len() - 1;
            assert_eq!(number(&mut office, &with(&inside[..last])), 1, "{name}");
            for bit in 0..5 {
                let spoiled = [&[inside[0] | 1 << bit], &inside[1..]].concat();
                assert_eq!(number(&mut office, &with(&spoiled)), 1, "{name}");
            }
        }
    }
    let branch = [&[6 << 11 | 1][..], &bare(), &[NIL]].concat();
    assert_eq!(number(&mut office, &start(&scope(&branch))), 1);
}

#[test]
fn refusals_and_their_order() {
    let mut office = office();
    let nil: &[u16] = &[NIL];
    let zombie = [ZOMBIE, 0, 0, NIL];
    let mut is = |words: &[u16], number: u8| {
        for output in [vec![], vec![FILL; ALL]] {
            let config = from_words(words);
            let answered = office.translate(&config, &output).number();
            let short = number == 0 && output.is_empty();
            assert_eq!(answered, if short { 10 } else { number }, "{words:?}");
        }
    };
    is(&[], 1);
    is(&[1], 1);
    is(&start(&bare()), 0);
    is(&start(nil), 11);
    // keys that are scopes', do not rise, or have bits behind them; kinds above 19
    is(&start(&fixed(1, &[(64, nil)], nil, nil, nil)), 1);
    is(&start(&fixed(1, &[(127, nil)], nil, nil, nil)), 1);
    is(&start(&fixed(1, &[(2, nil), (2, nil)], nil, nil, nil)), 1);
    is(&start(&fixed(1, &[(2, nil), (1, nil)], nil, nil, nil)), 1);
    is(&start(&fixed(1, &[(1, nil), (2, nil)], nil, nil, nil)), 0);
    for kind in 20..32 {
        is(&start(&[&[kind << 11], &bare()[1..]].concat()), 1);
    }
    // 1 before 14: cH in P, and beside cH in T
    is(&start(&fixed(1, &[], nil, nil, &[CH])), 1);
    is(&start(&fixed(1, &[], &[CH], nil, &[CH])), 1);
    is(&start(&fixed(1, &[], &[CH], nil, &[PAR, NIL, THROW])), 1);
    is(&start(&fixed(1, &[], &[CH], &zombie, nil)), 1);
    // 14 before 11 and 8
    for place in 0..3 {
        let mut parts = [vec![NIL], vec![NIL], vec![NIL]];
        for (inner, expected) in [
            (vec![CH], 14),
            (vec![SEQ, CH, THROW], 14),
            (fixed(2, &[], nil, nil, &[CH]), 14),
            (fixed(2, &[], nil, nil, &[INST, 1, 0, CH]), 11),
            (vec![INST, 1, 0, CH], 11),
            (vec![10 << 11, 0, 1, 1, 1, 0, CH], 11),
        ] {
            parts[place] = inner;
            is(&start(&fixed(1, &[(0, &parts[0])], &parts[1], &parts[2], &zombie)), expected);
            let deep = nested(16, &fixed(1, &[(0, &parts[0])], &parts[1], &parts[2], nil));
            is(&start(&deep), if expected == 14 { 14 } else { 8 });
        }
    }
    is(&start(&scope(&[&[INST, 1, 0][..], &fixed(1, &[], &[CH], nil, nil)].concat())), 14);
    is(&start(&scope(&[&[INST, 1, 0][..], &fixed(1, &[], nil, nil, &[CH])].concat())), 0);
    // 11 before 8, 8 before 9, 9 before 10
    is(&start(&nested(16, &zombie)), 11);
    is(&start(&nested(16, &[THROW])), 8);
    let many = vec![bare(); 1000];
    is(&start(&scope(&beside(&many))), 9);
    is(&start(&scope(&[vec![PAR], nested(16, &[THROW]), beside(&many)].concat())), 8);
    is(&start(&scope(&[vec![PAR], zombie.to_vec(), beside(&many)].concat())), 11);
    // the input's own limits
    is(&start(&scope(&beside(&vec![vec![THROW]; 4062]))), 0);
    is(&start(&scope(&beside(&vec![vec![THROW]; 4063]))), 1);
    let deep =
        |times: usize| (0..times).fold(vec![THROW], |inner, _| [vec![PAR, THROW], inner].concat());
    is(&start(&scope(&deep(62))), 0);
    is(&start(&scope(&deep(63))), 1);
}

#[test]
fn the_edges_of_depth_and_length() {
    let mut office = office();
    let plan = start(&nested(15, &[THROW]));
    let whole = office.translate(&from_words(&plan), &[FILL; ALL]);
    assert_eq!((plan.len(), whole.number(), whole.length()), (127, 0, 307));
    assert_eq!(number(&mut office, &start(&nested(16, &[THROW]))), 8);
    for (depth, body, added) in [(1, NIL, 10), (3, NIL, 34), (1, THROW, 12), (4, THROW, 48)] {
        let plan = start(&nested(depth, &[body]));
        let whole = office.translate(&from_words(&plan), &[FILL; ALL]);
        assert_eq!((whole.number(), whole.length()), (0, plan.len() + added));
    }
    for throws in 60..66 {
        let parts = [vec![bare(); 500], vec![vec![THROW]; throws]].concat();
        let length = 8068 + 2 * throws;
        let plan = start(&scope(&beside(&parts)));
        assert_eq!(around(&mut office, &plan), if length > 8192 { 9 } else { 0 });
    }
    // as many words as a plan's translation can have, each more than the last level that is read
    let longest = vec![nested(60, &[THROW]); 33];
    assert_eq!(number(&mut office, &start(&scope(&beside(&longest[..1])))), 8);
    let words = start(&scope(&beside(&longest)));
    assert!(words.len() > 7900 && words.len() <= 8192, "{}", words.len());
    assert_eq!(number(&mut office, &words), 1);
    let longest = vec![nested(56, &[THROW]); 35];
    let words = start(&scope(&beside(&longest)));
    assert!(words.len() > 7900 && words.len() <= 8192, "{}", words.len());
    assert_eq!(number(&mut office, &words), 8);
    // one fixed scope's C, and its T, as long as can be
    for place in 0..3 {
        let mut parts = [vec![NIL], vec![NIL], vec![NIL]];
        parts[place] = beside(&vec![bare(); 1340]);
        let words = start(&fixed(1, &[(0, &parts[0])], &parts[1], &parts[2], &[NIL]));
        assert!(words.len() > 8000 && words.len() <= 8192, "{}", words.len());
        assert_eq!(number(&mut office, &words), 9);
    }
}

fn wander<M: Memory>(office: &mut Office<M>, seeds: std::ops::Range<u64>) {
    for seed in seeds {
        let mut random = Random::new(0x65_0000 + seed);
        office.source = Source { class: "plan", seed, step: 0 };
        let depth = random.between(1, 7);
        let words = match seed % 8 {
            0 => large(&mut random),
            _ => plan(&mut random, depth),
        };
        around(office, &words);
        for step in 0..6 {
            office.source = Source { class: "damaged", seed, step };
            let mut damaged = words.clone();
            let at = random.below(damaged.len().min(8192));
            match random.below(5) {
                0 => damaged[at] = random.word(),
                1 => damaged[at] = FIXED << 11 | damaged[at] & 0x7ff,
                2 => drop(damaged.remove(at)),
                3 => damaged.insert(at, random.word() & 0xf800),
                _ => damaged[at] ^= 1 << random.below(16),
            }
            number(office, &damaged);
        }
    }
}

#[test]
fn random_plans() {
    let mut office = office();
    wander(&mut office, 0..4000);
    let wanted = [
        ("plan", 0, 4000),
        ("plan", 1, 4000),
        ("plan", 8, 50),
        ("plan", 9, 20),
        ("plan", 10, 2000),
        ("plan", 11, 40),
        ("plan", 14, 100),
        ("damaged", 0, 2000),
        ("damaged", 1, 5000),
        ("damaged", 14, 20),
    ];
    office.report("random_plans", &wanted);
}

/// Configurations of every origin: a start comes out as it is, all else is 1 or 11.
#[test]
fn any_configuration() {
    let mut office = office();
    for origin in ORIGINS {
        for seed in 0..100 {
            let run = Run::new(0x65_1000 + seed, *origin);
            office.source = Source { class: "configuration", seed, step: 0 };
            let config = from_words(&run.words);
            let whole = office.translate(&config, &vec![FILL; ALL]);
            if whole.number() == 0 {
                assert_eq!(whole.result(), config);
            } else {
                assert!(matches!(whole.number(), 1 | 11));
            }
        }
    }
    for seed in 0..2000 {
        let mut random = Random::new(0x65_2000 + seed);
        office.source = Source { class: "bytes", seed, step: 0 };
        let length = random.below(400);
        let mut bytes: Vec<u8> = (0..length).map(|_| random.word() as u8).collect();
        for (at, byte) in [0, 1, 0, 0].into_iter().enumerate().take(length) {
            bytes[at] = byte;
        }
        office.translate(&bytes, &vec![FILL; random.below(900)]);
    }
    let wanted = [("configuration", 0, 100), ("configuration", 11, 100), ("bytes", 1, 1000)];
    office.report("any_configuration", &wanted);
}

#[test]
fn guard_pages() {
    for edge in [Edge::Begin, Edge::End] {
        memory_fault::report("guard_pages");
        let mut office = Office::new(Guarded::new(edge));
        wander(&mut office, 5000..5150);
        for words in [
            start(&nested(15, &[THROW])),
            start(&nested(16, &[THROW])),
            start(&scope(&beside(&vec![bare(); 500]))),
            start(&scope(&beside(&vec![bare(); 1000]))),
            vec![0; 8192],
            vec![0; 8193],
        ] {
            around(&mut office, &words);
        }
        for length in 0..8 {
            office.translate(&vec![0; length], &vec![FILL; length]);
        }
    }
}
