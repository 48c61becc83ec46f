//! Document 02, m: keeper against the river on document 01's worked case, and the refusals in their order.

use reference::keeper::{keeper, step, Game, Outcome, Side, SCRATCH};
use reference::process::Part;
use reference::{build, write, Numbers};

/// After the solicit: engine 0 waits for serial 1, engine 1 has its executor with nothing left to run.
fn waiting() -> Vec<u16> {
    let mut words = vec![2, 0];
    let mut values = vec![0; 64];
    values[3] = 1;
    words.extend(&values);
    words.extend([0x5800, 0, 0, 0x5020, 0x0880, 1, 1, 0]);
    words.extend([0; 64]);
    words.extend([0x5800, 0, 0, 0x4020, 0, 1, 1, 0]);
    step(&words, Numbers::new(0, 3, 1, 3, 0)).expect("the solicit is accepted").words
}

fn outcome(words: &[u16], engines: u8, serial: u16, k: u16) -> u8 {
    let answer = keeper(words, engines, serial, k, SCRATCH);
    assert_eq!(answer.number, 0);
    answer.outcome
}

#[test]
fn a_ready_reply_is_brought_home() {
    let words = waiting();
    let outcomes = |engines| (0..=6).map(|k| outcome(&words, engines, 1, k)).collect::<Vec<_>>();
    // The server's engine is the keeper's: the reply is his first move. Bits past n change nothing.
    assert_eq!(outcomes(0b10), [0, 1, 1, 1, 1, 1, 1]);
    assert_eq!(outcomes(0b1111_1110), outcomes(0b10));
    // The client's is: he has no move and passes, and the river has no other move than the reply.
    assert_eq!(outcomes(0b01), [0, 0, 2, 2, 2, 2, 2]);
    let reply = step(&words, Numbers::new(1, 3, 0, 3, 0)).expect("the reply is accepted");
    assert_eq!(Game::new(0b10, 1, 1).wins(&reply, 0, Side::River), Some(true));
    // Once it is delivered its ends are gone: a no, and not 12.
    assert_eq!(outcome(&reply.words, 0b11, 1, 2), 0);
}

#[test]
fn refusals_in_their_order() {
    let words = waiting();
    let number = |words: &[u16], serial, k, scratch| keeper(words, 2, serial, k, scratch);
    let refused = |number| Outcome { number, outcome: 0 };
    assert_eq!(number(&words[..9], 0, 7, 0), refused(1));
    assert_eq!(number(&words, 0, 7, 0), refused(12));
    assert_eq!(number(&words, 2, 7, 0), refused(12));
    assert_eq!(number(&words, 1, 7, 0), refused(23));
    assert_eq!(number(&words, 1, 6, SCRATCH - 1), refused(10));
    assert_eq!(number(&words, 1, 0, SCRATCH), refused(0));
}

/// The executor names another engine than the waiter's, or the waiter another than the executor's, or the waiter stands in a third: never a yes.
#[test]
fn ends_that_do_not_name_each_other() {
    let waits = |server| build::scope(1, build::waiter(1, 2, false, server, 1, build::list([])));
    let works = |client| build::scope(1, build::executor(1, 1, client, 1, build::nil()));
    let three = |roots: [Part; 3]| write::configuration(&build::configuration(1, roots.to_vec()));
    let apart = [
        three([waits(1), works(2), build::nil()]),
        three([waits(2), works(0), build::nil()]),
        three([build::nil(), works(0), waits(1)]),
    ];
    for words in &apart {
        for engines in 0..8 {
            assert!((0..=6).all(|k| outcome(words, engines, 1, k) == 0));
        }
    }
    assert_eq!(outcome(&three([waits(1), works(0), build::nil()]), 0b010, 1, 1), 1);
}

/// With one move a reply needs a nil body, its waiter, and as many variables.
#[test]
fn the_last_move() {
    let play = |waiter, executor| {
        let roots = vec![build::scope(1, waiter), build::scope(1, executor)];
        let words = write::configuration(&build::configuration(1, roots));
        [0b01, 0b10].map(|engines| outcome(&words, engines, 1, 1))
    };
    let waits = |x: Vec<u8>, dead| build::waiter(1, x, dead, 1, 1, build::list([]));
    let works = |y: Vec<u8>, body| build::executor(1, y, 0, 1, body);
    let work = || build::assign(3, build::constant(7));
    assert_eq!(play(waits(vec![2], false), works(vec![1], build::nil())), [0, 1]);
    assert_eq!(play(waits(vec![2], true), works(vec![1], build::nil())), [0, 1]);
    assert_eq!(play(waits(vec![2, 3], false), works(vec![1], build::nil())), [0, 0]);
    assert_eq!(play(waits(vec![2], false), works(vec![1], work())), [0, 0]);
    assert_eq!(play(waits(vec![2], false), build::notice(1, 5, 0, 1)), [0, 0]);
}
