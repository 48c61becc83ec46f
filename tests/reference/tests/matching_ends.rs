//! Demand 3 over generated lists of steps, in one cabinet and in two that take turns: waiting and
//! working ends match, at every point, and each cabinet that reads the configuration can deliver what
//! is finished.

mod common;

use common::*;
use reference::configuration::Configuration;
use reference::generate::random::Random;
use reference::generate::run::{Origin, Run};
use reference::generate::steps::{stands, Stand};
use reference::journal::{journal_enough, step_journal};
use reference::process::Process;
use reference::{
    check_readable, check_start, ends, step, Answer, Ends, Limits, Numbers, SMALL, STANDARD,
};

/// What a list of steps has done so far.
#[derive(Default)]
struct Account {
    solicits: u16,
    last_serial: u16,
    /// Deliveries of serial s at index s - 1.
    deliveries: Vec<u16>,
}

/// What the first engine and position name in what a step read.
fn acting(before: &Configuration, numbers: Numbers) -> Stand {
    let named = |stand: &Stand| {
        stand.engine == usize::from(numbers.engine)
            && stand.position == usize::from(numbers.position)
    };
    stands(before).into_iter().find(named).expect("an accepted step names a process")
}

impl Account {
    fn enter(&mut self, before: &Configuration, numbers: Numbers, answer: &Answer) {
        if answer.number != 0 {
            return;
        }
        let (serial, fault) = match &*acting(before, numbers).process {
            Process::Solicit { .. } => {
                self.solicits += 1;
                self.last_serial = answer.serial;
                self.deliveries.push(0);
                (self.solicits, 0)
            }
            Process::Executor(executor, _) => (self.deliver(executor.serial), 0),
            Process::Notice(notice) => (self.deliver(notice.serial), 1),
            _ => (0, 0),
        };
        assert_eq!((answer.serial, answer.fault), (serial, fault));
    }

    fn deliver(&mut self, serial: u16) -> u16 {
        self.deliveries[usize::from(serial) - 1] += 1;
        serial
    }
}

/// A working end: engine, position, operation, client, and whether nothing is left to run.
fn working(stand: &Stand, serial: u16) -> Option<(u8, u8, bool)> {
    match &*stand.process {
        Process::Executor(e, body) if e.serial == serial => {
            Some((e.operation, e.client, body.is_nil()))
        }
        Process::Notice(n) if n.serial == serial => Some((n.operation, n.client, true)),
        _ => None,
    }
}

/// Every serial has one end of each sort until it is delivered, and none after.
fn matched(words: &[u16], account: &Account) {
    let configuration = common::read(words);
    assert_eq!(configuration.issued, account.solicits);
    assert_eq!(configuration.issued, account.last_serial);
    let all = stands(&configuration);
    for serial in 1..=account.solicits {
        let delivered = account.deliveries[usize::from(serial) - 1];
        assert!(delivered <= 1);
        let left = 1 - delivered;
        let counted = Ends { number: 0, waiters: left, workers: left };
        assert_eq!(ends(&STANDARD, words, serial), counted);
        if left == 1 {
            paired(words, &all, serial);
        }
    }
}

/// The two ends of an open serial fit each other and, once nothing is left to run, can be delivered
/// by each cabinet that reads them, with an output no longer than the configuration, and with a
/// journal where that is enough.
fn paired(words: &[u16], all: &[Stand], serial: u16) {
    let waits = |s: &&Stand| matches!(&*s.process, Process::Waiter(w) if w.serial == serial);
    let waiting = all.iter().find(waits).expect("a waiting end");
    let Process::Waiter(waiter) = &*waiting.process else { unreachable!() };
    let mut works = all.iter().filter_map(|stand| Some((stand, working(stand, serial)?)));
    let (stand, (operation, client, ready)) = works.next().expect("a working end");
    assert_eq!(operation, waiter.operation);
    assert_eq!(usize::from(client), waiting.engine);
    assert_eq!(usize::from(waiter.server), stand.engine);
    if let Process::Executor(executor, _) = &*stand.process {
        assert_eq!(executor.y.count(), waiter.x.count(), "an open request fails over its counts");
    }
    if ready {
        let numbers = Numbers::new(
            stand.engine as u16,
            stand.position as u16,
            waiting.engine as u16,
            waiting.position as u16,
            0,
        );
        for limits in [STANDARD, SMALL] {
            if check_readable(&limits, words) != 0 {
                continue;
            }
            let mut output = vec![FILL; words.len()];
            let answer = step(&limits, words, numbers, &mut output);
            assert_eq!((answer.number, answer.serial), (0, serial));
            let (mut again, mut journal) = (output.clone(), vec![FILL; journal_enough(&limits)]);
            assert_eq!(step_journal(&limits, words, numbers, &mut again, &mut journal), answer);
            assert_eq!(again, output);
        }
    }
}

/// Runs whose steps are each taken at limits that are chosen by turn.
fn runs(seeds: u64, mut turn: impl FnMut() -> Limits) -> [u32; 2] {
    let mut solicits = 0u32;
    let mut deliveries = 0u32;
    for seed in 0..seeds {
        let origin = if seed % 50 == 0 { Origin::Growing } else { Origin::Fresh };
        let mut run = Run::new(0xD3_0000 + seed, origin);
        assert_eq!(check_start(&STANDARD, &run.words), 0);
        let mut account = Account::default();
        for _ in 0..60 {
            let before = run.configuration().expect("readable");
            let Some(call) = run.call() else { break };
            let mut output = vec![FILL; call.room];
            let answer = step(&turn(), &run.words, call.numbers, &mut output);
            account.enter(&before, call.numbers, &answer);
            run.take(&answer, &output);
            matched(&run.words, &account);
        }
        solicits += u32::from(account.solicits);
        deliveries += account.deliveries.iter().map(|count| u32::from(*count)).sum::<u32>();
    }
    println!("{solicits} solicits, {deliveries} deliveries");
    [solicits, deliveries]
}

#[test]
fn ends_match_after_every_step() {
    let [solicits, deliveries] = runs(1200, || STANDARD);
    assert!(solicits > 500 && deliveries > 300, "{solicits} {deliveries}");
}

#[test]
fn ends_match_where_two_cabinets_take_turns() {
    let mut random = Random::new(0);
    let [solicits, deliveries] = runs(600, || [STANDARD, SMALL][random.below(2)]);
    assert!(solicits > 250 && deliveries > 150, "{solicits} {deliveries}");
}
