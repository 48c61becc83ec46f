//! Random fresh starts: engines with conversations between them, inside scopes with handlers
//! and beside throws, and arbitrary code around.

use crate::build;
use crate::configuration::{Configuration, Engine};
use crate::generate::code::{values, Alphabet, Maker, ENGINE_NUMBERS};
use crate::generate::random::Random;
use crate::process::{Key, List, Part};

/// Two engines that are to meet over an operation.
#[derive(Clone, Copy, Debug)]
struct Conversation {
    operation: u8,
    client: u8,
    server: u8,
    /// With a reply, or one way only.
    replied: bool,
}

/// A fresh configuration of one to eight engines, mostly two to four.
pub fn fresh(random: &mut Random) -> Configuration {
    let count = engine_count(random);
    let alphabet = Alphabet::random(random, count);
    let conversations = conversations(random, &alphabet);
    let mut engines = Vec::new();
    for number in 0..count {
        let size = [6, 15, 40, 120][random.weighted(&[6, 6, 3, 1])];
        let maker = Maker { random, alphabet: &alphabet, left: size };
        let process = Planner { maker }.root(number, &conversations);
        engines.push(Engine { values: values(random), process });
    }
    Configuration { issued: 0, engines }
}

pub fn engine_count(random: &mut Random) -> u8 {
    [2, 3, 4, 1, 5, 8][random.weighted(&[40, 25, 12, 3, 3, 3])]
}

fn conversations(random: &mut Random, alphabet: &Alphabet) -> Vec<Conversation> {
    let mut all = Vec::new();
    for _ in 0..random.between(0, 2 * usize::from(alphabet.engines)) {
        all.push(Conversation {
            operation: alphabet.operation(random),
            client: random.small(alphabet.engines),
            server: random.small(alphabet.engines),
            replied: random.percent(80),
        });
    }
    all
}

struct Planner<'a> {
    maker: Maker<'a>,
}

impl Planner<'_> {
    /// A root scope around the engine's conversations and some code, side by side.
    fn root(&mut self, engine: u8, conversations: &[Conversation]) -> Part {
        let mut parts = Vec::new();
        for conversation in conversations {
            if conversation.client == engine {
                parts.push(self.client(conversation));
            }
            if conversation.server == engine {
                parts.push(self.server(conversation));
            }
        }
        if parts.is_empty() || self.maker.random.percent(50) {
            let depth = [6, 9, 14, 30][self.maker.random.weighted(&[4, 6, 4, 1])];
            parts.push(self.maker.solid(depth, false));
        }
        let body = self.combine(parts);
        let body = match self.maker.random.percent(40) {
            true => build::seq(build::inst(self.maker.list(6)), body),
            false => body,
        };
        build::scope(self.name(), body)
    }

    fn name(&mut self) -> u8 {
        self.maker.alphabet.name(self.maker.random)
    }

    fn client(&mut self, conversation: &Conversation) -> Part {
        let Conversation { operation, server, replied, .. } = *conversation;
        let (message, reply) = self.maker.alphabet.counts(self.maker.random, operation);
        let y = self.maker.alphabet.sent(self.maker.random, message);
        let x = self.maker.alphabet.receiving(self.maker.random, reply);
        let z = ENGINE_NUMBERS + server;
        let call = match replied {
            true => build::solicit(operation, y, z, x, self.maker.list(4)),
            false => build::notify(operation, y, z),
        };
        self.placed(call)
    }

    fn server(&mut self, conversation: &Conversation) -> Part {
        let Conversation { operation, replied, .. } = *conversation;
        let (message, reply) = self.maker.alphabet.counts(self.maker.random, operation);
        let y = self.maker.alphabet.sent(self.maker.random, reply);
        let x = self.maker.alphabet.receiving(self.maker.random, message);
        let receiver = match replied {
            true => build::request(operation, x, y, self.work()),
            false => build::one_way(operation, x),
        };
        let receiver = match self.maker.random.percent(25) {
            true => self.offered(receiver),
            false => receiver,
        };
        self.placed(receiver)
    }

    /// What a request's executor does.
    fn work(&mut self) -> Part {
        match self.maker.random.below(5) {
            0 | 1 => build::nil(),
            2 => build::throw(self.name()),
            3 => self.maker.solid(5, false),
            _ => {
                let code = self.maker.solid(4, false);
                self.troubled(code)
            }
        }
    }

    /// A receiver as one branch of a choice.
    fn offered(&mut self, receiver: Part) -> Part {
        let operation = self.maker.alphabet.operation(self.maker.random);
        let mut branches = vec![(build::one_way(operation, 1), self.maker.part(4, false))];
        let at = self.maker.random.below(2);
        branches.insert(at, (receiver, self.maker.part(4, false)));
        build::choice(branches)
    }

    /// An end of a conversation somewhere: alone, before code, in scopes, beside a throw.
    fn placed(&mut self, part: Part) -> Part {
        match self.maker.random.below(6) {
            0 | 1 => part,
            2 => build::seq(part, self.maker.part(5, false)),
            3 => {
                let inner = self.placed(part);
                build::scope(self.name(), inner)
            }
            _ => {
                let inner = self.placed(part);
                self.troubled(inner)
            }
        }
    }

    /// A scope that installs handlers and then runs the part beside a throw.
    fn troubled(&mut self, part: Part) -> Part {
        let fault = self.name();
        let name = self.name();
        let mut list = self.maker.list(4);
        if self.maker.random.percent(60) {
            list.insert(Key::Fault(fault), self.maker.part(4, true));
        }
        if self.maker.random.percent(40) {
            list.insert(Key::Scope(name), self.maker.part(4, true));
        }
        let both = match self.maker.random.percent(50) {
            true => build::par(part, build::throw(fault)),
            false => build::par(build::throw(fault), part),
        };
        let body = self.installing(list, both);
        build::scope(name, body)
    }

    fn installing(&mut self, list: List, body: Part) -> Part {
        match self.maker.random.percent(80) {
            true => build::seq(build::inst(list), body),
            false => body,
        }
    }

    /// Side by side, in a random order of nesting, sometimes one scope more around two of them.
    fn combine(&mut self, mut parts: Vec<Part>) -> Part {
        while parts.len() > 1 {
            let at = self.maker.random.below(parts.len() - 1);
            let right = parts.remove(at + 1);
            let mut both = build::par(parts[at].clone(), right);
            if self.maker.random.percent(20) {
                both = self.troubled(both);
            }
            parts[at] = both;
        }
        parts.pop().unwrap_or_else(build::nil)
    }
}
