//! Times `sock_keeper_words` by moves asked for, on games of some 600 words that have 7 to 13 moves at the start, and prints a table: how
//! many games were decided in time, how many of them with yes, and the median and the longest time of a call.

use reference::bytes::from_words;
use reference::generate::games::long_game;
use reference::generate::random::Random;
use reference::keeper::{moves, unpack, Side, SCRATCH};
use reference::write;
use std::time::Instant;

extern "C" {
    fn sock_keeper_words(
        config: *const u8,
        length: usize,
        engines: u8,
        serial: u16,
        k: u16,
        scratch: *mut u16,
        scratch_words: usize,
    ) -> u64;
}

/// Games that are timed, and the longest call after which no more moves are asked for.
const GAMES: usize = 12;
const PATIENCE: f64 = 1.0;

struct Game {
    config: Vec<u8>,
    moves: usize,
}

fn games() -> Vec<Game> {
    let found = (0..).map(|seed| {
        let words = write::configuration(&long_game(&mut Random::new(seed)));
        let sides = [Side::Keeper, Side::River];
        let count = sides.iter().map(|side| moves(&words, 0b01, *side).len()).sum();
        Game { config: from_words(&words), moves: count }
    });
    found.filter(|game| (7..=13).contains(&game.moves)).take(GAMES).collect()
}

fn main() {
    let games = games();
    let words: Vec<usize> = games.iter().map(|game| game.config.len() / 2).collect();
    println!("{GAMES} games of {:?} to {:?} words", words.iter().min(), words.iter().max());
    println!("| k | games | yes | median | longest |");
    println!("|---|---|---|---|---|");
    let mut scratch = vec![0u16; SCRATCH];
    let mut going: Vec<&Game> = games.iter().collect();
    for k in 1..=6 {
        let mut times = Vec::new();
        let mut yes = 0;
        going.retain(|game| {
            let start = Instant::now();
            // All is lent whole for the call, and nothing refers to the scratch meanwhile.
            let bits = unsafe {
                let (config, length) = (game.config.as_ptr(), game.config.len());
                sock_keeper_words(config, length, 0b01, 1, k, scratch.as_mut_ptr(), scratch.len())
            };
            let time = start.elapsed().as_secs_f64();
            let played = unpack(bits).expect("zero bits are 0");
            assert_eq!(played.outcome.number, 0);
            yes += usize::from(played.outcome.outcome != 0);
            times.push(time);
            time < PATIENCE
        });
        times.sort_by(f64::total_cmp);
        let Some(longest) = times.last() else { break };
        let median = times[times.len() / 2];
        println!(
            "| {k} | {} | {yes} | {:.3} ms | {:.3} ms |",
            times.len(),
            1e3 * median,
            1e3 * longest
        );
    }
}
