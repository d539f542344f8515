//! The port's jump to a command by its number beside walks to it from the front, by the Rust original's iterator and by the port's; and the making of
//! the entries that it jumps by beside the count of both. All are given the same streams, must agree in what they tell, and are timed in turn.
//!
//! `tools/bench jump` builds and runs it; docs/SPEED.md has the figures.

#[allow(dead_code)]
mod inputs;
mod original;
#[path = "../oracle/parser.rs"]
mod parser;
#[allow(dead_code)]
mod port;
#[path = "../oracle/rng.rs"]
#[allow(dead_code)]
mod rng;

use inputs::{Order, Streams};
use original::{counting, jumping, placing};
use rng::Rng;
use std::fmt::Display;
use std::hint::black_box;
use std::process::exit;
use std::time::Instant;

const USAGE: &str = "usage: jump SEED ROUNDS
  times each stream, each side ROUNDS times, a short one oftener, and prints the least nanoseconds: of a jump and of the walks to
  the same command, and for each command of the making of the entries and of the counts";

/// The most bytes of each stream. One with fewer than the last is timed so much oftener that as many are walked.
const SIZES: [(&str, usize); 3] = [("64 KB", 64_000), ("1 MB", 1_000_000), ("16 MB", 16_000_000)];

/// An entry for so many commands.
const STRIDE: usize = 16;

/// So many commands are near the front, the middle or the end.
const NEAR: usize = 1_000;

/// So many numbers of commands are jumped to at each place, so that no branch predictor can learn them by heart.
const JUMPS: usize = 16_384;

/// So many of them are walked to, which takes long.
const WALKS: usize = 5;

/// The refusals' numbers of a jump past the last command: within what the last entry covers, and behind that.
const NO_SUCH_COMMAND: u64 = 19;
const BUFFER_TOO_SHORT: u64 = 4;

extern "C" {
    fn nazhdivar_entries(stream: *const u8, len: usize, numbers: *mut u32, room: usize) -> u64;
    fn nazhdivar_jump(stream: *const u8, len: usize, entries: *const u32, many: usize, n: usize) -> u64;
}

/// Writes the entries of a stream, and answers how many; from 2^32 on, a refusal.
#[inline(never)]
fn entries(stream: &[u8], numbers: &mut [u32]) -> u64 {
    unsafe { nazhdivar_entries(stream.as_ptr(), stream.len(), numbers.as_mut_ptr(), numbers.len()) }
}

/// Command n: its offset * 65,536 + its CID * 256 + the bytes of its payload; below 512, a refusal's number.
#[inline(never)]
fn jump(stream: &[u8], entries: &[u32], n: usize) -> u64 {
    unsafe { nazhdivar_jump(stream.as_ptr(), stream.len(), entries.as_ptr(), entries.len(), n) }
}

/// How a side comes to command n of a stream with these entries.
type Reach = fn(&[u8], &[u32], usize) -> u64;

/// The jump, the Rust's walk and the port's.
const REACHES: [Reach; 3] = [jump, |stream, _, n| jumping::nth(stream, n), |stream, _, n| port::nth(stream, n)];

/// What a side does with all of a stream, and with memory for its entries.
type Pass = fn(&[u8], &mut [u32]) -> u64;

/// The making of the entries, the Rust's count and the port's.
const PASSES: [Pass; 3] = [entries, |stream, _| counting::count(stream, 0), |stream, _| port::count(stream, 0)];

/// A part of a stream: numbers of commands in it, drawn by chance, and some of them, spread as all are.
struct Place {
    name: &'static str,
    jumps: Vec<usize>,
    walks: Vec<usize>,
}

impl Place {
    fn all(seed: u64, commands: usize) -> [Place; 4] {
        // A seed that is not the stream's, whose commands would otherwise be drawn from the same numbers.
        let mut rng = Rng::new(!seed);
        let middle = commands / 2 - NEAR / 2;
        [("front", 0, NEAR), ("middle", middle, NEAR), ("end", commands - NEAR, NEAR), ("by chance", 0, commands)].map(|(name, first, many)| {
            let jumps: Vec<usize> = (0..JUMPS).map(|_| first + rng.below(many)).collect();
            let mut sorted = jumps.clone();
            sorted.sort();
            let walks = (0..WALKS).map(|k| sorted[(2 * k + 1) * JUMPS / (2 * WALKS)]).collect();
            Place { name, jumps, walks }
        })
    }
}

/// A stream with its entries, on which both sides answer the same.
struct Ready {
    name: &'static str,
    stream: Vec<u8>,
    commands: usize,
    entries: Vec<u32>,
    places: [Place; 4],
}

impl Ready {
    fn new(seed: u64, name: &'static str, most: usize) -> Ready {
        let made = Streams::whole(seed, Order::Chance, 1, most);
        let (stream, commands) = made.each().next().expect("a stream");
        let spots = placing::spots(stream);
        let end = spots.last().map_or(0, |spot| spot / 65_536 + 1 + spot % 256);
        if spots.len() != commands || end != stream.len() as u64 {
            failed(&format!("the Rust stops in {name}, after {} commands", spots.len()));
        }
        let places = Place::all(seed, commands);
        let entries = same_entries(name, stream, &spots);
        same_jumps(name, stream, &spots, &entries);
        same_walks(name, stream, &spots, &places);
        Ready { name, stream: stream.to_vec(), commands, entries, places }
    }

    fn rounds(&self, rounds: usize) -> usize {
        rounds * SIZES[SIZES.len() - 1].1 / self.stream.len()
    }

    /// Of each place, the least time of each way to a command. Between two rounds at a place are those at the others, so that no side has just
    /// walked the same commands.
    fn reaching(&self, rounds: usize) -> [[f64; 3]; 4] {
        let mut least = [[f64::INFINITY; 3]; 4];
        for round in 0..self.rounds(rounds) {
            for (place, least) in self.places.iter().zip(&mut least) {
                for side in turns(round) {
                    let numbers = if side == 0 { &place.jumps } else { &place.walks };
                    let time = nanoseconds(|| reached(black_box(REACHES[side]), &self.stream, &self.entries, numbers));
                    least[side] = least[side].min(time / numbers.len() as f64);
                }
            }
        }
        least
    }

    /// The least time of each pass over the stream, a command.
    fn passing(&self, rounds: usize) -> [f64; 3] {
        let mut least = [f64::INFINITY; 3];
        let mut numbers = self.entries.clone();
        for round in 0..self.rounds(rounds) {
            for side in turns(round) {
                let time = nanoseconds(|| black_box(PASSES[side])(black_box(&self.stream), black_box(&mut numbers)));
                least[side] = least[side].min(time / self.commands as f64);
            }
        }
        least
    }
}

/// The entries of a stream are the offsets of every sixteenth command, and a number behind them stays as it was.
fn same_entries(name: &str, stream: &[u8], spots: &[u64]) -> Vec<u32> {
    let wanted: Vec<u32> = spots.iter().step_by(STRIDE).map(|spot| (spot / 65_536) as u32).collect();
    let mut numbers = vec![u32::MAX; wanted.len() + 1];
    same(wanted.len() as u64, entries(stream, &mut numbers), format_args!("how many entries {name} has"));
    same(u32::MAX.into(), numbers[wanted.len()].into(), format_args!("the number behind the entries of {name}"));
    numbers.truncate(wanted.len());
    for (k, (&wanted, &number)) in wanted.iter().zip(&numbers).enumerate() {
        same(wanted.into(), number.into(), format_args!("entry {k} of {name}"));
    }
    numbers
}

/// A jump finds every command of a stream where the Rust has it, and none past the last.
fn same_jumps(name: &str, stream: &[u8], spots: &[u64], entries: &[u32]) {
    let covered = STRIDE * entries.len();
    let past = |n| if n < covered { NO_SUCH_COMMAND } else { BUFFER_TOO_SHORT };
    for n in (0..spots.len() + NEAR).chain([usize::MAX]) {
        let wanted = spots.get(n).copied().unwrap_or_else(|| past(n));
        same(wanted, jump(stream, entries, n), format_args!("the jump to command {n} of {name}"));
    }
}

/// A walk hands out each command that it is timed to, and the last, and none past it; and a count is of all.
fn same_walks(name: &str, stream: &[u8], spots: &[u64], places: &[Place]) {
    for n in places.iter().flat_map(|place| &place.walks).copied().chain([spots.len() - 1, spots.len()]) {
        let wanted = spots.get(n).map_or(0, |spot| spot % 65_536);
        same(wanted, jumping::nth(stream, n), format_args!("the Rust's walk to command {n} of {name}"));
        same((wanted != 0).into(), port::nth(stream, n), format_args!("the port's walk to command {n} of {name}, 1 if there is one"));
    }
    same(spots.len() as u64, counting::count(stream, 0), format_args!("the Rust's count of {name}"));
    same(spots.len() as u64, port::count(stream, 0), format_args!("the port's count of {name}"));
}

/// An answer is what the Rust's walk over all of the stream says.
fn same(wanted: u64, answer: u64, what: impl Display) {
    if wanted != answer {
        failed(&format!("{what}: {answer}, and not {wanted}"));
    }
}

/// Comes to one command after the other. Each waits for the answer before it, whose highest bit is never set: so no two jumps overlap.
fn reached(side: Reach, stream: &[u8], entries: &[u32], numbers: &[usize]) -> u64 {
    numbers.iter().fold(0, |before, &n| side(stream, entries, n + (before >> 63) as usize))
}

/// The order of the sides in a round. Whoever comes later finds the stream in the cache, so they take turns.
fn turns(round: usize) -> impl Iterator<Item = usize> {
    (0..3).map(move |turn| (round + turn) % 3)
}

fn nanoseconds(work: impl FnOnce() -> u64) -> f64 {
    let start = Instant::now();
    black_box(work());
    start.elapsed().as_nanos() as f64
}

fn main() {
    let words: Vec<String> = std::env::args().skip(1).collect();
    let number = |word: &String| word.parse::<u64>().unwrap_or_else(|_| usage());
    let (seed, rounds) = match &words[..] {
        [seed, rounds] => (number(seed), number(rounds) as usize),
        _ => usage(),
    };
    let streams = SIZES.map(|(name, most)| Ready::new(seed, name, most));
    println!("nanoseconds to command n: the mean of {JUMPS} jumps at the place, and of walks to {WALKS} of these commands");
    println!("| Stream | n | jump | Rust's walk | port's walk |");
    println!("|---|---|---|---|---|");
    for ready in &streams {
        for (place, [jump, rust, rattle]) in ready.places.iter().zip(ready.reaching(rounds)) {
            println!("| {} | {} | {jump:.1} | {rust:.0} | {rattle:.0} |", ready.name, place.name);
        }
    }
    println!("nanoseconds per command, over the whole stream");
    println!("| Stream | commands | entries | making the entries | Rust's count | port's count |");
    println!("|---|---|---|---|---|---|");
    for ready in &streams {
        let [making, rust, rattle] = ready.passing(rounds);
        println!("| {} | {} | {} | {making:.2} | {rust:.2} | {rattle:.2} |", ready.name, ready.commands, ready.entries.len());
    }
}

fn failed(why: &str) -> ! {
    eprintln!("bench: {why}");
    exit(1);
}

fn usage() -> ! {
    eprintln!("{USAGE}");
    exit(2);
}
