//! The port's ledger of parents beside one in plain Rust: both replay the same traces from a fresh ledger, must answer the same, and are timed in
//! turn.
//!
//! `tools/bench ledger` builds and runs it; docs/SPEED.md has the figures.

mod ledger;

use std::hint::black_box;
use std::process::exit;
use std::time::Instant;

const USAGE: &str = "usage: ledger ROUNDS TRACE..
  times each trace, each side ROUNDS times, a short one oftener, and prints the least nanoseconds a byte";

/// A trace with fewer bytes is timed so much oftener that as many are replayed.
const BYTES: usize = 10_000_000;

/// A text and a lent list, of four numbers an entry; and the numbers of a setting, its channel and the part that is told.
type Side = fn(&[u8], &mut [u64], u8, u8, u8) -> u64;

extern "C" {
    fn nazhdivar_ledger(text: *const u8, len: usize, list: *mut u64, room: usize, setting: u8, channel: u8, part: u8) -> u64;
}

/// The crate `timed_ledger`, linked as an archive. A slice crosses as its pointer and its length.
#[inline(never)]
fn port(text: &[u8], list: &mut [u64], setting: u8, channel: u8, part: u8) -> u64 {
    unsafe { nazhdivar_ledger(text.as_ptr(), text.len(), list.as_mut_ptr(), list.len(), setting, channel, part) }
}

const SIDES: [Side; 2] = [ledger::told, port];

/// Parts by their numbers: the verdict; what a setting is, which no side can tell without its memory; and how many there are.
const VERDICT: u8 = 0;
const VALUE: u8 = 8;
const PARTS: u8 = 10;

/// The numbers of a list with as much room as the trace needs, or up to twice that.
fn room_for(text: &[u8]) -> usize {
    let mut room = 4;
    while ledger::told(text, &mut vec![0; room], 0, 0, VERDICT) == u64::from(ledger::BUFFER_TOO_SHORT) {
        room *= 2;
    }
    room
}

/// Both sides tell the same of a trace, which is accepted, and leave the same list.
fn same(name: &str, text: &[u8], room: usize) {
    for part in 0..PARTS {
        let [rust, rattle] = SIDES.map(|side| {
            let mut list = vec![u64::MAX; room];
            (side(text, &mut list, 0, 0, part), list)
        });
        if rust.0 != rattle.0 || rust.1 != rattle.1 {
            let at = (0..room).find(|&at| rust.1[at] != rattle.1[at]);
            failed(&format!("of {name}, part {part}, the Rust answers {} and the port {}; their lists differ at {at:?}", rust.0, rattle.0));
        }
        if part == VERDICT && rust.0 != 0 {
            failed(&format!("{name} is refused with {}", rust.0));
        }
    }
}

fn nanoseconds(side: Side, text: &[u8], list: &mut [u64]) -> f64 {
    let start = Instant::now();
    black_box(black_box(side)(black_box(text), black_box(list), 0, 0, black_box(VALUE)));
    start.elapsed().as_nanos() as f64
}

/// The least time of each side, a byte. Whoever comes second finds the text in the cache, so they take turns.
fn timed(text: &[u8], list: &mut [u64], rounds: usize) -> [f64; 2] {
    let mut least = [f64::INFINITY; 2];
    for round in 0..rounds * (BYTES / text.len().max(1)).max(1) {
        for turn in 0..2 {
            let side = (round + turn) % 2;
            least[side] = least[side].min(nanoseconds(SIDES[side], text, list) / text.len() as f64);
        }
    }
    least
}

fn main() {
    let words: Vec<String> = std::env::args().skip(1).collect();
    let (rounds, names) = match words.split_first() {
        Some((rounds, names)) if !names.is_empty() => (rounds.parse().unwrap_or_else(|_| usage()), names),
        _ => usage(),
    };
    println!("| Trace, bytes | Rust : port, nanoseconds a byte |");
    println!("|---|---|");
    for name in names {
        let text = std::fs::read(name).unwrap_or_else(|error| failed(&format!("{name}: {error}")));
        let room = room_for(&text);
        same(name, &text, room);
        let [rust, rattle] = timed(&text, &mut vec![0; room], rounds);
        println!("| {} | {rust:.2} : {rattle:.2} = **{:.2}** |", text.len(), rattle / rust);
    }
}

fn failed(why: &str) -> ! {
    eprintln!("bench: {why}");
    exit(1);
}

fn usage() -> ! {
    eprintln!("{USAGE}");
    exit(2);
}
