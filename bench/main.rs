//! The port beside the Rust original, and its listing, which the original has not, beside two in Rust: both sides are given the same
//! inputs, must answer the same, and are timed in turn.
//!
//! `tools/bench` builds and runs it; docs/SPEED.md has the figures.

mod inputs;
mod listing;
mod original;
#[path = "../oracle/parser.rs"]
mod parser;
mod port;
#[path = "../oracle/rng.rs"]
#[allow(dead_code)]
mod rng;

use inputs::{wishes, Order, Streams, Wish};
use original::building::{self, maccommands::SerializableMacCommand};
use original::{counting, iterating, reading};
use std::cell::RefCell;
use std::fmt::{Debug, Formatter};
use std::hint::black_box;
use std::process::exit;
use std::time::Instant;

const USAGE: &str = "usage: bench COMMAND
  table SEED ROUNDS            times every case, each side ROUNDS times, and prints the least
  cases SEED                   each case's name and the number of its commands
  one SEED CASE SIDE TIMES     runs a case on one side, `rust` or `rattle`, so many times";

/// Streams are made until they have about a megabyte, so that no branch predictor can learn a case by heart.
const MEGABYTE: usize = 1_000_000;

/// The frame that streams are listed in, of five digits.
const FRAME: u32 = 12_345;

/// So many commands are in the lists of a case, all together.
const COMMANDS: usize = 16_384;

/// What is done with a stream, or with a list of commands.
#[derive(Clone, Copy, PartialEq)]
enum Work {
    Count,
    CountDamaged,
    Iterate,
    Fields,
    Set,
    SetStructs,
    Resend,
    Hosted,
    Packed,
    Listing,
    ListingByHand,
}

impl Work {
    const ALL: [Work; 11] = [
        Work::Count,
        Work::CountDamaged,
        Work::Iterate,
        Work::Fields,
        Work::Set,
        Work::SetStructs,
        Work::Resend,
        Work::Hosted,
        Work::Packed,
        Work::Listing,
        Work::ListingByHand,
    ];

    fn name(self) -> &'static str {
        match self {
            Work::Count => "count",
            Work::CountDamaged => "count-damaged",
            Work::Iterate => "iterate",
            Work::Fields => "fields",
            Work::Set => "set",
            Work::SetStructs => "set-structs",
            Work::Resend => "resend",
            Work::Hosted => "hosted",
            Work::Packed => "packed",
            Work::Listing => "listing",
            Work::ListingByHand => "listing-by-hand",
        }
    }

    /// The most bytes of a stream, or the commands of a list: large, middle and small.
    fn sizes(self) -> [Option<usize>; 3] {
        match self {
            Work::Count | Work::Iterate | Work::Fields => [Some(MEGABYTE), Some(242), Some(15)],
            Work::CountDamaged => [None, Some(242), Some(15)],
            Work::Listing | Work::ListingByHand => [Some(MEGABYTE), Some(242), None],
            Work::Set | Work::Resend | Work::Hosted | Work::Packed => [Some(4096), Some(64), Some(4)],
            Work::SetStructs => [None, None, Some(4)],
        }
    }
}

/// What a side does with a stream, of which it is told how many commands it hands out.
type OnStream = fn(&[u8], usize) -> u64;

/// What a side writes of a stream in a frame: so many bytes, in front of memory that has room for them.
type OnText = fn(u32, &[u8], &mut Vec<u8>) -> u64;

/// A kind of work on inputs of one size, in one order.
#[derive(Clone, Copy)]
struct Case {
    work: Work,
    size: usize,
    order: Order,
}

impl Case {
    /// The cases of a kind of work, from large to small; none where it has no such size.
    fn of(work: Work) -> Vec<Option<Case>> {
        let at = |size: Option<usize>, order| size.map(|size| Case { work, size, order });
        work.sizes().into_iter().flat_map(|size| [at(size, Order::Chance), at(size, Order::Cycle)]).collect()
    }

    fn all() -> impl Iterator<Item = Case> {
        Work::ALL.into_iter().flat_map(Case::of).flatten()
    }

    fn name(self) -> String {
        format!("{}-{}-{}", self.work.name(), self.size, self.order.name())
    }

    fn ready(self, seed: u64) -> Ready {
        match self.work {
            Work::Count => self.over_streams(Streams::whole, seed, counting::count, port::count),
            Work::CountDamaged => self.over_streams(Streams::damaged, seed, counting::count, port::count),
            Work::Iterate => self.over_streams(Streams::whole, seed, iterating::nth, port::nth),
            Work::Fields => self.over_streams(Streams::whole, seed, reading::fields, port::fields),
            Work::Set | Work::SetStructs => {
                let lists = self.lists(seed).iter().map(|list| list.as_slice()).collect();
                let rust = match self.size {
                    4096 => original::set_4096::set,
                    64 => original::set_64::set,
                    _ => original::set_4::set,
                };
                let rattle = if self.work == Work::Set { port::set } else { port::set_four };
                self.over_lists(lists, rust, rattle)
            }
            Work::Resend => {
                let streams = self.lists(seed).iter().map(|list| &*Vec::leak(stream(list))).collect();
                let rust = match self.size {
                    4096 => original::resend_4096::resend,
                    64 => original::resend_64::resend,
                    _ => original::resend_4::resend,
                };
                self.over_lists(streams, rust, port::resend)
            }
            Work::Hosted => self.over_lists(self.made(seed), on_objects, |list, slots, out| port::hosted(&list.objects, slots, out)),
            Work::Packed => self.over_lists(self.made(seed), on_objects, |list, _, out| port::build(&list.slots, out)),
            Work::Listing => self.over_texts(seed, listing::plain),
            Work::ListingByHand => self.over_texts(seed, |frame, stream, text| listing::by_hand(frame, stream, text)),
        }
    }

    fn streams(self, made: fn(u64, Order, usize, usize) -> Streams, seed: u64) -> &'static Streams {
        Box::leak(Box::new(made(seed, self.order, MEGABYTE / self.size, self.size)))
    }

    fn over_streams(self, made: fn(u64, Order, usize, usize) -> Streams, seed: u64, rust: OnStream, rattle: OnStream) -> Ready {
        let streams = self.streams(made, seed);
        for (stream, n) in streams.each() {
            same(rust(stream, n), rattle(stream, n), stream);
        }
        let side = |side: OnStream| {
            Box::new(move || {
                let side = black_box(side);
                for (stream, n) in streams.each() {
                    black_box(side(black_box(stream), black_box(n)));
                }
            })
        };
        Ready { commands: streams.each().map(|(_, n)| n).sum(), rust: side(rust), rattle: side(rattle) }
    }

    /// Each side writes into memory of its own that stands ready. No line has more than 40 bytes for each byte of its command.
    fn over_texts(self, seed: u64, rust: OnText) -> Ready {
        let streams = self.streams(Streams::whole, seed);
        let rattle: OnText = |frame, stream, text| port::listing(frame, stream, text);
        let room = || vec![0; 40 * (self.size + 1)];
        let (mut one, mut other) = (room(), room());
        for (stream, _) in streams.each() {
            let (rust, rattle) = (rust(FRAME, stream, &mut one), rattle(FRAME, stream, &mut other));
            same(String::from_utf8_lossy(&one[..rust as usize]), String::from_utf8_lossy(&other[..rattle as usize]), stream);
        }
        let side = |side: OnText, text: Vec<u8>| {
            let text = RefCell::new(text);
            Box::new(move || {
                let side = black_box(side);
                for (stream, _) in streams.each() {
                    black_box(side(black_box(FRAME), black_box(stream), black_box(&mut text.borrow_mut())));
                }
            })
        };
        Ready { commands: streams.each().map(|(_, n)| n).sum(), rust: side(rust, one), rattle: side(rattle, other) }
    }

    fn lists(self, seed: u64) -> &'static [Vec<Wish>] {
        let all = wishes(seed, self.order, COMMANDS / self.size, self.size);
        Vec::leak(all.chunks(self.size).map(|list| list.to_vec()).collect())
    }

    /// Each list is handed to both sides as it is; the port has scratch for its slots.
    fn over_lists<T: ?Sized + Debug>(
        self,
        lists: Vec<&'static T>,
        rust: fn(&T, &mut [u8]) -> u64,
        rattle: fn(&T, &mut [u8], &mut [u8]) -> u64,
    ) -> Ready {
        let (lists, size): (&'static [&'static T], usize) = (lists.leak(), self.size);
        let (mut slots, mut one, mut other) = (vec![0; 8 * size], vec![0; 6 * size], vec![0; 6 * size]);
        for list in lists {
            same(rust(list, &mut one), rattle(list, &mut slots, &mut other), list);
            same(&one, &other, list);
        }
        let room = RefCell::new(one);
        let rust = move || {
            let rust = black_box(rust);
            for list in lists {
                black_box(rust(black_box(list), black_box(&mut room.borrow_mut())));
            }
        };
        let room = RefCell::new((slots, other));
        let rattle = move || {
            let rattle = black_box(rattle);
            let (slots, out) = &mut *room.borrow_mut();
            for list in lists {
                black_box(rattle(black_box(list), black_box(slots), black_box(out)));
            }
        };
        Ready { commands: COMMANDS, rust: Box::new(rust), rattle: Box::new(rattle) }
    }

    /// Creators that are made and set, and their slots.
    fn made(self, seed: u64) -> Vec<&'static Made> {
        let made = |wishes: &'static Vec<Wish>| {
            let creators: &'static [_] = wishes.iter().map(building::creator).collect::<Vec<_>>().leak();
            let objects: Vec<&dyn SerializableMacCommand> = creators.iter().map(|creator| creator as _).collect();
            let mut slots = vec![0; 8 * objects.len()];
            port::pack(&objects, &mut slots);
            &*Box::leak(Box::new(Made { objects, slots }))
        };
        self.lists(seed).iter().map(made).collect()
    }
}

/// A list that stands ready: as objects for the Rust, and packed.
struct Made {
    objects: Vec<&'static dyn SerializableMacCommand>,
    slots: Vec<u8>,
}

impl Debug for Made {
    fn fmt(&self, f: &mut Formatter) -> std::fmt::Result {
        self.slots.fmt(f)
    }
}

fn on_objects(list: &Made, out: &mut [u8]) -> u64 {
    building::build(&list.objects, out)
}

/// The stream that the creators of these wishes make.
fn stream(wishes: &Vec<Wish>) -> Vec<u8> {
    wishes.iter().flat_map(|wish| building::creator(wish).build().to_vec()).collect()
}

/// A case with its inputs: what each side does with all of them, one after the other.
struct Ready {
    commands: usize,
    rust: Box<dyn Fn()>,
    rattle: Box<dyn Fn()>,
}

/// Both sides gave the same answer.
fn same<T: PartialEq + Debug>(rust: T, rattle: T, input: &(impl Debug + ?Sized)) {
    if rust != rattle {
        eprintln!("bench: the Rust answers {rust:02X?} and the port {rattle:02X?} to {input:02X?}");
        exit(1);
    }
}

fn nanoseconds(side: &dyn Fn()) -> f64 {
    let start = Instant::now();
    side();
    start.elapsed().as_nanos() as f64
}

/// The least time of each side, a command.
fn timed(ready: &Ready, rounds: usize) -> (f64, f64) {
    let (mut rust, mut rattle) = (f64::INFINITY, f64::INFINITY);
    for round in 0..rounds {
        // Whoever comes second finds the input in the cache, so they take turns.
        if round % 2 == 0 {
            rust = rust.min(nanoseconds(&ready.rust));
        }
        rattle = rattle.min(nanoseconds(&ready.rattle));
        if round % 2 == 1 {
            rust = rust.min(nanoseconds(&ready.rust));
        }
    }
    (rust / ready.commands as f64, rattle / ready.commands as f64)
}

fn table(seed: u64, rounds: usize) {
    println!("| Work | large, chance | large, cycle | middle, chance | middle, cycle | small, chance | small, cycle |");
    println!("|---|---|---|---|---|---|---|");
    for work in Work::ALL {
        print!("| {} |", work.name());
        for case in Case::of(work) {
            match case.map(|case| timed(&case.ready(seed), rounds)) {
                Some((rust, rattle)) => print!(" {rust:.1} : {rattle:.1} = **{:.2}** |", rattle / rust),
                None => print!(" |"),
            }
        }
        println!();
    }
}

fn main() {
    let words: Vec<String> = std::env::args().skip(1).collect();
    let words: Vec<&str> = words.iter().map(String::as_str).collect();
    let number = |word: &str| word.parse::<u64>().unwrap_or_else(|_| usage());
    match words[..] {
        ["table", seed, rounds] => table(number(seed), number(rounds) as usize),
        ["cases", seed] => {
            for case in Case::all() {
                println!("{} {}", case.name(), case.ready(number(seed)).commands);
            }
        }
        ["one", seed, case, side, times] => {
            let ready = Case::all().find(|known| known.name() == case).unwrap_or_else(|| usage()).ready(number(seed));
            let run = match side {
                "rust" => ready.rust,
                "rattle" => ready.rattle,
                _ => usage(),
            };
            for _ in 0..number(times) {
                run();
            }
        }
        _ => usage(),
    }
}

fn usage() -> ! {
    eprintln!("{USAGE}");
    exit(2);
}
