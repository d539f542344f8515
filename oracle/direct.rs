//! The list for the run in which the iterator and the build over record structs are called directly, and not through their fronts: an
//! iterator's calls on streams of each kind, and lists of every small length, with a fault at each place; then the longest list and one
//! that is longer. Either part has as many as an interpreter has steps for.

use crate::batch::Batch;
use crate::build::{run, MOST_RECORDS};
use crate::case::two;
use crate::entries::{self, calls_of};
use crate::random;
use crate::table::{self, Direction, DIRECTIONS};
use crate::walk::to_beyond_the_end;

const SEED: u64 = 1;
const STREAMS: usize = 60;
const LONGEST: usize = 60;
/// The lists of so few records have each fault at each place.
const FEW: usize = 6;

pub fn list(batch: &mut Batch) {
    for direction in DIRECTIONS {
        batch.ask(calls_of(direction), &to_beyond_the_end(direction, &[]));
        for k in direction.commands() {
            let command = [&[table::cid(k)], &vec![0x0D; table::len(k)][..]].concat();
            for cut in 1..=command.len() {
                batch.ask(calls_of(direction), &to_beyond_the_end(direction, &[&command[..], &command[..cut]].concat()));
            }
            batch.ask(calls_of(direction), &to_beyond_the_end(direction, &[&command[..], &[0x80]].concat()));
        }
        for records in 0..=FEW {
            whole(batch, direction, records);
            for place in 0..records {
                faulty(batch, direction, records, place);
            }
        }
    }
    let keep = |entry, input: &[u8], _: &_| entry / 2 == entries::CALLS_DOWN / 2 && input.len() <= LONGEST;
    batch.sampled(Box::new(keep), &|batch| random::streams_and_others(batch, SEED, STREAMS));
    batch.comment("The longest");
    let longest = |records| run(records, &[0x02, 0, 0, 0, 0, 0, 0, 0]);
    batch.ask(entries::BUILD_RECORDS, &[&[1], &two(MOST_RECORDS)[..], &[0xEE], &longest(MOST_RECORDS)].concat());
    batch.ask(entries::RECORDS_LEN, &[&[1], &longest(MOST_RECORDS + 1)[..]].concat());
}

/// A command's slot, its payload counted up.
fn slot(direction: Direction, nth: usize) -> [u8; 8] {
    let commands: Vec<_> = direction.commands().collect();
    let k = commands[nth % commands.len()];
    [table::cid(k), table::len(k) as u8, 0x11, 0x22, 0x33, 0x44, 0x55, 0x66]
}

fn list_of(batch: &mut Batch, direction: Direction, runs: &[u8], rooms: &[usize]) {
    let direction = direction.number();
    batch.ask(entries::RECORDS_LEN, &[&[direction], runs].concat());
    for room in rooms {
        batch.ask(entries::BUILD_RECORDS, &[&[direction], &two(*room)[..], &[0xEE], runs].concat());
    }
}

fn with_total(slots: &[[u8; 8]]) -> (Vec<u8>, usize) {
    (slots.iter().flat_map(|s| run(1, s)).collect(), slots.iter().map(|s| 1 + usize::from(s[1])).sum())
}

fn whole(batch: &mut Batch, direction: Direction, records: usize) {
    let slots: Vec<_> = (0..records).map(|i| slot(direction, records + i)).collect();
    let (runs, total) = with_total(&slots);
    let rooms: Vec<usize> = [total.checked_sub(1), Some(total), Some(total + 2)].into_iter().flatten().collect();
    list_of(batch, direction, &runs, &rooms);
}

/// Another CID, another length, and both, at a place.
fn faulty(batch: &mut Batch, direction: Direction, records: usize, place: usize) {
    for fault in [[0, 1], [0x06, 5], [0x80, 0]] {
        let mut slots: Vec<_> = (0..records).map(|i| slot(direction, records + i)).collect();
        slots[place][..2].copy_from_slice(&fault);
        let (runs, total) = with_total(&slots);
        list_of(batch, direction, &runs, &[total]);
    }
}
