//! Batches by chance, from a seed.

use crate::batch::Batch;
use crate::build::run;
use crate::case::two;
use crate::creators::{self, script, Argument, Call, DEFAULT, MOST_CALLS, NEW};
use crate::entries::{self, calls_of, of, record_of, walk_of};
use crate::examples::indexed;
use crate::rng::Rng;
use crate::table::{self, Direction, COMMANDS, DIRECTIONS};
use crate::walk::to_beyond_the_end;

/// The given number of streams at least, and in proportion every other kind of input.
pub fn streams_and_others(batch: &mut Batch, seed: u64, count: usize) {
    batch.comment(&format!("seed {seed}"));
    let mut rng = Rng::new(seed);
    let mut asked = 0;
    while asked < count {
        asked += streams(batch, &mut rng);
        if rng.once_in(3) {
            list(batch, &mut rng);
            small(batch, &mut rng);
        }
    }
    for _ in 0..count / 1000 {
        let length = 186 + rng.below(500);
        long_streams(batch, &mut rng, length);
    }
}

/// How long a stream is: mostly as in FOpts, often as in a frame, seldom longer.
fn room(rng: &mut Rng) -> usize {
    match rng.below(64) {
        0 => rng.below(2000),
        1..=3 => rng.below(243),
        4..=20 => rng.below(60),
        _ => rng.below(16),
    }
}

/// What the payloads of a stream are made of.
#[derive(Clone, Copy)]
enum Payloads {
    Any,
    /// CIDs of the direction, so that commands seem to stand where none does.
    Cids,
}

/// Whole commands of a direction, as many as fit.
fn commands(rng: &mut Rng, direction: Direction, room: usize, payloads: Payloads) -> Vec<u8> {
    let all: Vec<_> = direction.commands().collect();
    let mut stream = Vec::new();
    loop {
        let k = rng.pick(&all);
        if stream.len() + 1 + table::len(k) > room {
            return stream;
        }
        stream.push(table::cid(k));
        for _ in 0..table::len(k) {
            stream.push(match payloads {
                Payloads::Any => rng.byte(),
                Payloads::Cids => table::cid(rng.pick(&all)),
            });
        }
    }
}

/// The walk over a stream, and now and then the iterator over one that is not long.
fn stream(batch: &mut Batch, rng: &mut Rng, direction: Direction, stream: &[u8]) {
    batch.ask(walk_of(direction), stream);
    if stream.len() < 100 && rng.once_in(4) {
        batch.ask(calls_of(direction), &to_beyond_the_end(direction, stream));
    }
}

/// Streams of each direction that are long enough to be walked in more than one place at once: whole, cut, and with a byte damaged; and
/// one of the longest command's CID alone, in which a command seems to stand at each byte.
pub fn long_streams(batch: &mut Batch, rng: &mut Rng, length: usize) {
    for direction in DIRECTIONS {
        let longest = direction.commands().max_by_key(|k| table::len(*k)).expect("a direction has commands");
        batch.ask(walk_of(direction), &vec![table::cid(longest); length]);
        for payloads in [Payloads::Any, Payloads::Cids] {
            let mut stream = commands(rng, direction, length, payloads);
            batch.ask(walk_of(direction), &stream);
            batch.ask(walk_of(direction), &stream[..rng.below(stream.len())]);
            let at = rng.below(stream.len());
            stream[at] = rng.byte();
            batch.ask(walk_of(direction), &stream);
        }
    }
}

/// Streams of one kind; how many.
fn streams(batch: &mut Batch, rng: &mut Rng) -> usize {
    let direction = rng.pick(&DIRECTIONS);
    let length = room(rng);
    let mut bytes = commands(rng, direction, length, Payloads::Any);
    match rng.below(8) {
        // As it is.
        0 | 1 => stream(batch, rng, direction, &bytes),
        // Cut at every place of a short one, at one of a long one.
        2 | 3 if bytes.len() < 60 => {
            for cut in 0..=bytes.len() {
                stream(batch, rng, direction, &bytes[..cut]);
            }
            return bytes.len() + 1;
        }
        2 | 3 => {
            let cut = rng.below(bytes.len());
            stream(batch, rng, direction, &bytes[..cut]);
        }
        // One byte damaged.
        4 | 5 => {
            if !bytes.is_empty() {
                let at = rng.below(bytes.len());
                bytes[at] = rng.byte();
            }
            stream(batch, rng, direction, &bytes);
        }
        // Two joined, the first of either direction and perhaps cut.
        6 => {
            let other = rng.pick(&DIRECTIONS);
            let length = room(rng);
            let mut front = commands(rng, other, length, Payloads::Any);
            if rng.once_in(2) {
                front.truncate(rng.below(front.len() + 1));
            }
            front.extend(&bytes);
            stream(batch, rng, direction, &front);
        }
        // Any bytes, small ones more often: those are the CIDs.
        _ => {
            let length = room(rng);
            let bytes: Vec<u8> = (0..length).map(|_| if rng.once_in(4) { rng.byte() } else { rng.byte() % 16 }).collect();
            stream(batch, rng, direction, &bytes);
        }
    }
    1
}

/// A slot of a command of the direction, or one with something wrong.
fn slot(rng: &mut Rng, direction: Direction, wrong: bool) -> [u8; 8] {
    let mut slot: [u8; 8] = rng.bytes(8).try_into().expect("eight bytes");
    let k = if wrong { rng.below(COMMANDS) } else { 2 * rng.below(COMMANDS / 2) + usize::from(direction.number()) };
    slot[0] = table::cid(k);
    slot[1] = table::len(k) as u8;
    if wrong {
        match rng.below(4) {
            0 => slot[0] = rng.byte(),
            1 => slot[1] = rng.byte() % 9,
            2 => slot[0] = 0,
            // It stays a command, perhaps of the other direction.
            _ => {}
        }
    }
    slot
}

/// A list of at most 64 records, or of four record structs: its length, and its building into buffers one short, exact and longer.
fn list(batch: &mut Batch, rng: &mut Rng) {
    let direction = rng.pick(&DIRECTIONS);
    let most = if rng.once_in(4) { 65 } else { 9 };
    let structs = rng.once_in(3);
    let records = if structs { 4 } else { rng.below(most) };
    let [len, build] = if structs { [entries::RECORDS_LEN, entries::BUILD_RECORDS] } else { [entries::LIST_LEN, entries::BUILD] };
    let faults = rng.once_in(3);
    let mut runs = Vec::new();
    let mut total = 0;
    for _ in 0..records {
        let wrong = faults && rng.once_in(records);
        let slot = slot(rng, direction, wrong);
        runs.extend(run(1, &slot));
        total += 1 + usize::from(slot[1]);
    }
    let head = direction.number();
    batch.ask(len, &[&[head], &runs[..]].concat());
    let longer = total + 1 + rng.below(9);
    let rooms = [total.checked_sub(1), Some(total), Some(longer)];
    for room in rooms.into_iter().flatten() {
        batch.ask(build, &[&[head], &two(room)[..], &[rng.byte()], &runs].concat());
    }
}

/// One input for each of the other kinds.
fn small(batch: &mut Batch, rng: &mut Rng) {
    mask::<2>(batch, rng, entries::MASK_2);
    mask::<9>(batch, rng, entries::MASK_9);
    let frequency = rng.bytes(3);
    batch.ask(entries::FREQUENCY, &frequency);
    let k = rng.below(COMMANDS);
    let length = if rng.once_in(8) { rng.below(8) } else { table::len(k) };
    let payload = rng.bytes(length);
    batch.ask(of(entries::PAYLOAD, k), &payload);
    if length == table::len(k) {
        batch.ask(record_of(table::direction(k)), &[&[table::cid(k)], &payload[..]].concat());
    }
    creator(batch, rng);
}

fn mask<const N: usize>(batch: &mut Batch, rng: &mut Rng, base: u8) {
    let mask = rng.bytes(N);
    let any = rng.next() as usize;
    let channel = if rng.once_in(8) { any } else { rng.below(8 * N + 8) };
    let bank = if rng.once_in(8) { any } else { rng.below(N + 2) };
    let value = rng.byte();
    match rng.below(6) {
        0 => batch.ask(base + entries::IS_ENABLED, &indexed(&mask, channel, &[])),
        1 => batch.ask(base + entries::GET_INDEX, &indexed(&mask, bank, &[])),
        2 => batch.ask(base + entries::SET_BANK, &indexed(&mask, bank, &[value])),
        3 => batch.ask(base + entries::SET_CHANNEL, &indexed(&mask, channel, &[value & 1])),
        4 => batch.ask(base + entries::STATUSES, &mask),
        _ => {
            let length = rng.below(N + 4);
            let bytes = rng.bytes(length);
            batch.ask(base + entries::NEW, &bytes);
        }
    }
}

/// A creator and some calls of its setters, refused ones among them.
fn creator(batch: &mut Batch, rng: &mut Rng) {
    // The times are drawn more often than the other commands.
    let device_time_ans = COMMANDS - 2;
    let k = if rng.once_in(4) { device_time_ans } else { rng.below(COMMANDS) };
    let setters = creators::ALL[k].setters;
    let mut calls = Vec::new();
    if !setters.is_empty() {
        for _ in 0..rng.below(MOST_CALLS + 1) {
            let i = rng.below(setters.len());
            calls.push(Call(i as u8 + 1, argument(rng, setters[i])));
        }
    }
    batch.ask(of(entries::CREATOR, k), &script(rng.pick(&[NEW, NEW, DEFAULT]), &calls));
}

fn argument(rng: &mut Rng, kind: Argument) -> [u8; 4] {
    let any = rng.next() as u32;
    match kind {
        Argument::Nothing => [0; 4],
        Argument::Flag => [0, 0, 0, rng.byte() & 1],
        Argument::Byte if rng.once_in(2) => [0, 0, 0, rng.byte() % 18],
        Argument::Byte | Argument::Signed => [0, 0, 0, rng.byte()],
        Argument::Mask => [0, 0, rng.byte(), rng.byte()],
        Argument::Frequency => [0, rng.byte(), rng.byte(), rng.byte()],
        Argument::Nanoseconds if !rng.once_in(4) => (any % 1_000_000_002).to_be_bytes(),
        Argument::Seconds | Argument::Nanoseconds => any.to_be_bytes(),
    }
}
