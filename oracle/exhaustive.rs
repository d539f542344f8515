//! Every case that can be listed: each byte for each one-byte reader and setter, each pair of bytes for each two-byte payload, each
//! argument of each setter on several images, each index around the widths, each stream of at most two bytes, each cut of each
//! command, and each fault of a record.

use crate::batch::Batch;
use crate::build::{run, MOST_RECORDS};
use crate::case::two;
use crate::creators::{self, script, Argument, Call, DEFAULT, MOST_CALLS, NEW};
use crate::entries::{self, calls_of, of, record_of, walk_of};
use crate::examples::indexed;
use crate::table::{self, Command, Direction, COMMANDS, DIRECTIONS};
use crate::walk::to_beyond_the_end;

const BACKGROUNDS: [u8; 4] = [0x00, 0xFF, 0x5A, 0x03];

pub fn all(batch: &mut Batch) {
    fields(batch);
    payloads(batch);
    masks::<2>(batch, entries::MASK_2);
    masks::<9>(batch, entries::MASK_9);
    streams(batch);
    creators(batch);
    lists(batch);
}

/// Each value of each byte, the others filled.
fn byte_by_byte(len: usize, mut ask: impl FnMut(&[u8])) {
    for fill in BACKGROUNDS {
        for place in 0..len {
            for value in 0..=255 {
                let mut bytes = vec![fill; len];
                bytes[place] = value;
                ask(&bytes);
            }
        }
    }
}

/// Bytes that differ from each other.
fn counted(len: usize) -> Vec<u8> {
    (0..len).map(|i| 0x11 * (i as u8 + 1)).collect()
}

/// Each length around the sizes, filled.
fn lengths(most: usize, mut ask: impl FnMut(&[u8])) {
    for len in 0..=most {
        for fill in BACKGROUNDS {
            ask(&vec![fill; len]);
        }
        ask(&counted(len));
    }
}

fn pairs(mut ask: impl FnMut([u8; 2])) {
    for n in 0..=u16::MAX {
        ask(n.to_be_bytes());
    }
}

fn fields(batch: &mut Batch) {
    for byte in 0..=255 {
        batch.ask(entries::DL_SETTINGS, &[byte]);
        batch.ask(entries::REDUNDANCY, &[byte]);
        batch.ask(entries::DATA_RATE_RANGE, &[byte]);
    }
    byte_by_byte(3, |bytes| batch.ask(entries::FREQUENCY, bytes));
    lengths(7, |bytes| {
        batch.ask(entries::FREQUENCY, bytes);
        if bytes.len() != 3 {
            batch.ask_left_behind(entries::FREQUENCY, bytes);
        }
    });
}

fn payloads(batch: &mut Batch) {
    for k in 0..COMMANDS {
        let number = of(entries::PAYLOAD, k);
        let size = table::len(k);
        lengths(7, |bytes| {
            batch.ask(number, bytes);
            if bytes.len() != size {
                batch.ask_left_behind(number, bytes);
            }
        });
        match size {
            1 => (0..=255).for_each(|byte| batch.ask(number, &[byte])),
            2 => pairs(|pair| batch.ask(number, &pair)),
            _ => byte_by_byte(size, |bytes| batch.ask(number, bytes)),
        }
        if table::name(k) == "LinkADRReq" {
            pairs(|[low, high]| batch.ask(number, &[0x5A, low, high, 0x61]));
        }
    }
}

/// No channel, all of them, every second, and each one by itself and alone missing.
fn mask_patterns<const N: usize>() -> Vec<[u8; N]> {
    let mut patterns = vec![[0x00; N], [0xFF; N], [0x55; N], [0xAA; N], std::array::from_fn(|i| 0x11 * (i as u8 + 1))];
    for channel in 0..8 * N {
        let mut one = [0; N];
        one[channel / 8] = 1 << (channel % 8);
        patterns.push(one);
        patterns.push(one.map(|b| !b));
    }
    patterns
}

/// Each index to some way past the end, and those where a product or a shift would wrap.
fn indices(end: usize) -> Vec<usize> {
    let far = [255, 256, 65_535, 65_536, 1 << 32, 1 << 61, (1 << 61) + 1, usize::MAX / 8, usize::MAX - 7, usize::MAX];
    (0..end + 18).chain(far).collect()
}

fn masks<const N: usize>(batch: &mut Batch, base: u8) {
    batch.ask(base + entries::DEFAULT, &[]);
    lengths(N + 3, |bytes| {
        batch.ask(base + entries::NEW, bytes);
        if bytes.len() < N {
            // The unchecked constructor takes a longer slice as `new` does.
            batch.ask_left_behind(base + entries::NEW, bytes);
        }
    });
    let patterns = mask_patterns::<N>();
    for mask in &patterns {
        batch.ask(base + entries::FROM, mask);
        batch.ask(base + entries::STATUSES, mask);
        for channel in indices(8 * N) {
            batch.ask(base + entries::IS_ENABLED, &indexed(mask, channel, &[]));
            batch.ask(base + entries::SET_CHANNEL, &indexed(mask, channel, &[0]));
            batch.ask(base + entries::SET_CHANNEL, &indexed(mask, channel, &[1]));
        }
        for bank in indices(N) {
            batch.ask(base + entries::GET_INDEX, &indexed(mask, bank, &[]));
        }
    }
    for mask in &patterns[..5] {
        batch.ask_left_behind(base + entries::STATUSES, mask);
        for bank in indices(N) {
            let values: &[u8] = if bank < N { &EVERY_BYTE } else { &BACKGROUNDS };
            for value in values {
                batch.ask(base + entries::SET_BANK, &indexed(mask, bank, &[*value]));
            }
        }
    }
    if N == 2 {
        pairs(|mask| batch.ask(base + entries::STATUSES, &mask));
    }
}

const EVERY_BYTE: [u8; 256] = {
    let mut bytes = [0; 256];
    let mut i = 0;
    while i < 256 {
        bytes[i] = i as u8;
        i += 1;
    }
    bytes
};

/// A whole command, its payload bytes filled.
fn whole(k: Command, fill: u8) -> Vec<u8> {
    let mut bytes = vec![fill; 1 + table::len(k)];
    bytes[0] = table::cid(k);
    bytes
}

fn streams(batch: &mut Batch) {
    for direction in DIRECTIONS {
        let mut ask = |stream: &[u8]| {
            batch.ask(walk_of(direction), stream);
            batch.ask(calls_of(direction), &to_beyond_the_end(direction, stream));
        };
        ask(&[]);
        (0..=255).for_each(|byte| ask(&[byte]));
        pairs(|pair| ask(&pair));
        // Each byte as a command cut at each place, and with bytes after it, alone and behind each command.
        let mut fronts = vec![vec![]];
        fronts.extend(direction.commands().map(|k| whole(k, 0x07)));
        for front in &fronts {
            for cid in 0..=255 {
                let known = direction.payload_len(cid).is_some();
                let fills = if known { &BACKGROUNDS[..] } else { &BACKGROUNDS[3..] };
                for fill in fills {
                    for cut in 0..=7 {
                        ask(&[&front[..], &[cid], &vec![*fill; cut]].concat());
                    }
                }
            }
        }
        // Each byte behind each pair of commands.
        for first in direction.commands() {
            for second in direction.commands() {
                let front = [whole(first, 0x81), whole(second, 0x0D)].concat();
                ask(&front);
                (0..=255).for_each(|byte| ask(&[&front[..], &[byte]].concat()));
            }
        }
        // Each command as a record.
        for k in direction.commands() {
            batch.ask(record_of(direction), &whole(k, 0x07));
            byte_by_byte(table::len(k), |payload| batch.ask(record_of(direction), &[&[table::cid(k)], payload].concat()));
        }
    }
}

/// Each argument of a kind, where they can be listed, else those around the corners.
fn arguments(kind: Argument) -> Vec<[u8; 4]> {
    let byte = |b: u8| [0, 0, 0, b];
    match kind {
        Argument::Nothing => vec![[0; 4]],
        Argument::Flag => vec![byte(0), byte(1)],
        Argument::Byte | Argument::Signed => (0..=255).map(byte).collect(),
        Argument::Mask => {
            let mut list = Vec::new();
            byte_by_byte(2, |m| list.push([0, 0, m[0], m[1]]));
            list
        }
        Argument::Frequency => {
            let mut list = Vec::new();
            byte_by_byte(3, |f| list.push([0, f[0], f[1], f[2]]));
            list
        }
        Argument::Seconds => {
            let mut list = vec![16_909_060u32.to_be_bytes()];
            byte_by_byte(4, |s| list.push(s.try_into().expect("four bytes")));
            list
        }
        Argument::Nanoseconds => {
            let steps = (0..=257u32).map(|n| n * 3_906_250);
            let around = steps.flat_map(|n| [n.wrapping_sub(1), n, n + 1]);
            let corners = [999_999_999, 1_000_000_000, 1_000_000_001, 1 << 31, u32::MAX - 1, u32::MAX];
            around.chain(corners).map(u32::to_be_bytes).collect()
        }
    }
}

/// The largest argument of a kind that is accepted, and another.
fn prepared(kind: Argument) -> [[u8; 4]; 2] {
    match kind {
        Argument::Nothing => [[0; 4]; 2],
        Argument::Flag => [[0, 0, 0, 1], [0; 4]],
        Argument::Byte => [[0, 0, 0, 15], [0, 0, 0, 10]],
        Argument::Signed => [[0, 0, 0, 0xFF], [0, 0, 0, 21]],
        Argument::Mask | Argument::Frequency | Argument::Seconds => [[0xFF; 4], [0x12, 0x34, 0x56, 0x78]],
        Argument::Nanoseconds => [999_999_999u32.to_be_bytes(), 250_000_000u32.to_be_bytes()],
    }
}

/// What is set before the setter under test: nothing, every other field to its largest, this field and two others.
fn preparations(setters: &[Argument], tested: usize) -> Vec<Vec<Call>> {
    let call = |i: usize, which: usize| Call(i as u8 + 1, prepared(setters[i])[which]);
    let others: Vec<usize> = (0..setters.len()).filter(|i| *i != tested).collect();
    let largest = others.iter().map(|i| call(*i, 0)).collect();
    let mixed = std::iter::once(call(tested, 0)).chain(others.iter().take(MOST_CALLS - 2).map(|i| call(*i, 1))).collect();
    vec![vec![], largest, mixed]
}

fn creators(batch: &mut Batch) {
    for k in 0..COMMANDS {
        let setters = creators::ALL[k].setters;
        let creator = of(entries::CREATOR, k);
        for start in [NEW, DEFAULT] {
            batch.ask(creator, &script(start, &[]));
            for (i, kind) in setters.iter().enumerate() {
                for before in preparations(setters, i) {
                    let with = |argument: &[u8; 4]| script(start, &[&before[..], &[Call(i as u8 + 1, *argument)]].concat());
                    arguments(*kind).iter().for_each(|a| batch.ask(creator, &with(a)));
                }
            }
        }
    }
    // Every mask of LinkADRReq.
    let link_adr_req = 2;
    pairs(|[low, high]| batch.ask(of(entries::CREATOR, link_adr_req), &script(NEW, &[Call(3, [0, 0, low, high])])));
}

/// A slot, its payload bytes counted up and its eighth byte not 0.
fn slot(cid: u8, len: u8) -> [u8; 8] {
    [cid, len, 0x11, 0x22, 0x33, 0x44, 0x55, 0x66]
}

/// The length of a list of packed records, and its building into a buffer one short, exact and longer.
fn list(batch: &mut Batch, direction: Direction, runs: &[u8], total: usize) {
    list_by(batch, [entries::LIST_LEN, entries::BUILD], direction, runs, total);
}

/// The same of four record structs.
fn four(batch: &mut Batch, direction: Direction, slots: [&[u8; 8]; 4]) {
    let runs = slots.map(|slot| run(1, slot)).concat();
    let total = slots.iter().map(|slot| 1 + usize::from(slot[1])).sum();
    list_by(batch, [entries::RECORDS_LEN, entries::BUILD_RECORDS], direction, &runs, total);
}

fn list_by(batch: &mut Batch, [len, build]: [u8; 2], direction: Direction, runs: &[u8], total: usize) {
    let direction = direction.number();
    batch.ask(len, &[&[direction], runs].concat());
    let mut rooms = vec![total, total + 1, total + 3];
    rooms.extend(total.checked_sub(1));
    for room in rooms {
        batch.ask(build, &[&[direction], &two(room)[..], &[0xEE], runs].concat());
    }
}

fn lists(batch: &mut Batch) {
    for direction in DIRECTIONS {
        list(batch, direction, &[], 0);
        // Each byte as a CID, with each length around the table's.
        for cid in 0..=255 {
            for len in [0, 1, 2, 3, 4, 5, 6, 7, 255] {
                let one = slot(cid, len);
                list(batch, direction, &run(1, &one), 1 + usize::from(len));
                // And at a place of four.
                let good = slot(0x03, direction.payload_len(0x03).expect("a command") as u8);
                let mut slots = [&good; 4];
                slots[usize::from(cid ^ len) % 4] = &one;
                four(batch, direction, slots);
            }
        }
        // Each pair of commands, those of the other direction too, and an unset one.
        let mut slots: Vec<[u8; 8]> = (0..COMMANDS).map(|k| slot(table::cid(k), table::len(k) as u8)).collect();
        slots.push(slot(0, 1));
        for first in &slots {
            for second in &slots {
                let total = 2 + usize::from(first[1]) + usize::from(second[1]);
                list(batch, direction, &[run(1, first), run(1, second)].concat(), total);
                four(batch, direction, [first, second, second, first]);
            }
        }
        // Lists around the longest, of each command and with a fault at either end.
        for k in direction.commands() {
            let each = 1 + table::len(k);
            let good = slot(table::cid(k), table::len(k) as u8);
            for times in [MOST_RECORDS, MOST_RECORDS + 1] {
                list(batch, direction, &run(times, &good), times * each);
            }
        }
        let good = slot(0x06, table::len(8 + usize::from(direction.number())) as u8);
        let each = 1 + usize::from(good[1]);
        for bad in [slot(0x80, 0), slot(0x06, 5), slot(0, 1)] {
            let fault = 1 + usize::from(bad[1]);
            for times in [MOST_RECORDS - 1, MOST_RECORDS] {
                list(batch, direction, &[run(times, &good), run(1, &bad)].concat(), times * each + fault);
                list(batch, direction, &[run(1, &bad), run(times, &good)].concat(), times * each + fault);
            }
        }
    }
    // The smallest of the classes that come with a list: all bytes 0 but those that matter.
    for cid in [0, 2] {
        batch.ask(entries::LIST_LEN, &[&[0], &run(1, &[cid, 0, 0, 0, 0, 0, 0, 0])[..]].concat());
    }
    batch.ask(entries::LIST_LEN, &[&[0], &run(MOST_RECORDS + 1, &[0; 8])[..]].concat());
    batch.ask(entries::BUILD, &[&[0, 0, 0, 0], &run(1, &[0; 8])[..]].concat());
    batch.ask(entries::BUILD, &[&[0, 0, 7, 0], &run(1, &[0, 6, 0, 0, 0, 0, 0, 0])[..]].concat());
}
