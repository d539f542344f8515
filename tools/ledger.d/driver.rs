//! Asks the port's ledger of cases: the crate `timed_ledger`, linked as an archive. A case is a line of standard input: how many numbers the lent
//! list has, and the text in hex. The answer is a line of numbers: verdict, line, lines taken, entries listed; then of each setting its parts, and one
//! that is none; then the list's memory, up to the last number that was written.

use std::io::{stdin, stdout, BufRead, BufWriter, Result, Write};

extern "C" {
    fn nazhdivar_ledger(text: *const u8, len: usize, list: *mut u64, room: usize, setting: u8, channel: u8, part: u8) -> u64;
}

/// What stands in the list's memory before.
const UNTOUCHED: u64 = 0xA5A5_A5A5_A5A5_A5A5;

/// The parts of a replay, and those of a setting.
const REPLAY: std::ops::Range<u8> = 0..4;
const SETTING: std::ops::Range<u8> = 4..11;

/// One part of a setting, and the list then.
fn told(text: &[u8], room: usize, setting: u8, channel: u8, part: u8) -> (u64, Vec<u64>) {
    let mut list = vec![UNTOUCHED; room];
    let number = unsafe { nazhdivar_ledger(text.as_ptr(), text.len(), list.as_mut_ptr(), room, setting, channel, part) };
    (number, list)
}

/// Each setting by its number and channel, with a channel that is not held, and with what is no setting.
fn settings() -> impl Iterator<Item = (u8, u8)> {
    let radio = (0..12).map(|setting| (setting, 0));
    let channels = (12..15).flat_map(|setting| (0..17).map(move |channel| (setting, channel)));
    radio.chain(channels).chain([(15, 0)])
}

fn bytes(hex: &str) -> Vec<u8> {
    (0..hex.len() / 2).map(|at| u8::from_str_radix(&hex[2 * at..2 * at + 2], 16).expect("hex")).collect()
}

fn answer(case: &str, out: &mut impl Write) -> Result<()> {
    let (room, text) = case.split_once(' ').expect("two fields");
    let (room, text) = (room.parse().expect("a number"), bytes(text));
    let (_, list) = told(&text, room, 0, 0, 0);
    let replay = REPLAY.map(|part| (0, 0, part));
    let parts = settings().flat_map(|(setting, channel)| SETTING.map(move |part| (setting, channel, part)));
    for (setting, channel, part) in replay.chain(parts) {
        let (number, same) = told(&text, room, setting, channel, part);
        assert!(list == same, "what is asked changes the list");
        write!(out, "{number} ")?;
    }
    let written = list.iter().rposition(|&number| number != UNTOUCHED).map_or(0, |last| last + 1);
    let list: Vec<String> = list[..written].iter().map(u64::to_string).collect();
    writeln!(out, "{}", list.join(" "))
}

fn main() -> Result<()> {
    let mut out = BufWriter::new(stdout().lock());
    for case in stdin().lock().lines() {
        answer(&case?, &mut out)?;
    }
    out.flush()
}
