//! `ChannelMask` at a width N.
//!
//! Where the input has a mask it comes first, N bytes; an index is a number in eight bytes.

use crate::case::{caught, Case, Judged, Original};
use crate::classes;
use crate::entries;
use crate::maccommands::{ChannelMask, Error};

type Judge = fn(&[u8]) -> Judged;

pub struct Judges {
    pub ported: Vec<(u8, &'static str, Judge)>,
    pub left_behind: Vec<(u8, &'static str, Judge)>,
}

/// The functions at a width N, with M its number of channels, and one fewer and one more.
pub fn judges<const N: usize, const M: usize, const FEWER: usize, const MORE: usize>() -> Judges {
    Judges {
        ported: vec![
            (entries::DEFAULT, "default", default::<N>),
            (entries::NEW, "new", new::<N>),
            (entries::FROM, "from", from::<N>),
            (entries::IS_ENABLED, "is_enabled", is_enabled::<N>),
            (entries::GET_INDEX, "get_index", get_index::<N>),
            (entries::SET_BANK, "set_bank", set_bank::<N>),
            (entries::SET_CHANNEL, "set_channel", set_channel::<N>),
            (entries::STATUSES, "statuses", statuses::<N, M>),
        ],
        left_behind: vec![
            (entries::NEW, "new_from_raw", raw::<N>),
            (entries::STATUSES, "statuses of one fewer", other_statuses::<N, M, FEWER>),
            (entries::STATUSES, "statuses of one more", other_statuses::<N, M, MORE>),
        ],
    }
}

/// The mask at the front of the input, and the rest.
fn mask<const N: usize>(input: &[u8]) -> (ChannelMask<N>, &[u8]) {
    let (front, rest) = input.split_at(N);
    let array: [u8; N] = front.try_into().expect("a mask of N bytes");
    (ChannelMask::from(array), rest)
}

/// The index at the front of the rest, and what follows.
fn index(rest: &[u8]) -> (usize, &[u8]) {
    let (front, rest) = rest.split_at(8);
    (u64::from_be_bytes(front.try_into().expect("an index of eight bytes")) as usize, rest)
}

/// Answer: the mask.
fn default<const N: usize>(_: &[u8]) -> Judged {
    Case::agreed(ChannelMask::<N>::default().as_ref().to_vec())
}

/// Input: the bytes. Answer: the verdict and, where it is accepted, the mask.
fn new<const N: usize>(input: &[u8]) -> Judged {
    match ChannelMask::<N>::new(input) {
        Err(Error::BufferTooShort) => Case::agreed(vec![4]),
        Err(_) => Err("another error than BufferTooShort".to_string()),
        Ok(m) => Case::agreed([&[0], m.as_ref()].concat()),
    }
}

/// The unchecked constructor on fewer bytes than the width.
fn raw<const N: usize>(input: &[u8]) -> Judged {
    match caught(|| ChannelMask::<N>::new_from_raw(input)) {
        None if input.len() < N => Ok(Case { answer: vec![4], original: Original::Panicked(classes::RAW_MASK) }),
        _ => Err("new_from_raw panics other than on fewer bytes than the width".to_string()),
    }
}

/// Input: the mask. Answer: `as_ref`.
fn from<const N: usize>(input: &[u8]) -> Judged {
    let (m, _) = mask::<N>(input);
    Case::agreed(m.as_ref().to_vec())
}

/// Input: the mask, the index. Answer: the verdict and, where it is accepted, whether the channel is on.
fn is_enabled<const N: usize>(input: &[u8]) -> Judged {
    let (m, rest) = mask::<N>(input);
    match m.is_enabled(index(rest).0) {
        Ok(on) => Case::agreed(vec![0, u8::from(on)]),
        Err(Error::InvalidIndex) => Case::agreed(vec![5]),
        Err(_) => Err("another error than InvalidIndex".to_string()),
    }
}

/// Input: the mask, the index. Answer: the verdict and, where it is accepted, the bank.
fn get_index<const N: usize>(input: &[u8]) -> Judged {
    let (m, rest) = mask::<N>(input);
    let (at, _) = index(rest);
    match caught(|| m.get_index(at)) {
        Some(bank) if at < N => Case::agreed(vec![0, bank]),
        None if at >= N => Ok(Case { answer: vec![5], original: Original::Panicked(classes::BANK_READ) }),
        _ => Err("get_index panics other than at or past the width".to_string()),
    }
}

/// Input: the mask, the index, the value. Answer: the verdict, and the mask afterwards.
fn set_bank<const N: usize>(input: &[u8]) -> Judged {
    let (mut m, rest) = mask::<N>(input);
    let (at, rest) = index(rest);
    let set = caught(|| m.set_bank(at, rest[0]));
    changed(set.is_some(), at < N, classes::BANK_SET, &input[..N], m.as_ref())
}

/// Input: the mask, the channel, 0 or 1. Answer: the verdict, and the mask afterwards.
fn set_channel<const N: usize>(input: &[u8]) -> Judged {
    let (mut m, rest) = mask::<N>(input);
    let (channel, rest) = index(rest);
    let set = caught(|| m.set_channel(channel, rest[0] != 0));
    changed(set.is_some(), channel < 8 * N, classes::CHANNEL_SET, &input[..N], m.as_ref())
}

/// A setter answers within the mask; past it, it panics before it has changed anything.
fn changed(answered: bool, within: bool, class: u8, before: &[u8], after: &[u8]) -> Judged {
    match (answered, within) {
        (true, true) => Case::agreed([&[0], after].concat()),
        (false, false) if before == after => Ok(Case { answer: [&[5], before].concat(), original: Original::Panicked(class) }),
        _ => Err("a setter panics within the mask, or answers or changes it past its end".to_string()),
    }
}

/// Input: the mask. Answer: a byte for each channel.
fn statuses<const N: usize, const M: usize>(input: &[u8]) -> Judged {
    let (m, _) = mask::<N>(input);
    Case::agreed(m.statuses::<M>().map(u8::from).to_vec())
}

/// The statuses of another length: the port gives M of them always.
fn other_statuses<const N: usize, const M: usize, const OTHER: usize>(input: &[u8]) -> Judged {
    let (m, _) = mask::<N>(input);
    let answer = m.statuses::<M>().map(u8::from).to_vec();
    let original = match caught(|| m.statuses::<OTHER>()) {
        None if OTHER > M => Original::Panicked(classes::OTHER_STATUSES),
        Some(said) if OTHER < M => Original::Said(classes::OTHER_STATUSES, said.map(u8::from).to_vec()),
        _ => return Err("statuses panics other than past the mask's end".to_string()),
    };
    Ok(Case { answer, original })
}
