//! `mac_commands_len` and `build_mac_commands`.
//!
//! A list of records is given as runs: how often (two bytes), then the slot of eight bytes: CID, length, five
//! payload bytes and one that is ignored.
//!
//! `mac_commands_len`: the direction (0 down, 1 up), then the runs. Answer: the verdict, and four bytes: the total, or the place
//! of the record at fault for 1 and 3, or 0.
//! `build_mac_commands`: the direction, the buffer's length (two bytes), the byte that fills it, then the runs. Answer: the same,
//! then the buffer afterwards, all of it.
//!
//! The original takes trait objects. A record is handed to it in one of the forms that say the same: a plain record of our own, a
//! command that the iterator gave, a creator, or a creator in its enum.

use crate::case::{caught, four, Case, Judged, Original};
use crate::classes;
use crate::creators;
use crate::maccommandcreator::{build_mac_commands, Error};
use crate::maccommands::{mac_commands_len, parse_downlink_mac_commands, parse_uplink_mac_commands, SerializableMacCommand};
use crate::rng::Rng;
use crate::table::{self, Direction, COMMANDS};

pub const MOST_RECORDS: usize = 4096;
const SLOT: usize = 8;
const MOST_BYTES: usize = 5;

/// A record in no form of the original's. One whose length is over five has still only five bytes.
#[derive(Clone, Copy)]
struct Plain {
    cid: u8,
    len: usize,
    bytes: [u8; MOST_BYTES],
}

impl SerializableMacCommand for Plain {
    fn payload_bytes(&self) -> &[u8] {
        &self.bytes[..self.len.min(MOST_BYTES)]
    }

    fn cid(&self) -> u8 {
        self.cid
    }

    fn payload_len(&self) -> usize {
        self.len
    }
}

fn records(runs: &[u8]) -> Vec<Plain> {
    let mut list = Vec::new();
    for run in runs.chunks(2 + SLOT) {
        let times = u16::from_be_bytes([run[0], run[1]]);
        let record = Plain { cid: run[2], len: usize::from(run[3]), bytes: run[4..9].try_into().expect("five bytes") };
        list.extend((0..times).map(|_| record));
    }
    list
}

/// One run of the input.
pub fn run(times: usize, slot: &[u8; SLOT]) -> Vec<u8> {
    [&crate::case::two(times)[..], slot].concat()
}

/// A form of the record that the original has, where there is one; the choice is the generator's.
fn in_form<'a>(plain: &'a Plain, image: &'a [u8], rng: &mut Rng) -> Box<dyn SerializableMacCommand + 'a> {
    let payload = &image[1..];
    if let Some(k) = table::find(plain.cid, plain.len) {
        let made: Option<Box<dyn SerializableMacCommand>> = match rng.below(4) {
            0 => (creators::ALL[k].record)(creators::NEW, payload),
            1 => (creators::ALL[k].typed_record)(creators::NEW, payload),
            2 => {
                return match table::direction(k) {
                    Direction::Down => Box::new(parse_downlink_mac_commands(image).next().expect("a command")),
                    Direction::Up => Box::new(parse_uplink_mac_commands(image).next().expect("a command")),
                };
            }
            _ => None,
        };
        if let Some(record) = made {
            return record;
        }
    }
    // An unset CID is what `default` of a sized creator leaves.
    if plain.cid == 0 && plain.len > 0 {
        let k = rng.below(COMMANDS);
        if table::len(k) == plain.len {
            if let Some(record) = (creators::ALL[k].record)(creators::DEFAULT, payload) {
                return record;
            }
        }
    }
    Box::new(*plain)
}

/// Calls `with` on the list in the original's terms.
fn with_forms<T>(list: &[Plain], input: &[u8], with: impl FnOnce(&[&dyn SerializableMacCommand]) -> T) -> Result<T, String> {
    // The same input has the same forms.
    let mut rng = Rng::new(input.iter().fold(0xCBF2_9CE4_8422_2325, |h, b| (h ^ u64::from(*b)).wrapping_mul(0x100_0000_01B3)));
    let images: Vec<Vec<u8>> = list.iter().map(|r| [&[r.cid], r.payload_bytes()].concat()).collect();
    let forms: Vec<_> = list.iter().zip(&images).map(|(r, image)| in_form(r, image, &mut rng)).collect();
    for (plain, form) in list.iter().zip(&forms) {
        if form.cid() != plain.cid || form.payload_len() != plain.len || form.payload_bytes() != plain.payload_bytes() {
            return Err("a form of a record does not say what the record says".to_string());
        }
    }
    let refs: Vec<&dyn SerializableMacCommand> = forms.iter().map(|f| f.as_ref()).collect();
    Ok(with(&refs))
}

/// The refusal that docs/RULES.md gives the list before any buffer is looked at (F5), and its class.
struct Fault {
    number: u8,
    place: usize,
    class: u8,
}

fn fault(direction: Direction, list: &[Plain]) -> Option<Fault> {
    if list.len() > MOST_RECORDS {
        return Some(Fault { number: 16, place: 0, class: classes::LONG_LIST });
    }
    list.iter().enumerate().find_map(|(place, r)| match direction.payload_len(r.cid) {
        None => Some(Fault { number: 1, place, class: classes::UNKNOWN_RECORD }),
        Some(len) if len != r.len => Some(Fault { number: 3, place, class: classes::MISSIZED_RECORD }),
        Some(_) => None,
    })
}

fn told(verdict: u8, number: usize) -> Vec<u8> {
    [&[verdict][..], &four(number)].concat()
}

pub fn list_len(input: &[u8]) -> Judged {
    let direction = Direction::from_number(input[0]);
    let list = records(&input[1..]);
    let total = with_forms(&list, input, mac_commands_len)?;
    if total != list.iter().map(|r| 1 + r.len).sum() {
        return Err("another length than the records' lengths and CIDs".to_string());
    }
    match fault(direction, &list) {
        None => Case::agreed(told(0, total)),
        Some(f) => Ok(Case { answer: told(f.number, f.place), original: Original::Said(f.class, told(0, total)) }),
    }
}

pub fn build(input: &[u8]) -> Judged {
    let direction = Direction::from_number(input[0]);
    let room = usize::from(u16::from_be_bytes([input[1], input[2]]));
    let before = vec![input[3]; room];
    let list = records(&input[4..]);
    let mut buffer = before.clone();
    let built = with_forms(&list, input, |refs| caught(|| build_mac_commands(refs, &mut buffer[..])))?;
    let total: usize = list.iter().map(|r| 1 + r.len).sum();
    let overstated = list.iter().any(|r| r.len > MOST_BYTES);
    let said = match built {
        Some(Ok(n)) if total <= room && !overstated && n == total => Some([&told(0, n), &buffer[..]].concat()),
        Some(Err(Error::BufferTooShort)) if total > room && buffer == before => Some([&told(4, 0), &buffer[..]].concat()),
        None if total <= room && overstated => None,
        _ => return Err("neither the total, BufferTooShort, nor a panic for an overstated length".to_string()),
    };
    let (fault, said) = match (fault(direction, &list), said) {
        (None, Some(said)) => return Case::agreed(said),
        (None, None) => return Err("an overstated length that the table has".to_string()),
        (Some(fault), said) => (fault, said),
    };
    let answer = [&told(fault.number, fault.place), &before[..]].concat();
    let original = match said {
        None => Original::Panicked(classes::OVERSTATED_RECORD),
        Some(said) if total > room => Original::Said(classes::SHORT_AS_WELL, said),
        Some(said) => Original::Said(fault.class, said),
    };
    Ok(Case { answer, original })
}
