//! The walk over a stream.
//!
//! Input: the stream. Answer: the number of commands (two bytes), how the walk ended (0 at the end, 1 at an unknown byte, 2 at a
//! payload cut short) and where (two bytes); then for each command its offset (two bytes), CID, `uplink`, `len` and `bytes`.
//!
//! An iterator's calls. Input: how many (two bytes), and the stream. Answer, for each call: 3 and a command's CID, length and the index
//! behind it (two bytes); 0 and four zeros at the end; 1 or 2, two zeros and the offset (two bytes) at a stop.
//!
//! The original's iterator says None for every ending. Which it is follows from what is left of the stream.
//!
//! A command as a record. Input: a stream that begins with the command. Answer: CID, the payload's length and the payload.

use crate::case::{caught, two, Case, Judged, Original};
use crate::classes;
use crate::creators::as_record;
use crate::maccommands::{
    parse_downlink_mac_commands, parse_uplink_mac_commands, DownlinkMacCommand, MacCommandIterator, SerializableMacCommand,
    UplinkMacCommand,
};
use crate::mended;
use crate::table::{self, Direction};

/// What both command enums answer beside `SerializableMacCommand`.
trait Command: SerializableMacCommand {
    fn uplink(&self) -> bool;
    fn len(&self) -> usize;
    fn bytes(&self) -> &[u8];
}

macro_rules! command {
    ($type:ident) => {
        impl Command for $type<'_> {
            fn uplink(&self) -> bool {
                $type::uplink(self)
            }

            fn len(&self) -> usize {
                $type::len(self)
            }

            fn bytes(&self) -> &[u8] {
                $type::bytes(self)
            }
        }
    };
}

command!(DownlinkMacCommand);
command!(UplinkMacCommand);

/// What the port and the original tell of the commands that a walk has handed out: the same, but for the flag of DevStatusAns.
#[derive(Default)]
struct List {
    port: Vec<u8>,
    original: Vec<u8>,
}

impl List {
    fn add(&mut self, at: usize, command: &impl Command) -> Result<(), String> {
        let (cid, len, said) = (command.cid(), command.len(), command.uplink());
        let known = table::find(cid, len).ok_or("a command that the table has not")?;
        for (list, flag) in [(&mut self.port, mended::uplink(known, said)?), (&mut self.original, said)] {
            list.extend(two(at));
            list.extend([cid, u8::from(flag), len as u8]);
            list.extend(command.bytes());
        }
        Ok(())
    }
}

pub fn down(input: &[u8]) -> Judged {
    walk(Direction::Down, input, parse_downlink_mac_commands(input))
}

pub fn up(input: &[u8]) -> Judged {
    walk(Direction::Up, input, parse_uplink_mac_commands(input))
}

fn walk<'a, C: Command>(direction: Direction, stream: &[u8], mut commands: MacCommandIterator<'a, C>) -> Judged
where
    MacCommandIterator<'a, C>: Iterator<Item = C>,
{
    let mut count = 0;
    let mut list = List::default();
    loop {
        let at = commands.index;
        let command = match caught(|| commands.next()) {
            Some(Some(command)) => command,
            Some(None) => {
                if commands.index != at || commands.next().is_some() {
                    return Err("the iterator moves on after None".to_string());
                }
                return ended(direction, stream, at, count, &list);
            }
            None => return stopped_by_panic(direction, stream, at, count, &list),
        };
        if command.payload_bytes() != command.bytes() || command.payload_len() != command.len() {
            return Err("a command's record is not its bytes".to_string());
        }
        count += 1;
        list.add(at, &command)?;
    }
}

fn told(count: usize, reason: u8, at: usize) -> Vec<u8> {
    [&two(count)[..], &[reason], &two(at)].concat()
}

/// What the port says where the iterator's `next` gives None at an offset: the reason, and the class where it is one.
fn none_at(direction: Direction, stream: &[u8], at: usize) -> Result<(u8, Option<u8>), String> {
    let rest = &stream[at..];
    match rest.first().map(|cid| direction.payload_len(*cid)) {
        None => Ok((0, None)),
        Some(None) => Ok((1, Some(classes::UNKNOWN_BYTE))),
        Some(Some(len)) if rest.len() < len => Ok((2, Some(classes::CUT_SHORT))),
        Some(Some(_)) => Err("None at a command that is there".to_string()),
    }
}

/// A panic of `next` at an offset is of the class that lists it.
fn panic_at(direction: Direction, stream: &[u8], at: usize) -> Result<(), String> {
    let rest = &stream[at..];
    match rest.first().and_then(|cid| direction.payload_len(*cid)) {
        Some(len) if len == rest.len() => Ok(()),
        _ => Err("a panic where no sized command lacks just its last byte".to_string()),
    }
}

/// A line has one class: that of its ending, and where its ending is of none, that of the flags.
fn ended(direction: Direction, stream: &[u8], at: usize, count: usize, list: &List) -> Judged {
    let (reason, class) = none_at(direction, stream, at)?;
    let answer = [&told(count, reason, at)[..], &list.port].concat();
    match class {
        None => Case::beside(answer, [&told(count, 0, at)[..], &list.original].concat(), classes::FLAG_DOWN),
        Some(class) => Ok(Case { answer, original: Original::Said(class, told(count, 0, at)) }),
    }
}

fn stopped_by_panic(direction: Direction, stream: &[u8], at: usize, count: usize, list: &List) -> Judged {
    panic_at(direction, stream, at)?;
    let answer = [&told(count, 2, at)[..], &list.port].concat();
    Ok(Case { answer, original: Original::Panicked(classes::CUT_EXACT) })
}

pub fn calls_down(input: &[u8]) -> Judged {
    calls(Direction::Down, input, parse_downlink_mac_commands(&input[2..]))
}

pub fn calls_up(input: &[u8]) -> Judged {
    calls(Direction::Up, input, parse_uplink_mac_commands(&input[2..]))
}

/// A call that hands out no command: at the end, or at a stop.
fn told_stop(reason: u8, at: usize) -> Vec<u8> {
    match reason {
        0 => vec![0; 5],
        _ => [&[reason, 0, 0][..], &two(at)].concat(),
    }
}

fn calls<'a, C: Command>(direction: Direction, input: &[u8], mut commands: MacCommandIterator<'a, C>) -> Judged
where
    MacCommandIterator<'a, C>: Iterator<Item = C>,
{
    let count = usize::from(u16::from_be_bytes([input[0], input[1]]));
    let stream = &input[2..];
    let (mut answer, mut said, mut class) = (Vec::new(), Vec::new(), None);
    for call in 0..count {
        let at = commands.index;
        match caught(|| commands.next()) {
            Some(Some(command)) => {
                let handed = [&[3, command.cid(), command.len() as u8][..], &two(commands.index)].concat();
                answer.extend(&handed);
                said.extend(&handed);
            }
            Some(None) if commands.index != at => return Err("the iterator moves on after None".to_string()),
            Some(None) => {
                let (reason, its_class) = none_at(direction, stream, at)?;
                answer.extend(told_stop(reason, at));
                said.extend(told_stop(0, at));
                class = its_class;
            }
            // The original has moved past the stream: it can't be asked again.
            None => {
                panic_at(direction, stream, at)?;
                (call..count).for_each(|_| answer.extend(told_stop(2, at)));
                return Ok(Case { answer, original: Original::Panicked(classes::CUT_EXACT) });
            }
        }
    }
    match class {
        None => Case::agreed(answer),
        Some(class) => Ok(Case { answer, original: Original::Said(class, said) }),
    }
}

/// The input of an iterator's calls on a stream, as many as hand out its commands and three beyond.
pub fn to_beyond_the_end(direction: Direction, stream: &[u8]) -> Vec<u8> {
    let (mut at, mut count) = (0, 0);
    while let Some(len) = stream.get(at).and_then(|cid| direction.payload_len(*cid)) {
        if at + len >= stream.len() {
            break;
        }
        at += 1 + len;
        count += 1;
    }
    [&two(count + 3), stream].concat()
}

pub fn record_down(input: &[u8]) -> Judged {
    let command = parse_downlink_mac_commands(input).next().ok_or("no command")?;
    Case::agreed(as_record(&command))
}

pub fn record_up(input: &[u8]) -> Judged {
    let command = parse_uplink_mac_commands(input).next().ok_or("no command")?;
    Case::agreed(as_record(&command))
}
