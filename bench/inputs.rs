//! What both sides are given: streams of commands that a device is sent, and lists of such commands to be built.

use crate::rng::Rng;

/// Each CID, with the bytes of its payload.
const DOWN: [(u8, usize); 10] =
    [(0x02, 2), (0x03, 4), (0x04, 1), (0x05, 4), (0x06, 0), (0x07, 5), (0x08, 1), (0x09, 1), (0x0A, 4), (0x0D, 5)];

/// The order of the commands: each drawn with the same chance, or one after the other in the table's order, again and again.
#[derive(Clone, Copy, PartialEq)]
pub enum Order {
    Chance,
    Cycle,
}

impl Order {
    pub fn name(self) -> &'static str {
        match self {
            Order::Chance => "chance",
            Order::Cycle => "cycle",
        }
    }
}

struct Source {
    rng: Rng,
    order: Order,
    turn: usize,
}

impl Source {
    fn new(seed: u64, order: Order) -> Source {
        Source { rng: Rng::new(seed), order, turn: 0 }
    }

    /// A command of at most so many bytes, CID and payload; none where the one whose turn it is has more.
    fn next(&mut self, room: usize) -> Option<Vec<u8>> {
        let turn = match self.order {
            Order::Chance => self.rng.below(DOWN.len()),
            Order::Cycle => self.turn,
        };
        let (cid, len) = DOWN[turn];
        if room < 1 + len {
            return None;
        }
        self.turn = (turn + 1) % DOWN.len();
        Some([vec![cid], self.rng.bytes(len)].concat())
    }
}

/// How many commands a stream hands out, and how many bytes the one that it stops at lacks: 0 at its end and at a byte that is no CID.
fn walked(stream: &[u8]) -> (usize, usize) {
    let (mut at, mut count) = (0, 0);
    while at < stream.len() {
        let Some(&(_, len)) = DOWN.iter().find(|(cid, _)| *cid == stream[at]) else { return (count, 0) };
        at += 1 + len;
        if at > stream.len() {
            return (count, at - stream.len());
        }
        count += 1;
    }
    (count, 0)
}

/// Streams, one behind the other in memory.
pub struct Streams {
    bytes: Vec<u8>,
    /// Of each stream, where it ends and how many commands it hands out.
    ends: Vec<(usize, usize)>,
}

impl Streams {
    /// So many streams, each of as many commands as fit into `most` bytes.
    pub fn whole(seed: u64, order: Order, count: usize, most: usize) -> Streams {
        Streams::made(seed, order, count, most, |_, stream| stream)
    }

    /// The same, each cut at a place by chance, or with a byte by chance at a place by chance. Where the last payload lacks one byte, the
    /// Rust ends with a panic: such streams are drawn again.
    pub fn damaged(seed: u64, order: Order, count: usize, most: usize) -> Streams {
        Streams::made(seed, order, count, most, |rng, stream| loop {
            let (mut damaged, at) = (stream.clone(), rng.below(stream.len()));
            match rng.below(2) {
                0 => damaged.truncate(at),
                _ => damaged[at] = rng.below(256) as u8,
            }
            if walked(&damaged).1 != 1 {
                return damaged;
            }
        })
    }

    fn made(seed: u64, order: Order, count: usize, most: usize, harm: fn(&mut Rng, Vec<u8>) -> Vec<u8>) -> Streams {
        let mut source = Source::new(seed, order);
        let mut made = Streams { bytes: Vec::new(), ends: Vec::new() };
        for _ in 0..count {
            let mut stream = Vec::new();
            while let Some(command) = source.next(most - stream.len()) {
                stream.extend(command);
            }
            let stream = harm(&mut source.rng, stream);
            made.bytes.extend(&stream);
            made.ends.push((made.bytes.len(), walked(&stream).0));
        }
        made
    }

    /// Each stream, and how many commands it hands out.
    pub fn each(&self) -> impl Iterator<Item = (&[u8], usize)> {
        let starts = std::iter::once(0).chain(self.ends.iter().map(|&(end, _)| end));
        starts.zip(&self.ends).map(|(start, &(end, commands))| (&self.bytes[start..end], commands))
    }
}

/// A command that is wanted: its CID, and five bytes from which its creator's fields are set.
pub type Wish = [u8; 6];

/// Lists of so many commands each, one behind the other.
pub fn wishes(seed: u64, order: Order, count: usize, length: usize) -> Vec<Wish> {
    let mut source = Source::new(seed, order);
    let mut wish = || {
        let mut command = source.next(6).expect("no command has more");
        command.resize(6, 0);
        command.try_into().expect("six bytes")
    };
    (0..count * length).map(|_| wish()).collect()
}
