//! One case: what an entry was asked, what the port must answer, and what the original did where that is something else.

use std::io::{self, Write};
use std::panic::{catch_unwind, AssertUnwindSafe};

/// What the original did with the input.
pub enum Original {
    /// It gave the case's answer, refusals translated to the numbers of docs/RULES.md.
    Agrees,
    /// It panicked, and the case is of this class.
    Panicked(u8),
    /// It answered these bytes, and the case is of this class.
    Said(u8, Vec<u8>),
}

pub struct Case {
    pub answer: Vec<u8>,
    pub original: Original,
}

/// A case, or what the original did that no class lists.
pub type Judged = Result<Case, String>;

impl Case {
    pub fn agreed(answer: Vec<u8>) -> Judged {
        Ok(Case { answer, original: Original::Agrees })
    }

    /// The port's answer beside the original's: a case of this class, where they are not the same.
    pub fn beside(answer: Vec<u8>, said: Vec<u8>, class: u8) -> Judged {
        let original = if said == answer { Original::Agrees } else { Original::Said(class, said) };
        Ok(Case { answer, original })
    }

    /// The number of the difference that the case belongs to; 0 where there is none.
    pub fn class(&self) -> u8 {
        match self.original {
            Original::Agrees => 0,
            Original::Panicked(class) | Original::Said(class, _) => class,
        }
    }

    /// How many bytes the line tells of, about.
    pub fn size(&self, input: &[u8]) -> usize {
        let said = match &self.original {
            Original::Said(_, said) => said.len(),
            _ => 0,
        };
        input.len() + self.answer.len() + said
    }

    pub fn print(&self, out: &mut dyn Write, entry: u8, input: &[u8]) -> io::Result<()> {
        let mut line = Vec::with_capacity(16 + 2 * (input.len() + self.answer.len()));
        hex(&mut line, &[entry]);
        line.push(b' ');
        hex(&mut line, &[self.class()]);
        line.push(b' ');
        hex(&mut line, input);
        line.push(b' ');
        hex(&mut line, &self.answer);
        match &self.original {
            Original::Agrees => {}
            Original::Panicked(_) => line.extend(b" !"),
            Original::Said(_, said) => {
                line.push(b' ');
                hex(&mut line, said);
            }
        }
        line.push(b'\n');
        out.write_all(&line)
    }
}

/// Capital hex, `-` for no bytes.
pub fn hex(line: &mut Vec<u8>, bytes: &[u8]) {
    const DIGITS: &[u8; 16] = b"0123456789ABCDEF";
    if bytes.is_empty() {
        line.push(b'-');
    }
    for b in bytes {
        line.push(DIGITS[usize::from(b >> 4)]);
        line.push(DIGITS[usize::from(b & 15)]);
    }
}

/// The answer of a call of the original, or none where it panicked.
pub fn caught<T>(call: impl FnOnce() -> T) -> Option<T> {
    catch_unwind(AssertUnwindSafe(call)).ok()
}

/// A number in two bytes, high byte first, as every number of a line is.
pub fn two(n: usize) -> [u8; 2] {
    u16::try_from(n).expect("a number of at most two bytes").to_be_bytes()
}

/// A number in four bytes.
pub fn four(n: usize) -> [u8; 4] {
    u32::try_from(n).expect("a number of at most four bytes").to_be_bytes()
}
