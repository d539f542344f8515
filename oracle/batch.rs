//! A batch of cases: inputs go in, lines come out, and what was met is counted.

use crate::case::{hex, Case};
use crate::classes;
use crate::entries::{Entries, Entry};
use std::collections::BTreeMap;
use std::io::Write;
use std::panic::{catch_unwind, AssertUnwindSafe};
use std::process::exit;

/// How many cases of each entry and class a batch had, and the smallest input of each class.
#[derive(Default)]
pub struct Tally {
    counts: BTreeMap<(u8, u8), usize>,
    smallest: BTreeMap<u8, (u8, Vec<u8>)>,
    names: BTreeMap<u8, String>,
}

/// Whether a case of this entry, on this input, is printed.
pub type Keep<'a> = dyn FnMut(u8, &[u8], &Case) -> bool + 'a;

pub struct Batch<'a> {
    entries: Entries,
    out: &'a mut dyn Write,
    keep: Box<Keep<'a>>,
    tally: Tally,
}

impl<'a> Batch<'a> {
    /// Prints the cases that `make` asks for.
    pub fn run(out: &'a mut dyn Write, make: &dyn Fn(&mut Batch)) -> Tally {
        let mut batch = Batch { entries: Entries::new(), out, keep: Box::new(|_, _, _| true), tally: Tally::default() };
        for entry in batch.entries.ported() {
            batch.tally.names.insert(entry.number, entry.name.clone());
        }
        make(&mut batch);
        batch.tally
    }

    /// Prints those of the cases that `make` asks for that `keep` keeps.
    pub fn sampled(&mut self, keep: Box<Keep<'a>>, make: &dyn Fn(&mut Batch)) {
        let all = std::mem::replace(&mut self.keep, keep);
        make(self);
        self.keep = all;
    }

    pub fn comment(&mut self, text: &str) {
        self.print(|out| writeln!(out, "# {text}"));
    }

    pub fn ask(&mut self, number: u8, input: &[u8]) {
        let case = answer(self.entries.get(number), input);
        self.take(number, input, &case);
    }

    /// Asks the functions that the port leaves behind, under the entry that stands in for them.
    pub fn ask_left_behind(&mut self, number: u8, input: &[u8]) {
        let cases: Vec<Case> = self.entries.left_behind(number).map(|entry| answer(entry, input)).collect();
        for case in cases {
            self.take(number, input, &case);
        }
    }

    fn take(&mut self, number: u8, input: &[u8], case: &Case) {
        if !(self.keep)(number, input, case) {
            return;
        }
        self.tally.add(number, case.class(), input);
        self.print(|out| case.print(out, number, input));
    }

    fn print(&mut self, text: impl Fn(&mut dyn Write) -> std::io::Result<()>) {
        if text(self.out).is_err() {
            eprintln!("oracle: the lines could not be written");
            exit(1);
        }
    }
}

/// Judges one input. What no class lists ends the run.
fn answer(entry: &Entry, input: &[u8]) -> Case {
    let judged = catch_unwind(AssertUnwindSafe(|| (entry.judge)(input)));
    let why = match judged {
        Ok(Ok(case)) => return case,
        Ok(Err(why)) => why,
        Err(_) => "a panic that no class lists".to_string(),
    };
    let mut text = Vec::new();
    hex(&mut text, input);
    eprintln!("oracle: {} ({:02X}) on {}: {why}", entry.name, entry.number, String::from_utf8_lossy(&text));
    exit(1);
}

impl Tally {
    fn add(&mut self, entry: u8, class: u8, input: &[u8]) {
        *self.counts.entry((entry, class)).or_insert(0) += 1;
        if class == 0 {
            return;
        }
        let smaller = match self.smallest.get(&class) {
            None => true,
            Some((e, i)) => (input.len(), input, entry) < (i.len(), i, *e),
        };
        if smaller {
            self.smallest.insert(class, (entry, input.to_vec()));
        }
    }

    pub fn count(&self, entry: u8, class: u8) -> usize {
        self.counts.get(&(entry, class)).copied().unwrap_or(0)
    }

    pub fn smallest(&self, class: u8) -> Option<(u8, Vec<u8>)> {
        self.smallest.get(&class).cloned()
    }

    pub fn report(&self) {
        let sum = |keep: &dyn Fn(u8, u8) -> bool| -> usize {
            self.counts.iter().filter(|((e, c), _)| keep(*e, *c)).map(|(_, n)| n).sum()
        };
        for (number, name) in &self.names {
            eprintln!("entry {number:02X}  {:8}  {name}", sum(&|e, _| e == *number));
        }
        for class in classes::ALL {
            eprintln!("class {:2}  {:8}  {}", class.number, sum(&|_, c| c == class.number), class.what);
        }
        eprintln!("cases     {:8}", sum(&|_, _| true));
    }
}
