//! The judge: the Rust original, unchanged, asked for its answers.
//!
//! `docs/ORACLE.md` says what a line holds and how the batches are made. Built with plain rustc, no package and no feature:
//! `tools/differential` has the command.

mod batch;
mod build;
mod case;
mod classes;
mod creators;
mod direct;
mod entries;
mod examples;
mod exhaustive;
mod fields;
mod fixed;
#[path = "../docs/src/src/maccommandcreator.rs"]
#[allow(dead_code, unexpected_cfgs)]
mod maccommandcreator;
#[path = "../docs/src/src/maccommands.rs"]
#[allow(dead_code, unexpected_cfgs, mismatched_lifetime_syntaxes)]
mod maccommands;
mod masks;
mod mended;
mod parser;
mod payloads;
mod random;
mod rng;
mod table;
mod walk;

use batch::{Batch, Tally};
use std::io::{BufWriter, Write};
use std::process::exit;

const USAGE: &str = "usage: oracle COMMAND
  exhaustive         every case that can be listed
  random SEED COUNT  COUNT streams and, in proportion, every other kind of input; SEED is a decimal number
  fixed              the list that the repository keeps
  direct             a list for the iterator and the build over record structs, called directly
  classes            the differences, each with its smallest input
A batch goes to standard output, the number of cases of each entry and class to standard error.";

fn main() {
    // A panic of the original is an answer; only its text is not wanted.
    std::panic::set_hook(Box::new(|_| {}));
    let words: Vec<String> = std::env::args().skip(1).collect();
    let words: Vec<&str> = words.iter().map(String::as_str).collect();
    let print = |make: &dyn Fn(&mut Batch)| {
        let mut out = BufWriter::with_capacity(1 << 16, std::io::stdout().lock());
        let tally = Batch::run(&mut out, make);
        if out.flush().is_err() {
            exit(1);
        }
        tally.report();
        tally
    };
    match words[..] {
        ["exhaustive"] => smallest_holds(&print(&|batch| {
            examples::all(batch);
            exhaustive::all(batch);
        })),
        ["random", seed, count] => match (seed.parse(), count.parse()) {
            (Ok(seed), Ok(count)) => {
                print(&|batch| random::streams_and_others(batch, seed, count));
            }
            _ => usage(),
        },
        ["fixed"] => every_class_reached(&print(&fixed::list)),
        ["direct"] => {
            print(&direct::list);
        }
        ["classes"] => classes::print(),
        _ => usage(),
    }
}

fn usage() {
    eprintln!("{USAGE}");
    exit(2);
}

/// The smallest input of each class, as the list of classes gives it, is the smallest that the exhaustive batch meets.
fn smallest_holds(tally: &Tally) {
    for class in classes::ALL {
        let listed = (class.entry, class.smallest.to_vec());
        match tally.smallest(class.number) {
            Some(found) if found == listed => {}
            found => {
                eprintln!("oracle: class {} lists {:02X?}, and the smallest met is {:02X?}", class.number, listed, found);
                exit(1);
            }
        }
    }
}

fn every_class_reached(tally: &Tally) {
    for class in classes::ALL {
        if tally.smallest(class.number).is_none() {
            eprintln!("oracle: no case of class {}", class.number);
            exit(1);
        }
    }
}
