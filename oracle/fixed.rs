//! The list that the repository keeps: the examples P1 to P15 and P19 whole, the smallest input of each class, the longest lists, a sample of
//! the exhaustive batch with every entry and every class in it, a short batch by chance, and long streams down. It is the same on every machine.

use crate::batch::Batch;
use crate::build::{run, MOST_RECORDS};
use crate::case::{two, Case};
use crate::rng::Rng;
use crate::{classes, entries, examples, exhaustive, random};

const SEED: u64 = 1;
/// How many cases of each entry and class the sample has, about.
const WANTED: usize = 9;
/// Cases that tell of more bytes are left out of the sample.
const LONGEST: usize = 120;
const STREAMS: usize = 400;
/// So long that the port walks it in more places than one.
const LONG_STREAM: usize = 197;

pub fn list(batch: &mut Batch) {
    batch.comment("The Rust's answers, as docs/ORACLE.md describes them. Made by the oracle's command `fixed`.");
    examples::all(batch);

    batch.comment("The smallest input of each class");
    for class in classes::ALL {
        batch.ask(class.entry, class.smallest);
        if classes::LEFT_BEHIND.contains(&class.number) {
            batch.ask_left_behind(class.entry, class.smallest);
        }
    }

    batch.comment("As many records as a list may have, and one more");
    for records in [MOST_RECORDS, MOST_RECORDS + 1] {
        let runs = run(records, &[0x02, 0, 0, 0, 0, 0, 0, 0]);
        batch.ask(entries::BUILD, &[&[1], &two(records)[..], &[0xEE], &runs].concat());
    }

    batch.comment("A sample of the exhaustive batch");
    let whole = Batch::run(&mut std::io::sink(), &exhaustive::all);
    let mut rng = Rng::new(SEED);
    let mut met = std::collections::BTreeMap::new();
    let keep = move |entry, input: &[u8], case: &Case| {
        let of = whole.count(entry, case.class());
        let nth: &mut usize = met.entry((entry, case.class())).or_insert(0);
        *nth += 1;
        // The first and the last, and by chance some between.
        let drawn = *nth == 1 || *nth == of || rng.below(of) < WANTED;
        drawn && case.size(input) <= LONGEST
    };
    batch.sampled(Box::new(keep), &exhaustive::all);

    batch.comment("By chance");
    let keep = |_, input: &[u8], case: &Case| case.size(input) <= LONGEST;
    batch.sampled(Box::new(keep), &|batch| random::streams_and_others(batch, SEED, STREAMS));

    batch.comment("Long streams down");
    let keep = |entry, _: &[u8], _: &Case| entry == entries::WALK_DOWN;
    batch.sampled(Box::new(keep), &|batch| random::long_streams(batch, &mut Rng::new(SEED), LONG_STREAM));
}
