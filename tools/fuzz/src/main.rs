//! Calls the compiled port on random and damaged inputs and holds every answer and every buffer
//! against the Rust: `fuzz [--replay FOLDER] CASES SEED..`. A case is nine calls, and depends on its
//! seed and number alone. With `--replay` the short ones are also written as `stdin` and `stdout` of
//! `crates/replay`. Exit status 1 where something differs.
mod calls;
mod due;
mod inputs;
mod lent;
mod stream;
mod tally;

use calls::{ListCase, TreeCase};
use due::Walked;
use oracle::generate::Rng;
use std::panic::{AssertUnwindSafe, catch_unwind};
use std::process::exit;
use stream::Stream;
use tally::Tally;

/// Nine calls: one of `check_tree`, two of `chunks`, three of `format` and three of `join_chunks`.
fn run_case(rng: &mut Rng, tally: &mut Tally) {
    let (options, tree, list) = (inputs::options(rng), inputs::tree(rng), inputs::list(rng));
    let case = TreeCase {
        options: &options,
        tree: &tree,
        walked: Walked::new(&options, &tree),
    };
    calls::try_check_tree(rng, tally, &tree);
    (0..2).for_each(|_| calls::try_chunks(rng, tally, &case));
    (0..3).for_each(|_| calls::try_format(rng, tally, &case));
    let case = ListCase {
        options: &options,
        list: &list,
        joined: due::joined(&options, &list),
    };
    (0..3).for_each(|_| calls::try_join_chunks(rng, tally, &case));
}

fn run_seed(seed: u64, cases: u64, tally: &mut Tally) {
    for number in 0..cases {
        let mut rng = Rng::new(seed.wrapping_mul(0x2545_f491_4f6c_dd1d) ^ (number << 20));
        let run = || run_case(&mut rng, tally);
        if catch_unwind(AssertUnwindSafe(run)).is_err() {
            println!("DIFFERENCE: a panic, seed {seed}, case {number}");
            tally.differences += 1;
        }
    }
    println!(
        "seed {seed}: {cases} cases, {} differences so far",
        tally.differences
    );
}

fn main() {
    let mut words: Vec<String> = std::env::args().skip(1).collect();
    let mut tally = Tally::default();
    if words.len() > 1 && words[0] == "--replay" {
        tally.stream = Some(Stream::new(&words[1]));
        words.drain(..2);
    }
    let numbers: Vec<u64> = words.iter().flat_map(|word| word.parse()).collect();
    if numbers.len() != words.len() || numbers.len() < 2 {
        eprintln!("usage: fuzz [--replay FOLDER] CASES SEED..");
        exit(2);
    }
    for seed in &numbers[1..] {
        run_seed(*seed, numbers[0], &mut tally);
    }
    tally.print();
    let differences = tally.differences;
    // Dropped before the end, so that the streams are written out.
    drop(tally);
    exit((differences > 0) as i32);
}
