//! Holds these against each other: the engine's archive, raw and through the safe bindings, the Rust reference, and a model of document 01.
//!
//! `compare [--quick | --full] [--seed N]`, `compare --sample FILE`, `compare --bench`. A difference is printed with the smallest input found, and the status is 1.

// Built by build.rs, so cargo does not name it.
extern crate fixedbitset;

#[cfg(feature = "archive")]
mod archive;
#[cfg(feature = "archive")]
mod bench;
#[cfg(feature = "archive")]
mod bindings;
mod by_name;
mod cases;
mod damaged;
mod edges;
mod exhaustive;
mod histories;
mod inputs;
mod judge;
mod lists;
mod model;
mod prng;
mod random;
mod reference;
mod renumberings;
mod sample;
mod show;
mod shrink;
#[cfg(feature = "archive")]
mod stepped;

use judge::{Difference, Judge};
use prng::Prng;
use std::process::exit;
use std::time::Instant;

/// How much a run does.
struct Extent {
    depth: exhaustive::Depth,
    edges_every: usize,
    answers: u64,
    histories: u64,
    renumberings: renumberings::Extent,
}

const QUICK: Extent = Extent {
    depth: exhaustive::Depth { mixed: 4, every: 11 },
    edges_every: 13,
    answers: 3_000_000,
    histories: 50_000,
    renumberings: renumberings::Extent { every: 4, random: 100_000 },
};
const FULL: Extent = Extent {
    depth: exhaustive::Depth { mixed: 5, every: 1 },
    edges_every: 1,
    answers: 60_000_000,
    histories: 1_000_000,
    renumberings: renumberings::Extent { every: 1, random: 2_000_000 },
};

const DEFAULT_SEED: u64 = 1;

fn main() {
    reference::silence_panics();
    let words: Vec<String> = std::env::args().skip(1).collect();
    let words: Vec<&str> = words.iter().map(String::as_str).collect();
    match words.as_slice() {
        [] | ["--quick"] => run(&QUICK, DEFAULT_SEED),
        ["--full"] => run(&FULL, DEFAULT_SEED),
        ["--seed", seed] | ["--quick", "--seed", seed] => run(&QUICK, seed_of(seed)),
        ["--full", "--seed", seed] => run(&FULL, seed_of(seed)),
        ["--sample", file] => write_sample(file),
        #[cfg(feature = "archive")]
        ["--bench"] => bench::run(DEFAULT_SEED),
        #[cfg(feature = "archive")]
        ["--bench", "--seed", seed] => bench::run(seed_of(seed)),
        // The table's own run under callgrind.
        #[cfg(feature = "archive")]
        ["--bench-counted", seed] => bench::run_counted(seed_of(seed)),
        _ => usage(),
    }
}

fn usage() -> ! {
    eprintln!("usage: compare [--quick | --full] [--seed N] | --sample FILE | --bench");
    exit(2)
}

fn seed_of(word: &str) -> u64 {
    word.parse().unwrap_or_else(|_| usage())
}

fn write_sample(file: &str) {
    let mut judge = Judge::new(engines());
    match sample::text(&mut judge) {
        Err(difference) => stop(difference),
        Ok(text) => {
            if let Err(error) = std::fs::write(file, &text) {
                eprintln!("{file}: {error}");
                exit(1);
            }
            println!("{file}: {} histories, {} answers, {} bytes", judge.tally.histories, judge.tally.answers, text.len());
        }
    }
}

fn stop(Difference(text): Difference) -> ! {
    println!("a difference, the smallest input found:\n{text}");
    exit(1)
}

fn engines() -> Vec<Box<dyn cases::Engine>> {
    vec![
        #[cfg(feature = "archive")]
        Box::new(archive::Archive),
        Box::new(reference::Reference),
        Box::new(model::Model),
        #[cfg(feature = "archive")]
        Box::new(bindings::Bindings),
        #[cfg(feature = "archive")]
        Box::new(stepped::Stepped),
    ]
}

fn run(extent: &Extent, seed: u64) {
    let start = Instant::now();
    let mut judge = Judge::new(engines());
    let result = stages(&mut judge, extent, seed, start);
    for (pair, answers) in judge.pairs() {
        println!("{pair}: {answers} answers");
    }
    println!("{} answers and {} histories compared, seed {seed}, {:.1} s", judge.tally.answers, judge.tally.histories, start.elapsed().as_secs_f64());
    if let Err(difference) = result {
        stop(difference);
    }
    println!("no difference");
}

fn stages(judge: &mut Judge, extent: &Extent, seed: u64, start: Instant) -> Result<(), Difference> {
    let mut random = Prng::new(seed);
    let done = |judge: &Judge, name: &str| {
        println!("{name}: {} answers, {} histories so far, {:.1} s", judge.tally.answers, judge.tally.histories, start.elapsed().as_secs_f64());
    };
    exhaustive::run(judge, &extent.depth)?;
    done(judge, "exhaustive, 0 to 6 bits");
    damaged::run(judge)?;
    done(judge, "damaged inputs");
    edges::run(judge, &mut random, extent.edges_every)?;
    done(judge, "edges of words");
    random::run(judge, &mut random, extent.answers)?;
    done(judge, "random calls and walks");
    lists::histories(judge)?;
    histories::run(judge, &mut random, extent.histories)?;
    done(judge, "histories of lists, and random ones");
    // Random numbers of their own, so that the cases before them are those that they were without them.
    renumberings::run(judge, &mut Prng::new(seed), &extent.renumberings)?;
    done(judge, "renumberings");
    Ok(())
}
