//! One table of the engine beside the Rust on the same sets: time, and instructions where valgrind is at hand.
//!
//! Instructions are counted by callgrind: this program runs itself once under it with the same rows, and callgrind writes one count for each time that
//! `bench_measured` is left. So row and side are known by the order of the counts.

mod calls;
mod counted;
mod sets;
mod walks;

use crate::inputs::MOST;
use crate::prng::Prng;
use sets::{pair, Twice};
use std::hint::black_box;
use std::time::{Duration, Instant};

/// How long each row is timed; the least of its runs counts.
const TIMED: Duration = Duration::from_millis(200);

const LENGTHS: [usize; 2] = [MOST, MOST - 1];

/// One position of so many is in the walk's set.
const DENSITIES: [usize; 3] = [2, 10, 1_000];

/// Steps that may each search a whole set.
const FEW_STEPS: usize = 256;

/// What is done with each row.
enum Mode {
    /// Times it and prints it, with its counts where there are some.
    Table { counts: Vec<(u64, u64)> },
    /// Runs it once for callgrind.
    Counted,
}

pub struct Bench {
    mode: Mode,
    made: usize,
}

pub fn run(seed: u64) {
    let counts = counted::counts(seed);
    println!("Least time of many runs in nanoseconds, and instructions; each of one call, or of one position of a list or a walk, or of one pair (seed {seed}).");
    if counts.is_empty() {
        println!("No instructions: valgrind is not at hand, or could not run this program.");
    }
    println!(
        "| {:<46} | {:>6} | {:>9} | {:>9} | {:>8} | {:>9} | {:>9} | {:>8} |",
        "call", "L", "ours, ns", "Rust, ns", "ratio", "ours", "Rust", "ratio"
    );
    println!("|{:-<48}|{:->8}|{:->11}|{:->11}|{:->10}|{:->11}|{:->11}|{:->10}|", "", ":", ":", ":", ":", ":", ":", ":");
    all(&mut Bench { mode: Mode::Table { counts }, made: 0 }, seed);
}

/// The same rows for callgrind.
pub fn run_counted(seed: u64) {
    all(&mut Bench { mode: Mode::Counted, made: 0 }, seed);
}

/// Every row, in the order of the table.
fn all(bench: &mut Bench, seed: u64) {
    let mut random = Prng::new(seed);
    for length in LENGTHS {
        calls::positions(bench, &mut random, length);
    }
    for length in LENGTHS {
        // Random numbers of its own, so that the rows after it are those that they were without it.
        calls::lists(bench, &mut Prng::new(seed), length);
    }
    for length in LENGTHS {
        calls::renumberings(bench, &mut Prng::new(seed), length);
    }
    for length in LENGTHS {
        calls::ranges(bench, &mut random, length);
    }
    for length in LENGTHS {
        calls::whole_sets(bench, &mut random, length);
    }
    for length in LENGTHS {
        for n in DENSITIES {
            let (a, b) = pair(&mut random, length, n);
            walks::steps(bench, &format!("1/{n}"), &a, &b);
        }
        let (a, b) = exhausted(length);
        walks::steps_of_union(bench, "A = {0}, B = all", &a, &b, FEW_STEPS);
    }
    for n in DENSITIES {
        let (a, b) = pair(&mut random, MOST, n);
        walks::next_many(bench, &format!("1/{n}"), &a, &b);
    }
    let (a, b) = exhausted(MOST);
    walks::next_many_of_union(bench, "A = {0}, B = all", &a, &b);
    for n in DENSITIES {
        let (a, b) = pair(&mut random, MOST, n);
        walks::iterators(bench, &format!("1/{n}"), &a, &b);
    }
    walks::iterators_of_union(bench, "A = {0}, B = all", &a, &b);
}

/// A first part that is over after its first position, and a second of nearly all.
fn exhausted(length: usize) -> (Twice, Twice) {
    (Twice::new(length, |p| p == 0), Twice::new(length, |_| true))
}

impl Bench {
    /// A row: both sides do `per` calls, or give `per` positions, on sets of `length` bits.
    pub fn row(&mut self, name: &str, length: usize, per: usize, mut ours: impl FnMut(), mut rust: impl FnMut()) {
        match &self.mode {
            Mode::Counted => {
                for run in [&mut ours as &mut dyn FnMut(), &mut rust] {
                    // Once before, for what is done at a first call only.
                    run();
                    bench_measured(run);
                }
            }
            Mode::Table { counts } => {
                let (x, y) = least(&mut ours, &mut rust);
                let each = |time: Duration| time.as_nanos() as f64 / per as f64;
                let times = shown(each(x), each(y), 1);
                let instructions = counts.get(self.made).map(|(x, y)| shown(*x as f64 / per as f64, *y as f64 / per as f64, 1));
                println!("| {name:<46} | {length:>6} | {times} | {} |", instructions.unwrap_or_else(|| format!("{:>9} | {:>9} | {:>8}", "", "", "")));
            }
        }
        self.made += 1;
    }
}

fn shown(ours: f64, rust: f64, places: usize) -> String {
    format!("{ours:>9.places$} | {rust:>9.places$} | {:>8.2}", ours / rust)
}

/// The least time of each side, in turns.
fn least(ours: &mut dyn FnMut(), rust: &mut dyn FnMut()) -> (Duration, Duration) {
    let timed = |run: &mut dyn FnMut()| {
        let start = Instant::now();
        run();
        start.elapsed()
    };
    let start = Instant::now();
    let (mut x, mut y) = (timed(ours), timed(rust));
    while start.elapsed() < TIMED {
        x = x.min(timed(ours));
        y = y.min(timed(rust));
    }
    (x, y)
}

/// What callgrind counts. It finds this function by its name.
#[no_mangle]
#[inline(never)]
fn bench_measured(run: &mut dyn FnMut()) {
    run();
    black_box(());
}

/// The same many times.
fn again(times: usize, mut call: impl FnMut() -> usize) {
    black_box((0..times).fold(0, |sum: usize, _| sum.wrapping_add(call())));
}
