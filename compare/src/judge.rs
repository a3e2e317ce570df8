//! Asks every engine the same and holds their answers against each other.

use crate::cases::{Case, Engine, History, Outcome, Ran, Renumbering, WalkCase, Walked};
use crate::show;
use crate::shrink;
use std::time::{Duration, Instant};

/// Something that engines can be asked.
pub trait Input: Clone {
    type Seen: Seen;
    /// None where it is outside what the engine can be asked.
    fn ask(&self, engine: &dyn Engine) -> Option<Self::Seen>;
    /// How many answers it has.
    fn answers(&self) -> u64;
    /// Inputs that are a little smaller: shorter lengths first.
    fn smaller(&self) -> Vec<Self>;
    fn show(&self) -> String;
}

/// All that can be seen of an answer: its numbers, and every lent word after it.
pub trait Seen: PartialEq {
    fn agrees(&self, other: &Self) -> bool {
        self == other
    }
    fn show(&self) -> String;
}

#[derive(PartialEq, Eq)]
pub struct SeenCase {
    pub outcome: Outcome,
    pub buffers: [Vec<u64>; 3],
}

impl Seen for SeenCase {
    fn show(&self) -> String {
        let [a, b, out] = &self.buffers;
        format!("{:?}; words {}; other {}; out {}", self.outcome, show::words(a), show::words(b), show::words(out))
    }
}

impl Input for Case {
    type Seen = SeenCase;

    fn ask(&self, engine: &dyn Engine) -> Option<SeenCase> {
        let mut case = self.clone();
        let outcome = engine.call(&mut case)?;
        Some(SeenCase { outcome, buffers: [case.a.words, case.b.words, case.out] })
    }

    fn answers(&self) -> u64 {
        1
    }

    fn smaller(&self) -> Vec<Self> {
        shrink::case(self)
    }

    fn show(&self) -> String {
        show::case(self)
    }
}

#[derive(PartialEq, Eq)]
pub struct SeenRenumbering {
    pub outcome: Outcome,
    pub buffers: [Vec<u64>; 3],
}

impl Seen for SeenRenumbering {
    fn show(&self) -> String {
        let [words, out, again] = &self.buffers;
        format!("{:?}; words {}; out {}; again {}", self.outcome, show::words(words), show::words(out), show::words(again))
    }
}

impl Input for Renumbering {
    type Seen = SeenRenumbering;

    fn ask(&self, engine: &dyn Engine) -> Option<SeenRenumbering> {
        let mut renumbering = self.clone();
        let outcome = engine.renumber(&mut renumbering)?;
        Some(SeenRenumbering { outcome, buffers: [renumbering.set.words, renumbering.out, renumbering.again] })
    }

    fn answers(&self) -> u64 {
        1
    }

    fn smaller(&self) -> Vec<Self> {
        shrink::renumbering(self)
    }

    fn show(&self) -> String {
        show::renumbering(self)
    }
}

impl Seen for Walked {
    fn agrees(&self, other: &Self) -> bool {
        let records = self.records.is_none() || other.records.is_none() || self.records == other.records;
        self.number == other.number && self.answers == other.answers && records
    }

    fn show(&self) -> String {
        format!("number {}; answers {}; records {:?}", self.number, show::answers(&self.answers), self.records)
    }
}

impl Input for WalkCase {
    type Seen = Walked;

    fn ask(&self, engine: &dyn Engine) -> Option<Walked> {
        engine.walk(self)
    }

    fn answers(&self) -> u64 {
        WalkCase::answers(self) as u64
    }

    fn smaller(&self) -> Vec<Self> {
        shrink::walk(self)
    }

    fn show(&self) -> String {
        show::walk(self)
    }
}

#[derive(PartialEq, Eq)]
pub struct SeenHistory {
    pub ran: Ran,
    pub buffers: [Vec<u64>; 3],
}

impl Seen for SeenHistory {
    fn show(&self) -> String {
        let [a, b, out] = &self.buffers;
        format!("{:?}; words {}; other {}; answers {}", self.ran, show::words(a), show::words(b), show::numbers(out))
    }
}

impl Input for History {
    type Seen = SeenHistory;

    fn ask(&self, engine: &dyn Engine) -> Option<SeenHistory> {
        let mut history = self.clone();
        let ran = engine.history(&mut history)?;
        Some(SeenHistory { ran, buffers: [history.a_words, history.b_words, history.out] })
    }

    /// Each step, the count, and the two sets.
    fn answers(&self) -> u64 {
        self.steps.len() as u64 + 3
    }

    fn smaller(&self) -> Vec<Self> {
        shrink::history(self)
    }

    fn show(&self) -> String {
        show::history(self)
    }
}

/// How much was compared.
#[derive(Default, Clone)]
pub struct Tally {
    /// Answers that at least two engines gave.
    pub answers: u64,
    pub histories: u64,
    /// By pair of engines, in the order of `PAIRS`.
    pub of_pairs: [u64; PAIRS.len()],
}

/// The two engines' answers to the smallest input found.
pub struct Difference(pub String);

pub struct Judge {
    engines: Vec<Box<dyn Engine>>,
    pub tally: Tally,
}

/// The pairs of up to five engines, by their places; the first and the last two are forms of the same one.
const PAIRS: [(usize, usize); 6] = [(0, 1), (0, 2), (1, 2), (1, 3), (2, 3), (0, 4)];

/// The pairs of which both have answered: the place in `PAIRS`, and the two answers.
fn answered<S>(seen: &[Option<S>]) -> impl Iterator<Item = (usize, &S, &S)> {
    PAIRS.iter().enumerate().filter_map(|(pair, (i, j))| Some((pair, seen.get(*i)?.as_ref()?, seen.get(*j)?.as_ref()?)))
}

impl Judge {
    pub fn new(engines: Vec<Box<dyn Engine>>) -> Self {
        Judge { engines, tally: Tally::default() }
    }

    /// The names of each pair of engines, and how many answers they were compared on.
    pub fn pairs(&self) -> Vec<(String, u64)> {
        let named = |(i, j): (usize, usize)| Some(format!("{} with {}", self.engines.get(i)?.name(), self.engines.get(j)?.name()));
        PAIRS.iter().zip(self.tally.of_pairs).filter_map(|(pair, n)| Some((named(*pair)?, n))).collect()
    }

    fn ask<I: Input>(&self, input: &I) -> Vec<Option<I::Seen>> {
        self.engines.iter().map(|engine| input.ask(engine.as_ref())).collect()
    }

    /// What the first two that differ answered.
    fn differing<I: Input>(&self, input: &I) -> Option<String> {
        let seen = self.ask(input);
        let (pair, x, y) = answered(&seen).find(|(_, x, y)| !x.agrees(y))?;
        let (one, two) = (self.engines[PAIRS[pair].0].name(), self.engines[PAIRS[pair].1].name());
        Some(format!("  {one}: {}\n  {two}: {}", x.show(), y.show()))
    }

    /// Compares all engines on one input; a difference comes back with the smallest input found.
    pub fn check<I: Input>(&mut self, input: &I) -> Result<(), Difference> {
        let seen = self.ask(input);
        let answers = input.answers();
        let mut compared = false;
        for (pair, x, y) in answered(&seen) {
            if !x.agrees(y) {
                return Err(self.reduced(input));
            }
            self.tally.of_pairs[pair] += answers;
            compared = true;
        }
        if compared {
            self.tally.answers += answers;
        }
        Ok(())
    }

    pub fn check_history(&mut self, history: &History) -> Result<(), Difference> {
        let before = self.tally.answers;
        self.check(history)?;
        self.tally.histories += u64::from(self.tally.answers > before);
        Ok(())
    }

    /// Takes the first smaller input that still differs, until none does, or the tries or the time are used up.
    fn reduced<I: Input>(&self, input: &I) -> Difference {
        const TRIES: usize = 50_000;
        const TIME: Duration = Duration::from_secs(20);
        let start = Instant::now();
        let mut least = input.clone();
        let mut tries = 0;
        'again: loop {
            for candidate in least.smaller() {
                tries += 1;
                if tries > TRIES || start.elapsed() > TIME {
                    break 'again;
                }
                if self.differing(&candidate).is_some() {
                    least = candidate;
                    continue 'again;
                }
            }
            break;
        }
        Difference(format!("{}\n{}", least.show(), self.differing(&least).unwrap_or_default()))
    }
}
