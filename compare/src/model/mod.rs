//! Document 01, and `insert_all` and renumbering of document 02, as a program: a set is a row of yes and no, every question is asked in its order, every list is written out.
//!
//! Written from the documents' text alone. It knows no word operations beyond "bit p mod 64 of word p / 64", and is slow.

mod calls;
mod edits;
mod histories;
mod members;
mod questions;
mod renumberings;
mod walks;
mod words;

use crate::cases::{Case, Engine, History, Outcome, Ran, Renumbering, WalkCase, Walked};

pub struct Model;

impl Engine for Model {
    fn name(&self) -> &'static str {
        "model"
    }

    fn call(&self, case: &mut Case) -> Option<Outcome> {
        Some(calls::call(case))
    }

    fn renumber(&self, renumbering: &mut Renumbering) -> Option<Outcome> {
        Some(renumberings::call(renumbering))
    }

    fn walk(&self, case: &WalkCase) -> Option<Walked> {
        Some(walks::walk(case))
    }

    fn history(&self, history: &mut History) -> Option<Ran> {
        Some(histories::run(history))
    }
}
