//! How many cases of each kind were compared, how many disagreed, and how many were refused by what.

use std::collections::BTreeMap;
use std::fmt::Debug;

/// Tallies by kind, in the order in which the kinds came up. `R` is what a case was refused by.
pub struct Kinds<R>(Vec<(&'static str, Tally<R>)>);

struct Tally<R> {
    cases: usize,
    disagreed: usize,
    refused: BTreeMap<R, usize>,
}

impl<R: Ord + Debug> Kinds<R> {
    pub fn new() -> Self {
        Kinds(vec![])
    }

    /// Counts one case by what the two sides answered to it, and prints it where they differ.
    pub fn compare<A: PartialEq + Debug>(
        &mut self,
        kind: &'static str,
        refused: R,
        [ours, plainly]: [A; 2],
        input: impl FnOnce() -> String,
    ) {
        let agreed = ours == plainly;
        self.count(kind, refused, agreed);
        if !agreed {
            println!("{kind}: {}: ours {ours:?}, plain {plainly:?}", input());
        }
    }

    fn count(&mut self, kind: &'static str, refused: R, agreed: bool) {
        let place = self.0.iter().position(|(name, _)| *name == kind);
        let place = place.unwrap_or_else(|| {
            self.0.push((kind, Tally::new()));
            self.0.len() - 1
        });
        let tally = &mut self.0[place].1;
        tally.cases += 1;
        tally.disagreed += usize::from(!agreed);
        *tally.refused.entry(refused).or_default() += 1;
    }

    /// Prints a line a kind and one for all; how many disagreed.
    pub fn print(&self, refused_by: &str) -> usize {
        for (kind, tally) in &self.0 {
            println!(
                "{kind}: {} compared, {} disagreed; {refused_by} {:?}",
                tally.cases, tally.disagreed, tally.refused
            );
        }
        let all: usize = self.0.iter().map(|(_, tally)| tally.cases).sum();
        let disagreed = self.0.iter().map(|(_, tally)| tally.disagreed).sum();
        println!("all: {all} compared, {disagreed} disagreed");
        disagreed
    }
}

impl<R: Ord + Debug> Default for Kinds<R> {
    fn default() -> Self {
        Kinds::new()
    }
}

impl<R> Tally<R> {
    fn new() -> Self {
        Tally {
            cases: 0,
            disagreed: 0,
            refused: BTreeMap::new(),
        }
    }
}
