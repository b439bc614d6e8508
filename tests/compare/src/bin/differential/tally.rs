//! The counts by kind, and the smallest input on which two sides disagreed.

use std::fmt;
use std::panic::{catch_unwind, AssertUnwindSafe};

/// How many comparisons of one kind were made, and how many of them disagreed.
struct Count {
    kind: String,
    made: u64,
    disagreed: u64,
}

#[derive(Default)]
pub struct Tally {
    /// In the order in which the kinds were first met.
    counts: Vec<Count>,
    /// The size and description of the smallest disagreeing input.
    smallest: Option<(usize, String)>,
}

impl Tally {
    /// Makes one comparison. A call that stops with a panic disagrees too.
    pub fn compare(
        &mut self,
        kind: &str,
        size: usize,
        input: impl FnOnce() -> String,
        comparison: impl FnOnce() -> Result<(), String>,
    ) {
        let outcome = guarded(comparison);
        let count = self.count(kind);
        count.made += 1;
        let Err(difference) = outcome else {
            return;
        };
        count.disagreed += 1;
        if self
            .smallest
            .as_ref()
            .is_none_or(|(least, _)| size < *least)
        {
            let description = format!("{kind}: {difference}\n{}", input());
            self.smallest = Some((size, description));
        }
    }

    fn count(&mut self, kind: &str) -> &mut Count {
        let known = self.counts.iter().position(|count| count.kind == kind);
        let place = known.unwrap_or(self.counts.len());
        if known.is_none() {
            self.counts.push(Count {
                kind: kind.to_string(),
                made: 0,
                disagreed: 0,
            });
        }
        &mut self.counts[place]
    }

    pub fn disagreed(&self) -> bool {
        self.smallest.is_some()
    }
}

/// The comparison's outcome, a panic turned into a difference.
pub fn guarded(comparison: impl FnOnce() -> Result<(), String>) -> Result<(), String> {
    let outcome = catch_unwind(AssertUnwindSafe(comparison));
    outcome.unwrap_or_else(|_| Err("a side stopped with a panic".to_string()))
}

impl fmt::Display for Tally {
    fn fmt(&self, formatter: &mut fmt::Formatter) -> fmt::Result {
        for count in &self.counts {
            let (made, kind, disagreed) = (count.made, &count.kind, count.disagreed);
            writeln!(formatter, "{made:>8} {kind}: {disagreed} disagreed")?;
        }
        let all: u64 = self.counts.iter().map(|count| count.made).sum();
        let found = match &self.smallest {
            Some((_, description)) => format!("smallest disagreement: {description}"),
            None => "no disagreement".to_string(),
        };
        writeln!(formatter, "{all:>8} in all; {found}")
    }
}

/// An error with this message unless both sides are equal.
pub fn equal<T: PartialEq + fmt::Debug>(what: &str, left: T, right: T) -> Result<(), String> {
    if left == right {
        Ok(())
    } else {
        Err(format!("{what}: {left:?} against {right:?}"))
    }
}
