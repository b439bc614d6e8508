//! How many cases there are of each kind, in the order in which the kinds first came.

#[derive(Default)]
pub struct Tally(Vec<(&'static str, usize)>);

impl Tally {
    /// Counts one case of a kind.
    pub fn count(&mut self, kind: &'static str) {
        match self.0.iter_mut().find(|(name, _)| *name == kind) {
            Some((_, cases)) => *cases += 1,
            None => self.0.push((kind, 1)),
        }
    }

    /// Counts what is special in the terms of one case.
    pub fn count_terms(&mut self, terms: &[Vec<u16>]) {
        let mut sorted = terms.to_vec();
        sorted.sort_unstable();
        let special = [
            ("no terms", terms.is_empty()),
            ("equal rows", sorted.windows(2).any(|two| two[0] == two[1])),
            ("equal indices", terms.iter().any(|row| has_equals(row))),
            ("one-index rows", terms.iter().any(|row| row.len() == 1)),
            ("rows of seven", terms.iter().any(|row| row.len() == 7)),
        ];
        for (kind, _) in special.into_iter().filter(|(_, holds)| *holds) {
            self.count(kind);
        }
    }

    /// One line a kind: the words before it, the kind and its number of cases.
    pub fn lines(&self, before: &str) -> String {
        let line = |(kind, cases): &(&str, usize)| format!("{before}\t{kind}\t{cases}\n");
        self.0.iter().map(line).collect()
    }
}

/// Whether two neighbours in an ascending row are equal.
fn has_equals(row: &[u16]) -> bool {
    row.windows(2).any(|two| two[0] == two[1])
}
