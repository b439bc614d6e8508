//! Terms as text, and runs of lawful merges over them.

use crate::damage::damage_bytes;
use compare::cases::{any_terms, flat, Random};
use plain::merging::{Merge, Merging};
use plain::terms::{read_terms, Rule};

/// The modes of the next case: mostly few, so that every refusal is met often, and some many.
pub fn any_modes(random: &mut Random) -> usize {
    match random.below(40) {
        0 => random.between(20, 60),
        1..=6 => random.between(7, 16),
        _ => random.between(1, 6),
    }
}

/// A job: its modes, its rule, and the run before its first merge.
pub struct Job {
    pub modes: usize,
    pub rule: Rule,
    pub rows: Vec<Vec<u16>>,
}

impl Job {
    pub fn any(random: &mut Random) -> Self {
        let modes = any_modes(random);
        Job::of(random, modes, 14)
    }

    pub fn of(random: &mut Random, modes: usize, most_terms: usize) -> Self {
        let rows = any_terms(random, modes, most_terms);
        let rule = random.one_of(&[Rule::Published, Rule::Keep]);
        Job { modes, rule, rows }
    }

    /// The terms as the program's text.
    pub fn text(&self) -> Vec<u8> {
        let mut text = format!("modes\t{}\n", self.modes);
        for row in &self.rows {
            let indices: Vec<String> = row.iter().map(u16::to_string).collect();
            text += &format!("term\t{}\n", indices.join("\t"));
        }
        text.into_bytes()
    }

    /// The text with a byte damaged, of another number of modes, or with a bad row: mostly refused.
    pub fn damaged_text(&self, random: &mut Random) -> Vec<u8> {
        let text = self.text();
        match random.below(4) {
            0 => [text, b"term\t65535\n".to_vec()].concat(),
            1 => {
                let modes = random.one_of(&[0, 257, 65535, self.modes + 1]);
                let rows = self.rows.clone();
                let rule = self.rule;
                Job { modes, rule, rows }.text()
            }
            _ => damage_bytes(random, text),
        }
    }

    /// A run that takes any lawful triple at each of so many steps.
    pub fn wandered(&self, random: &mut Random, steps: usize) -> Merging {
        let rows = read_terms(self.modes, &flat(&self.rows)).expect("good terms");
        let mut merging = Merging::new(self.modes, self.rule, rows);
        for _ in 0..steps {
            let triple = random.one_of(&merging.lawful_pairs());
            let weight = merging.weigh(triple);
            merging.merge(Merge { triple, weight });
        }
        merging
    }

    /// The header of a journal of the job.
    pub fn header(&self) -> String {
        let (word, count) = (self.rule.word(), self.rows.len());
        format!("{word}\t1\t{}\t{count}\n", self.modes)
    }
}
