//! `best`: terms of few modes, and of one mode more than are taken; good and damaged.

use crate::inputs::Job;
use crate::Question;
use compare::cases::Random;

pub fn each(random: &mut Random, ask: &mut dyn FnMut(Question)) {
    for _ in 0..400 {
        let modes = random.between(1, 5);
        let job = Job::of(random, modes, 14);
        let damaged = job.damaged_text(random);
        for (kind, terms) in [
            ("terms of few modes", job.text()),
            ("terms of few modes, damaged", damaged),
        ] {
            ask(Question {
                kind,
                command: "best",
                word: String::new(),
                rule: job.rule,
                file: vec![],
                terms,
            });
        }
    }
}
