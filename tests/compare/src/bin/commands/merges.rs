//! `steer`: merges by hand, lawful and damaged.

use crate::damage::{damage_bytes, damage_field, damage_lines, exchange_fields};
use crate::inputs::Job;
use crate::Question;
use compare::cases::Random;
use plain::merging::Merging;
use plain::terms::Rule;

type Damage = fn(&mut Random, &Job, Vec<u8>) -> Vec<u8>;

/// What is done to the merges of a run that took any lawful triple.
const DAMAGES: [(&str, Damage); 7] = [
    ("merges, lawful", |_, _, text| text),
    ("merges with fields exchanged", |random, _, text| {
        exchange_fields(random, text)
    }),
    ("merges with a field replaced", |random, job, text| {
        damage_field(random, text, 3 * job.modes)
    }),
    ("merges with lines damaged", |random, _, text| {
        damage_lines(random, text)
    }),
    ("merges with bytes damaged", |random, _, text| {
        damage_bytes(random, text)
    }),
    ("merges without the last LF", |_, _, mut text| {
        text.pop();
        text
    }),
    ("merges and a line more", |random, _, text| {
        let more = random.one_of(&[b"0\t1\t2\n".as_slice(), b"\n", b"x", b"0\t1\t2", b"\0\n"]);
        [&text, more].concat()
    }),
];

pub fn each(random: &mut Random, ask: &mut dyn FnMut(Question)) {
    for (kind, damage) in DAMAGES {
        for _ in 0..300 {
            let job = Job::any(random);
            let steps = random.between(0, job.modes);
            let good = by_hand(&job.wandered(random, steps));
            let file = damage(random, &job, good);
            ask(steer(kind, job.rule, file, job.text()));
        }
    }
    for _ in 0..200 {
        let job = Job::any(random);
        let steps = random.between(0, job.modes);
        let file = by_hand(&job.wandered(random, steps));
        let terms = job.damaged_text(random);
        ask(steer("merges, terms damaged", job.rule, file, terms));
    }
    // the most modes, and each number of lines at which 12 begins
    for modes in [100, 256] {
        let job = Job::of(random, modes, 30);
        let whole = by_hand(&job.wandered(random, modes));
        let more = [whole.as_slice(), b"0\t1\t2\n"].concat();
        ask(steer(
            "merges of 100 and 256 modes",
            job.rule,
            whole,
            job.text(),
        ));
        ask(steer(
            "merges of 100 and 256 modes",
            job.rule,
            more,
            job.text(),
        ));
    }
}

fn steer(kind: &'static str, rule: Rule, file: Vec<u8>, terms: Vec<u8>) -> Question {
    Question {
        kind,
        command: "steer",
        word: String::new(),
        rule,
        file,
        terms,
    }
}

/// A run's merges, `x`, `y` and `z` a line.
fn by_hand(merging: &Merging) -> Vec<u8> {
    let line = |[x, y, z]: [u16; 3]| format!("{x}\t{y}\t{z}\n");
    let lines = merging.merges().iter().map(|merge| line(merge.triple));
    lines.collect::<String>().into_bytes()
}
