//! `letters`, `drops` and `reason`, and the commands that it explains: journals steered, cut, damaged and of other terms.

use crate::damage::{damage_bytes, damage_field, damage_lines, exchange_fields};
use crate::inputs::Job;
use crate::Question;
use compare::cases::Random;
use plain::terms::Rule;

type Damage = fn(&mut Random, &Job, Vec<u8>) -> Vec<u8>;

/// What is done to the journal of a run that took any lawful triple.
const DAMAGES: [(&str, Damage); 6] = [
    ("journals, steered", |_, _, text| text),
    ("journals cut", |random, _, mut text| {
        text.truncate(random.between(0, text.len()));
        text
    }),
    ("journals with a field replaced", |random, job, text| {
        damage_field(random, text, 3 * job.modes)
    }),
    ("journals with fields exchanged", |random, _, text| {
        exchange_fields(random, text)
    }),
    ("journals with lines damaged", |random, _, text| {
        damage_lines(random, text)
    }),
    ("journals with bytes damaged", |random, _, text| {
        damage_bytes(random, text)
    }),
];

pub fn each(random: &mut Random, ask: &mut dyn FnMut(Question)) {
    for (kind, damage) in DAMAGES {
        for _ in 0..200 {
            let job = Job::any(random);
            let steps = random.between(0, job.modes);
            let good = journal(random, &job, steps);
            let file = damage(random, &job, good);
            let word = step_word(random, job.modes);
            ask_all(kind, (job.rule, &word), &file, &job.text(), ask);
        }
    }
    for _ in 0..100 {
        let job = Job::any(random);
        let other = Job::of(random, job.modes, 14);
        let steps = random.between(0, job.modes);
        let mut file = journal(random, &job, steps);
        let (word, terms) = (step_word(random, job.modes), job.damaged_text(random));
        ask_all(
            "journals, terms damaged",
            (job.rule, &word),
            &file,
            &terms,
            ask,
        );
        let named = (
            Rule::read(1 - job.rule as usize).expect("a rule"),
            word.as_str(),
        );
        ask_all("journals of the other rule", named, &file, &job.text(), ask);
        // the other job's header, so that its merges are looked at
        let header = other.header();
        let first = file
            .iter()
            .position(|&byte| byte == b'\n')
            .expect("a header");
        file.splice(..=first, header.into_bytes());
        let named = (other.rule, word.as_str());
        ask_all("journals of other terms", named, &file, &other.text(), ask);
    }
}

/// The journal of so many merges, each any lawful one.
fn journal(random: &mut Random, job: &Job, steps: usize) -> Vec<u8> {
    let mut text = job.header();
    for (step, merge) in job.wandered(random, steps).merges().iter().enumerate() {
        let ([x, y, z], weight) = (merge.triple, merge.weight);
        text += &format!("{step}\t{x}\t{y}\t{z}\t{weight}\n");
    }
    text.into_bytes()
}

/// Words that are no step of any run.
const NO_STEPS: [&str; 9] = [
    "",
    "00",
    "01",
    "-1",
    "+1",
    "x",
    "1\t2",
    "65536",
    "18446744073709551616",
];

/// A step for `letters`: mostly one of the run's, now and then one behind its last, or no step at all.
fn step_word(random: &mut Random, modes: usize) -> String {
    match random.below(8) {
        0 => random.one_of(&NO_STEPS).to_string(),
        1 => random.between(modes, modes + 2).to_string(),
        _ => random.below(modes).to_string(),
    }
}

fn ask_all(
    kind: &'static str,
    (rule, step): (Rule, &str),
    file: &[u8],
    terms: &[u8],
    ask: &mut dyn FnMut(Question),
) {
    for command in ["reason", "resume", "continue", "letters", "drops"] {
        let word = if command == "letters" { step } else { "" };
        ask(Question {
            kind,
            command,
            word: word.to_string(),
            rule,
            file: file.to_vec(),
            terms: terms.to_vec(),
        });
    }
}
