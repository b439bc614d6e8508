//! Asks the proved program `dewgoblin` and the plain program the same, command by command, and compares what they print byte for byte.
//! Arguments: the seed, then the words that start the proved program.

mod damage;
mod inputs;
mod journals;
mod merges;
mod program;
mod small;
mod trees;

use compare::cases::Random;
use compare::Kinds;
use plain::terms::Rule;
use program::Program;

/// One question: the kind of its inputs, the command, its word (the heuristic of `assign`, the step of `letters`), its rule, the file and the terms.
pub struct Question {
    pub kind: &'static str,
    pub command: &'static str,
    pub word: String,
    pub rule: Rule,
    pub file: Vec<u8>,
    pub terms: Vec<u8>,
}

fn main() {
    let mut words = std::env::args().skip(1);
    let seed = words.next().map(|word| word.parse());
    let seed: u64 = seed.expect("a seed").expect("the seed is a number");
    println!("seed {seed}");
    let mut program = Program::new(words.collect());
    let mut kinds = Kinds::new();
    // Each part has its own seed, so that a change to one leaves the inputs of the others alone.
    for (number, part) in [merges::each, trees::each, journals::each, small::each]
        .iter()
        .enumerate()
    {
        let mut random = Random::new(seed.wrapping_mul(1000) + number as u64);
        part(&mut random, &mut |question| {
            let plainly = plainly(&question);
            let sides = [program.ask(&question), plainly.clone()];
            let kind = question.kind;
            let outcome = outcome(question.command, &plainly);
            kinds.compare(kind, outcome, sides, || describe(&question));
        });
    }
    assert_eq!(kinds.print("refused by"), 0);
}

fn plainly(question: &Question) -> String {
    let (name, word) = (question.command, &question.word);
    let printed = plain::command(name, word, question.rule, &question.file, &question.terms);
    readable(&printed.expect("a command that there is"))
}

/// Printed bytes as text; no command prints others than ASCII.
pub fn readable(printed: &[u8]) -> String {
    String::from_utf8_lossy(printed).into_owned()
}

/// By which number it was refused, or `reason` says why it was; else 0.
fn outcome(command: &str, printed: &str) -> u16 {
    let mut fields = printed.split('\t');
    match (command, fields.next()) {
        (_, Some("refused")) => fields.next().unwrap().parse().unwrap(),
        ("reason", Some("due")) => 8,
        ("reason", Some("closed")) => 9,
        ("reason", Some("weight")) => 11,
        _ => 0,
    }
}

fn describe(question: &Question) -> String {
    let Question {
        command,
        word,
        rule,
        ..
    } = question;
    let (file, terms) = (readable(&question.file), readable(&question.terms));
    format!("{command} {word}, {rule:?}, file {file:?}, terms {terms:?}")
}
