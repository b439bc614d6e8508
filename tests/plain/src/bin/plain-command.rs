//! Prints what a command of the program `dewgoblin` is to print, for whoever doubts an answer:
//! plain-command [--keep] COMMAND [WORD] FILE < TERMS. `journal`, which reads no file, is given any.

use plain::terms::Rule;
use std::io::{self, Read, Write};

fn main() -> io::Result<()> {
    let mut words: Vec<String> = std::env::args().skip(1).collect();
    let rule = match words.first().map(String::as_str) {
        Some("--keep") => Rule::Keep,
        _ => Rule::Published,
    };
    words.retain(|word| word != "--keep");
    let (name, word, file) = match &words[..] {
        [name, file] => (name, "", file),
        [name, word, file] => (name, word.as_str(), file),
        _ => panic!("usage: plain-command [--keep] COMMAND [WORD] FILE < TERMS"),
    };
    let mut terms = Vec::new();
    io::stdin().read_to_end(&mut terms)?;
    let printed = plain::command(name, word, rule, &std::fs::read(file)?, &terms);
    io::stdout().write_all(&printed.expect("a command that there is"))
}
