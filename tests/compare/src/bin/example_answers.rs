//! Prints what the judge named answers to `hatt`'s text on standard input: the plain program's print, the lines that ferrmion's Rust decides, or the Newick line of ferrmion's tree.

use compare::cases::tree_of_rows;
use std::io::{self, Read, Write};

fn main() -> io::Result<()> {
    let judge = std::env::args().nth(1).unwrap_or_default();
    let mut text = String::new();
    io::stdin().read_to_string(&mut text)?;
    let printed = match judge.as_str() {
        "plain" => plain::program(text.as_bytes()),
        "rust" => rust(&text).into_bytes(),
        "newick" => newick(&text),
        _ => panic!("usage: example_answers plain|rust|newick < TEXT"),
    };
    io::stdout().write_all(&printed)
}

/// What the program `hatt` is to print but for the trials, which the Rust doesn't count.
fn rust(text: &str) -> String {
    let (modes, terms) = read(text);
    let (rows, weight) = oracle::hatt(modes, &terms);
    format!("weight\t{weight}\n") + &plain::text::node_lines(rows.as_flattened())
}

/// What the program `newick` is to print: the Rust's tree, written by the plain program.
fn newick(text: &str) -> Vec<u8> {
    let (modes, terms) = read(text);
    let (rows, _) = oracle::hatt(modes, &terms);
    let mut line = vec![0; 1 << 16];
    let length = plain::write_newick(modes, &tree_of_rows(&rows), &mut line);
    line.truncate(length.expect("HATT's tree is accepted"));
    line.push(b'\n');
    line
}

/// The modes and the terms of a well-formed text.
fn read(text: &str) -> (usize, Vec<Vec<u16>>) {
    let number = |field: &str| field.parse().expect("a number");
    let mut lines = text
        .lines()
        .map(|line| line.split('\t').skip(1).map(number).collect::<Vec<u16>>());
    let modes = lines.next().expect("a line of modes")[0];
    (usize::from(modes), lines.collect())
}
