//! What a caller sees of a call, and the count of the calls of which it was stated.

use compare::{BYTE_MARK, MARK};
use std::collections::BTreeMap;

/// The numbers that a call answers, and every lent slice after it.
#[derive(Debug, PartialEq)]
pub struct Seen {
    pub numbers: Vec<u64>,
    pub lent: Vec<Vec<u16>>,
}

impl Seen {
    /// A call that is lent nothing.
    pub fn told(numbers: &[u64]) -> Self {
        Seen {
            numbers: numbers.to_vec(),
            lent: vec![],
        }
    }
}

/// What is lent: marks, so that every element that a call alters shows.
pub fn numbers_lent(room: usize) -> Vec<u16> {
    vec![MARK; room]
}

pub fn bytes_lent(room: usize) -> Vec<u8> {
    vec![BYTE_MARK; room]
}

/// A slice that was lent as marks, with this front written.
pub fn fronted(front: &[u16], room: usize) -> Vec<u16> {
    let mut lent = numbers_lent(room);
    lent[..front.len()].copy_from_slice(front);
    lent
}

pub fn bytes_fronted(front: &[u8], room: usize) -> Vec<u16> {
    let mut lent = bytes_lent(room);
    lent[..front.len()].copy_from_slice(front);
    widened(&lent)
}

pub fn widened(bytes: &[u8]) -> Vec<u16> {
    bytes.iter().map(|&byte| u16::from(byte)).collect()
}

/// How many cases of each kind were held, and how many of them failed.
#[derive(Default)]
pub struct Cases(BTreeMap<&'static str, [usize; 2]>);

impl Cases {
    /// Counts one case, and prints it where a side does not answer or leave what is stated.
    pub fn hold(
        &mut self,
        kind: &'static str,
        what: &str,
        [ours, plainly]: [Seen; 2],
        stated: Seen,
    ) {
        let count = self.0.entry(kind).or_default();
        count[0] += 1;
        if ours != stated || plainly != stated {
            count[1] += 1;
            println!("{kind}, {what}:\n  stated {stated:?}\n  ours {ours:?}\n  plain {plainly:?}");
        }
    }

    /// Prints a line a kind and one for all; how many failed.
    pub fn print(&self) -> usize {
        for (kind, [held, failed]) in &self.0 {
            println!("{kind}: {held} stated, {failed} failed");
        }
        let sum = |place: usize| -> usize { self.0.values().map(|count| count[place]).sum() };
        println!("all: {} stated, {} failed", sum(0), sum(1));
        sum(1)
    }
}
