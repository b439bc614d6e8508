//! The best there is for small trees (docs/02, W-213): every lawful sequence of merges, tried one after the other.

use crate::merging::ABSENT;
use crate::refusal::{demand, Refusal};
use crate::terms::read_terms;
use crate::tree::tree_weight;

/// "For 1 to 4 modes".
const MOST_TO_TRY: usize = 4;

/// "the least tree weight, the first sequence reaching it and how many reach it".
#[derive(Clone, Debug, PartialEq, Eq)]
pub struct Best {
    pub least: u64,
    pub reached: usize,
    pub first: Vec<[u16; 3]>,
}

/// The best of terms that are good, without a lent sequence.
pub fn best(modes: usize, terms: &[u16]) -> Result<Best, Refusal> {
    check(modes, terms)?;
    find(modes, terms)
}

/// The call: the first of the best stands at the front of the lent numbers; "and 5 where the sequence's 3n numbers don't fit".
pub fn best_into(modes: usize, terms: &[u16], sequence: &mut [u16]) -> Result<Best, Refusal> {
    check(modes, terms)?;
    demand(3 * modes <= sequence.len(), 5, 0)?;
    let found = find(modes, terms)?;
    sequence[..3 * modes].copy_from_slice(found.first.as_flattened());
    Ok(found)
}

/// "22 for 5 modes or more, in the place of 1's upper end; 0 modes stays 1; then 2, 3, 4".
fn check(modes: usize, terms: &[u16]) -> Result<(), Refusal> {
    demand(modes > 0, 1, 0)?;
    demand(modes <= MOST_TO_TRY, 22, 0)?;
    read_terms(modes, terms).map(|_| ())
}

fn find(modes: usize, terms: &[u16]) -> Result<Best, Refusal> {
    let mut best: Option<Best> = None;
    for first in sequences(modes) {
        let least = tree_weight(modes, &table(modes, &first), terms)?;
        match &mut best {
            Some(found) if found.least < least => (),
            Some(found) if found.least == least => found.reached += 1,
            _ => {
                best = Some(Best {
                    least,
                    reached: 1,
                    first,
                })
            }
        }
    }
    Ok(best.expect("there is a sequence"))
}

/// "every lawful sequence of merges", in no order of their making: they are sorted afterwards.
pub fn sequences(modes: usize) -> Vec<Vec<[u16; 3]>> {
    let leaves: Vec<(u16, u16)> = (0..=2 * modes as u16).map(|leaf| (leaf, leaf)).collect();
    let mut found = Vec::new();
    go_on(modes, &leaves, &mut Vec::new(), &mut found);
    found.sort();
    found
}

/// Each open entity stands with its z-end.
fn go_on(
    modes: usize,
    open: &[(u16, u16)],
    made: &mut Vec<[u16; 3]>,
    found: &mut Vec<Vec<[u16; 3]>>,
) {
    if made.len() == modes {
        found.push(made.clone());
        return;
    }
    let parent = (2 * modes + 1 + made.len()) as u16;
    for pair in 0..modes as u16 {
        let with_end = |end| open.iter().find(|entity| entity.1 == end);
        let (Some(&x), Some(&y)) = (with_end(2 * pair), with_end(2 * pair + 1)) else {
            continue;
        };
        for &z in open.iter().filter(|&&z| z != x && z != y) {
            let mut next: Vec<_> = open.to_vec();
            next.retain(|&entity| entity != x && entity != y && entity != z);
            next.push((parent, z.1));
            made.push([x.0, y.0, z.0]);
            go_on(modes, &next, made, found);
            made.pop();
        }
    }
}

/// The tree table of a sequence: the leaf 2n is the absent child.
pub fn table(modes: usize, merges: &[[u16; 3]]) -> Vec<u16> {
    let n = modes as u16;
    let code = |entity: u16| match entity {
        leaf if leaf == 2 * n => ABSENT,
        leaf if leaf < 2 * n => leaf + n,
        node => node - 2 * n - 1,
    };
    merges
        .iter()
        .flatten()
        .map(|&entity| code(entity))
        .collect()
}
