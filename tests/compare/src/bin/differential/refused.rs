//! Calls of assign with a damaged tree, term, heuristic or room: the same refusal from both sides, and nothing altered.

use crate::calls::assign_in;
use crate::tally::Tally;
use compare::cases::{any_terms, any_tree, flat, Random};
use compare::cases::{change_length, exchange_codes, replace_code};
use plain::terms::work_room;

/// What a call is given; the rooms are those of work and table.
#[derive(Debug)]
struct Given {
    modes: usize,
    rule: usize,
    tree: Vec<u16>,
    heuristic: usize,
    terms: Vec<u16>,
    rooms: (usize, usize),
}

/// Good trees and terms of 1 to 6 modes, each damaged in some of these ways at once, so that the order of refusals shows.
pub fn assign_refused(random: &mut Random, tally: &mut Tally) {
    for modes in 1..=6 {
        for _ in 0..1500 {
            let given = damaged(random, modes);
            let size = 1000 * modes + given.terms.len();
            let comparison = || {
                let Given {
                    modes,
                    rule,
                    tree,
                    heuristic,
                    terms,
                    rooms,
                } = &given;
                assign_in(*rule, *modes, tree, *heuristic, terms, *rooms).map(|_| ())
            };
            let kind = "assign with damaged inputs";
            tally.compare(kind, size, || format!("{given:?}"), comparison);
        }
    }
}

fn damaged(random: &mut Random, modes: usize) -> Given {
    let tree = any_tree(random, modes);
    let mut terms = flat(&any_terms(random, modes, 6));
    let mut rooms = (work_room(&terms), 3 * modes);
    let mut heuristic = random.below(3);
    let tree = match random.below(8) {
        0 => replace_code(random, tree),
        1 => exchange_codes(random, tree),
        2 => change_length(random, tree),
        _ => tree,
    };
    if random.below(4) == 0 {
        heuristic += 3;
    }
    if random.below(3) == 0 && !terms.is_empty() {
        let place = random.below(terms.len());
        terms[place] = random.below(16) as u16;
    }
    if random.below(5) == 0 {
        terms.push(0);
    }
    match random.below(6) {
        0 => rooms.0 = rooms.0.saturating_sub(1),
        1 => rooms.1 -= 1,
        _ => {}
    }
    let modes = if random.below(12) == 0 { 257 } else { modes };
    // 0 and 1 are the rules, any other is 20
    let rule = random.one_of(&[0, 0, 0, 1, 1, 2, usize::MAX]);
    Given {
        modes,
        rule,
        tree,
        heuristic,
        terms,
        rooms,
    }
}
