//! The tables that are compared, kind by kind, each with rows of terms.

use compare::cases::{any_terms, any_tree, flat, terms, tree, Random, Shape, ABSENT, GROWTHS};
use compare::cases::{change_length, exchange_codes, replace_code};

/// What is asked of a case: its kind, modes, tree and terms.
type Ask<'a> = &'a mut dyn FnMut(&'static str, usize, &[u16], &[u16]);

const SEED: u64 = 3;

/// Every case, kind by kind.
pub fn each(ask: Ask) {
    let random = &mut Random::new(SEED);
    every_table(
        random,
        "every table of 1 mode",
        1,
        &[0, 1, 2, 3, 4, 256, 65534, ABSENT],
        ask,
    );
    every_table(
        random,
        "every table of 2 modes",
        2,
        &[0, 1, 2, 3, 4, 5, ABSENT],
        ask,
    );
    for (kind, damage) in DAMAGES {
        for turn in 0..24000 {
            let modes = 1 + turn % 6;
            let good = any_tree(random, modes);
            let rows = flat(&any_terms(random, modes, 6));
            let (modes, tree, rows) = damage(random, modes, good, rows);
            ask(kind, modes, &tree, &rows);
        }
    }
    permuted(random, ask);
    large(random, ask);
}

/// All tables of these codes.
fn every_table(random: &mut Random, kind: &'static str, modes: usize, codes: &[u16], ask: Ask) {
    for mut number in 0..codes.len().pow(3 * modes as u32) {
        let mut tree = vec![];
        for _ in 0..3 * modes {
            tree.push(codes[number % codes.len()]);
            number /= codes.len();
        }
        let rows = flat(&any_terms(random, modes, 3));
        ask(kind, modes, &tree, &rows);
    }
}

type Damage = fn(&mut Random, usize, Vec<u16>, Vec<u16>) -> (usize, Vec<u16>, Vec<u16>);

/// What is done to a good tree of 1 to 6 modes and its rows.
const DAMAGES: [(&str, Damage); 7] = [
    ("good trees of 1 to 6 modes", |_, modes, tree, rows| {
        (modes, tree, rows)
    }),
    (
        "rows with a number changed or added",
        |random, modes, tree, mut rows| {
            if rows.is_empty() || random.below(4) == 0 {
                rows.push(random.below(9) as u16);
            } else {
                let at = random.below(rows.len());
                rows[at] = random.below(2 * modes + 3) as u16;
            }
            (modes, tree, rows)
        },
    ),
    ("trees with a code replaced", |random, modes, tree, rows| {
        (modes, replace_code(random, tree), rows)
    }),
    ("trees with codes exchanged", |random, modes, tree, rows| {
        (modes, exchange_codes(random, tree), rows)
    }),
    (
        "trees a code too long or too short",
        |random, modes, tree, rows| (modes, change_length(random, tree), rows),
    ),
    ("another number of modes", |random, modes, tree, rows| {
        let others = [0, 257, modes + 1, usize::MAX, usize::MAX / 3 + 1];
        (random.one_of(&others), tree, rows)
    }),
    (
        "rows listed again, some with a pair of equal indices more",
        |random, modes, tree, mut rows| {
            for _ in 0..rows.len().min(3) {
                let again = listed_again(random, modes, &rows);
                rows.extend(again);
            }
            (modes, tree, rows)
        },
    ),
];

/// One of the rows, where it has room and chance will have it so with an index twice more.
fn listed_again(random: &mut Random, modes: usize, rows: &[u16]) -> [u16; 8] {
    let at = 8 * random.below(rows.len() / 8);
    let mut row: [u16; 8] = rows[at..at + 8].try_into().unwrap();
    let length = usize::from(row[0]);
    if length <= 5 && random.below(2) == 0 {
        let index = random.below(2 * modes) as u16;
        row[0] += 2;
        row[length + 1..length + 3].fill(index);
        row[1..length + 3].sort_unstable();
    }
    row
}

/// Each code of 3 or 4 modes once, except one node's, in any order: cycles beside trees and wrong pairs.
fn permuted(random: &mut Random, ask: Ask) {
    for _ in 0..60000 {
        let modes = random.between(3, 4);
        let root = random.below(modes);
        let mut codes: Vec<u16> = (0..3 * modes as u16).collect();
        codes[root] = ABSENT;
        let tree: Vec<u16> = random
            .permutation(3 * modes)
            .iter()
            .map(|&at| codes[at])
            .collect();
        let rows = flat(&any_terms(random, modes, 4));
        ask("codes of 3 and 4 modes permuted", modes, &tree, &rows);
    }
}

/// Trees to 256 modes, good and with two codes exchanged; and the most terms, and one more.
fn large(random: &mut Random, ask: Ask) {
    let kind = "trees of 7 to 256 modes";
    for modes in [7, 20, 50, 100, 255, 256] {
        for growth in GROWTHS {
            let good = tree(random, modes, growth);
            let rows = flat(&terms(random, modes, 40, Shape::Mixed));
            ask(kind, modes, &good, &rows);
            ask(kind, modes, &exchange_codes(random, good), &rows);
        }
    }
    for count in [2048, 2049] {
        let tree = any_tree(random, 2);
        let rows = flat(&terms(random, 2, count, Shape::Mixed));
        ask("2048 and 2049 terms", 2, &tree, &rows);
    }
}
