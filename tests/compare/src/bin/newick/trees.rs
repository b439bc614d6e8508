//! The trees that are written, good and damaged.

use crate::judges::Case;
use crate::texts::newick;
use compare::cases::{any_tree, tree, Random, GROWTHS};
use compare::cases::{change_length, exchange_codes, replace_code};

/// What is asked of a case, by its kind.
pub type Ask<'a> = &'a mut dyn FnMut(&'static str, Case);

const SEED: u64 = 5;

/// Every case of writing, kind by kind.
pub fn each(ask: Ask) {
    let random = &mut Random::new(SEED);
    for modes in 1..=256 {
        for good in good_trees(random, modes) {
            written(modes, &good, ask);
        }
    }
    for (kind, damage) in DAMAGES {
        for turn in 0..12000 {
            let modes = 1 + turn % 6;
            let good = any_tree(random, modes);
            let room = newick(&good).len();
            let (modes, bad) = damage(random, modes, good);
            ask(kind, Case::Write(modes, &bad, room));
        }
    }
}

/// A tree of each growth for small modes and at the limit, of one growth else.
pub fn good_trees(random: &mut Random, modes: usize) -> Vec<Vec<u16>> {
    let growths = match modes {
        1..=16 | 100 | 255 | 256 => &GROWTHS[..],
        _ => &GROWTHS[modes % GROWTHS.len()..][..1],
    };
    let grown = growths.iter().map(|&growth| tree(random, modes, growth));
    grown.collect()
}

/// A good tree written in every room that matters, and read back in every room that matters.
fn written(modes: usize, good: &[u16], ask: Ask) {
    let text = newick(good);
    let exact = text.len();
    for room in [exact, exact + 7] {
        ask("good trees written", Case::Write(modes, good, room));
    }
    for room in [exact - 1, 0] {
        ask("good trees without room", Case::Write(modes, good, room));
    }
    for room in [3 * modes, 3 * modes + 5] {
        ask("their texts read back", Case::Read(&text, room));
    }
    for room in [3 * modes - 1, 0] {
        ask("their texts without room", Case::Read(&text, room));
    }
}

type Damage = fn(&mut Random, usize, Vec<u16>) -> (usize, Vec<u16>);

/// What is done to a good tree of 1 to 6 modes.
const DAMAGES: [(&str, Damage); 4] = [
    ("trees with a code replaced", |random, modes, tree| {
        (modes, replace_code(random, tree))
    }),
    ("trees with codes exchanged", |random, modes, tree| {
        (modes, exchange_codes(random, tree))
    }),
    (
        "trees a code too long or too short",
        |random, modes, tree| (modes, change_length(random, tree)),
    ),
    ("another number of modes", |random, modes, tree| {
        let others = [0, 257, modes + 1, usize::MAX, usize::MAX / 3 + 1];
        (random.one_of(&others), tree)
    }),
];
