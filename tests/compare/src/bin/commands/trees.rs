//! `assign`, `weigh`, `check` and `strings`: trees of `node` lines in any order, good and damaged.

use crate::damage::{damage_bytes, damage_field, damage_lines, exchange_fields};
use crate::inputs::Job;
use crate::Question;
use compare::cases::{any_tree, exchange_codes, replace_code, Random};
use plain::terms::Rule;
use plain::text::node_lines;

type Damage = fn(&mut Random, &Job, Vec<u8>) -> Vec<u8>;

/// What is done to the lines of a good tree.
const DAMAGES: [(&str, Damage); 7] = [
    ("trees, good", |_, _, text| text),
    ("trees with a field replaced", |random, job, text| {
        damage_field(random, text, 3 * job.modes)
    }),
    ("trees with fields exchanged", |random, _, text| {
        exchange_fields(random, text)
    }),
    ("trees with lines damaged", |random, _, text| {
        damage_lines(random, text)
    }),
    ("trees with bytes damaged", |random, _, text| {
        damage_bytes(random, text)
    }),
    ("trees with other lines in front", |random, _, text| {
        let line = random.one_of(&["weight\t4\n", "trials\t14\n", "\n", "modes\t2\n"]);
        [line.as_bytes(), &text].concat()
    }),
    ("trees without the last LF", |_, _, mut text| {
        text.pop();
        text
    }),
];

/// The heuristics, and names that are none.
const HEURISTICS: [&str; 8] = [
    "min_weight",
    "x_first",
    "z_first",
    "y_first",
    "",
    "min_weight ",
    "0",
    "min_weight_that_is_longer_than_any_name",
];

pub fn each(random: &mut Random, ask: &mut dyn FnMut(Question)) {
    for (kind, damage) in DAMAGES {
        for _ in 0..200 {
            let job = Job::any(random);
            let good = lines_of(random, job.modes, |_, tree| tree);
            let tree = damage(random, &job, good);
            ask_all(random, kind, &tree, &job.text(), ask);
        }
    }
    for (kind, damage) in [
        (
            "trees with a code replaced",
            replace_code as fn(&mut Random, Vec<u16>) -> Vec<u16>,
        ),
        ("trees with codes exchanged", exchange_codes),
    ] {
        for _ in 0..200 {
            let job = Job::any(random);
            let tree = lines_of(random, job.modes, damage);
            ask_all(random, kind, &tree, &job.text(), ask);
        }
    }
    for _ in 0..100 {
        let job = Job::any(random);
        let other = Job::any(random);
        let tree = lines_of(random, job.modes, |_, tree| tree);
        ask_all(random, "trees of other terms", &tree, &other.text(), ask);
        let terms = job.damaged_text(random);
        ask_all(random, "trees, terms damaged", &tree, &terms, ask);
        let wandered = job.wandered(random, job.modes).flatpack();
        let tree = node_lines(wandered.as_flattened()).into_bytes();
        ask_all(random, "trees of a run", &tree, &job.text(), ask);
    }
    at_the_bounds(random, ask);
}

/// 255 to 258 nodes; and no line at all.
fn at_the_bounds(random: &mut Random, ask: &mut dyn FnMut(Question)) {
    let kind = "trees of 255 nodes and more, and of none";
    for nodes in [0, 255, 256, 257, 258] {
        let job = Job::of(random, nodes.clamp(1, 256), 12);
        let tree = lines_of(random, nodes.max(1), |_, tree| tree);
        let tree = if nodes == 0 { vec![] } else { tree };
        ask_all(random, kind, &tree, &job.text(), ask);
    }
}

/// The lines of a tree that document 01 accepts, damaged as a table and in any order.
fn lines_of(
    random: &mut Random,
    modes: usize,
    damage: impl Fn(&mut Random, Vec<u16>) -> Vec<u16>,
) -> Vec<u8> {
    let good = any_tree(random, modes);
    let table = damage(random, good);
    let order = random.permutation(modes);
    let rows = order.into_iter().map(|label| {
        let first = 3 * label;
        [
            label as u16,
            table[first],
            table[first + 1],
            table[first + 2],
        ]
    });
    let rows: Vec<[u16; 4]> = rows.collect();
    node_lines(rows.as_flattened()).into_bytes()
}

/// Each of the commands, `assign` by a heuristic that is mostly one; and the strings of the tree that HATT builds of the terms.
fn ask_all(
    random: &mut Random,
    kind: &'static str,
    tree: &[u8],
    terms: &[u8],
    ask: &mut dyn FnMut(Question),
) {
    let known = random.below(6) > 0;
    let heuristic = random.one_of(if known { &HEURISTICS[..3] } else { &HEURISTICS });
    let rule = random.one_of(&[Rule::Published, Rule::Keep]);
    for command in ["assign", "weigh", "check", "strings", "hatt_strings"] {
        // what a command doesn't read its starter doesn't give it
        let reads_terms = !matches!(command, "check" | "strings");
        let reads_tree = command != "hatt_strings";
        let word = if command == "assign" { heuristic } else { "" };
        ask(Question {
            kind,
            command,
            word: word.to_string(),
            rule,
            file: if reads_tree { tree.to_vec() } else { vec![] },
            terms: if reads_terms { terms.to_vec() } else { vec![] },
        });
    }
}
