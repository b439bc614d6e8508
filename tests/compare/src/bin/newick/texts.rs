//! The texts that are read, kind by kind: damaged, nested too deep, gone on with by any bytes.

use crate::damage::{names, with, DAMAGES};
use crate::judges::Case;
use crate::trees::Ask;
use compare::cases::{any_tree, tree, Random, GROWTHS};

const SEED: u64 = 6;

/// The bytes of such texts, the frequent ones oftener.
const ALPHABET: &[u8] = b"((,,,));nnmmme00123456789";

/// A good tree's text, as the plain program writes it.
pub fn newick(tree: &[u16]) -> Vec<u8> {
    let modes = tree.len() / 3;
    let mut text = vec![0; 2 + 67 * modes];
    let count = plain::write_newick(modes, tree, &mut text).expect("the tree is good");
    text.truncate(count);
    text
}

/// Every case of reading but those of good texts, kind by kind.
pub fn each(ask: Ask) {
    let random = &mut Random::new(SEED);
    for (kind, damage) in DAMAGES {
        for modes in 1..=4 {
            for growth in GROWTHS {
                let text = newick(&tree(random, modes, growth));
                for bad in damage(&text) {
                    ask(kind, Case::Read(&bad, 3 * modes + 3));
                    ask(kind, Case::Read(&bad, 3 * modes - 1));
                }
            }
        }
    }
    nested(random, ask);
    gone_on(random, ask);
    edited(random, ask);
}

/// Nodes to the 256th and one more, within one another and beside.
fn nested(random: &mut Random, ask: Ask) {
    for count in 0..=300 {
        for behind in ["", "m0", "x", ")", ";"] {
            let text = "(".repeat(count) + behind;
            ask("`(` alone, to 300", Case::Read(text.as_bytes(), 768));
        }
    }
    for modes in [254, 255, 256] {
        for growth in GROWTHS {
            let text = newick(&tree(random, modes, growth));
            for name in names(&text).into_iter().step_by(37) {
                let one_more = with(&text, name, b"(m0,m1,e)n0");
                ask("254 to 256 nodes and one more", Case::Read(&one_more, 768));
            }
        }
    }
}

/// The front of a good text, and any bytes behind it.
fn gone_on(random: &mut Random, ask: Ask) {
    for _ in 0..100_000 {
        let modes = random.between(1, 5);
        let mut text = newick(&any_tree(random, modes));
        text.truncate(random.between(0, text.len()));
        for _ in 0..random.between(1, 8) {
            text.push(random.one_of(ALPHABET));
        }
        ask("cut, and any bytes behind", Case::Read(&text, 15));
    }
}

/// Up to three bytes replaced, put in or taken out, or two names exchanged, in texts of up to 256 modes.
fn edited(random: &mut Random, ask: Ask) {
    for turn in 0..3000 {
        let modes = match turn % 10 {
            0 => random.between(100, 256),
            _ => random.between(1, 40),
        };
        let mut text = newick(&any_tree(random, modes));
        if turn % 2 == 0 {
            text = two_names_exchanged(random, &text);
            ask("larger texts, names exchanged", Case::Read(&text, 768));
            continue;
        }
        for _ in 0..random.between(1, 3) {
            let at = random.below(text.len());
            let end = at + random.below(2);
            let more = [random.one_of(ALPHABET)];
            text = with(&text, at..end, &more[..random.below(2)]);
        }
        ask("larger texts, bytes changed", Case::Read(&text, 768));
    }
}

/// Two names of one kind, so that the text's form stays.
fn two_names_exchanged(random: &mut Random, text: &[u8]) -> Vec<u8> {
    let letter = random.one_of(b"nm");
    let mut names = names(text);
    names.retain(|name| text[name.start] == letter);
    let (one, other) = (random.below(names.len()), random.below(names.len()));
    let (one, other) = (names[one.min(other)].clone(), names[one.max(other)].clone());
    let half = with(text, other.clone(), &text[one.clone()]);
    with(&half, one, &text[other])
}
