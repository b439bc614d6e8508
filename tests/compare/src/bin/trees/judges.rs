//! What the two judges answer, three numbers of each call: refusal, place and zero of the check; refusal, place and weight of the tree weight;
//! refusal, place and bytes of the strings, and their text to the last byte that was lent.

use compare::{numbers, proved};

/// What the calls answered, and the lent text after them.
#[derive(Debug, PartialEq)]
pub struct Told {
    pub check: [u64; 3],
    pub weight: [u64; 3],
    pub strings: [u64; 3],
    text: Vec<u8>,
}

/// The proved library's.
pub fn ours(modes: usize, tree: &[u16], terms: &[u16]) -> Told {
    let mut text = lent(modes, tree);
    Told {
        check: proved::check_tree(modes, tree),
        weight: proved::tree_weight(modes, tree, terms),
        strings: proved::write_strings(modes, tree, &mut text),
        text,
    }
}

/// The plain program's.
pub fn plainly(modes: usize, tree: &[u16], terms: &[u16]) -> Told {
    let mut text = lent(modes, tree);
    let strings = plain::write_strings(modes, tree, &mut text);
    Told {
        check: numbers(plain::check_tree(modes, tree).map(|()| 0)),
        weight: numbers(plain::tree_weight(modes, tree, terms)),
        strings: numbers(strings.map(|count| count as u64)),
        text,
    }
}

/// Room for the strings: by the table's numbers their exact length, a byte less or some more.
fn lent(modes: usize, tree: &[u16]) -> Vec<u8> {
    let modes = modes.min(256);
    let digits: usize = (0..2 * modes).map(|k| k.to_string().len()).sum();
    let exact = digits + 2 * modes * (modes + 2);
    let sum: usize = tree.iter().map(|&code| usize::from(code)).sum();
    let rooms = [exact, exact.saturating_sub(1), exact + 9];
    vec![b'.'; rooms[(sum + usize::from(tree.first() == Some(&0))) % 3]]
}
