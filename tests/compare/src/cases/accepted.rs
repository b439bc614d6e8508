//! The inputs made here are in the domain: document 01 accepts every tree and every row.

use super::{terms, tree, Random, ABSENT, GROWTHS, SHAPES};

/// Whether each node but one, each leaf and one absent child occurs once.
fn has_each_part_once(modes: usize, tree: &[u16]) -> bool {
    let mut codes = tree.to_vec();
    codes.sort_unstable();
    let root = (0..modes as u16).find(|node| !codes.contains(node));
    let parts = (0..3 * modes as u16).filter(|code| Some(*code) != root);
    root.is_some() && codes.into_iter().eq(parts.chain([ABSENT]))
}

/// The child code that ends the z-chain from a slot, if there is an end within n steps.
fn z_end(modes: usize, tree: &[u16], slot: usize) -> Option<u16> {
    let mut code = tree[slot];
    for _ in 0..modes {
        if code as usize >= modes {
            return Some(code);
        }
        code = tree[3 * code as usize + 2];
    }
    None
}

/// Whether the z-chains from each node's X and Y end in leaves 2k and 2k+1.
fn has_pairs(modes: usize, tree: &[u16]) -> bool {
    (0..modes).all(|node| {
        let ends = [0, 1].map(|edge| z_end(modes, tree, 3 * node + edge));
        matches!(ends, [Some(x), Some(y)] if (x as usize - modes) % 2 == 0 && y == x + 1)
    })
}

/// Whether every node leads up to the one that has no parent.
fn is_one_tree(modes: usize, tree: &[u16]) -> bool {
    let parent = |node: usize| tree.iter().position(|&code| code as usize == node);
    (0..modes).all(|node| {
        let climb = std::iter::successors(Some(node), |&node| parent(node).map(|slot| slot / 3));
        climb.take(modes + 1).count() <= modes
    })
}

#[test]
fn trees_are_accepted() {
    let mut random = Random::new(1);
    for modes in (1..=24).chain([256]) {
        for growth in GROWTHS {
            let tree = tree(&mut random, modes, growth);
            assert!(has_each_part_once(modes, &tree), "{growth:?} {tree:?}");
            assert!(is_one_tree(modes, &tree), "{growth:?} {tree:?}");
            assert!(has_pairs(modes, &tree), "{growth:?} {tree:?}");
        }
    }
}

#[test]
fn rows_are_good() {
    let mut random = Random::new(2);
    for modes in (1..=24).chain([256]) {
        for shape in SHAPES {
            for row in terms(&mut random, modes, 40, shape) {
                assert!((1..=7).contains(&row.len()), "{shape:?} {row:?}");
                assert!(row.is_sorted(), "{shape:?} {row:?}");
                assert!(row.iter().all(|&index| (index as usize) < 2 * modes));
            }
        }
    }
}
