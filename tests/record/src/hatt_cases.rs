//! The HATT inputs that are recorded.

use compare::cases::{terms, Random, Shape, SHAPES};

pub struct HattCase {
    pub kind: &'static str,
    pub modes: usize,
    pub terms: Vec<Vec<u16>>,
}

const SEED: u64 = 1;

/// Every HATT case, in the order of the file.
pub fn all() -> Vec<HattCase> {
    let random = &mut Random::new(SEED);
    let mut cases = examples();
    cases.extend(dense(random));
    cases.extend(shapes(random));
    cases.extend(large(random));
    cases.extend(most_modes(random));
    cases
}

/// The inputs of document 01's examples P1 to P4; P5 has P3's.
fn examples() -> Vec<HattCase> {
    let inputs: [(usize, &[&[u16]]); 4] = [
        (1, &[&[0, 1]]),
        (1, &[&[0, 1], &[0, 1]]),
        (2, &[&[0, 1], &[2, 3], &[0, 1, 2, 3]]),
        (2, &[&[2], &[2]]),
    ];
    let case = |(modes, terms): (usize, &[&[u16]])| HattCase {
        kind: "examples of document 01",
        modes,
        terms: terms.iter().map(|row| row.to_vec()).collect(),
    };
    inputs.into_iter().map(case).collect()
}

/// Each number of modes from 1 to 12 with each number of terms from 0 to 24, the shapes taken in turn.
fn dense(random: &mut Random) -> Vec<HattCase> {
    let kind = "1 to 12 modes, 0 to 24 terms";
    let pairs = (1..=12).flat_map(|modes| (0..=24).map(move |count| (modes, count)));
    pairs
        .map(|(modes, count)| {
            let shape = SHAPES[(modes + count) % SHAPES.len()];
            made(random, kind, modes, count, shape)
        })
        .collect()
}

/// Each number of modes from 1 to 12 with 24 terms of each shape.
fn shapes(random: &mut Random) -> Vec<HattCase> {
    let kind = "1 to 12 modes, each shape";
    let pairs = (1..=12).flat_map(|modes| SHAPES.map(|shape| (modes, shape)));
    pairs
        .map(|(modes, shape)| made(random, kind, modes, 24, shape))
        .collect()
}

/// Some larger numbers of modes.
fn large(random: &mut Random) -> Vec<HattCase> {
    let kind = "16 to 64 modes";
    let modes = [16, 20, 24, 32, 40, 48, 56, 64];
    let shapes = [Shape::AnyLength, Shape::Chemistry, Shape::Mixed];
    let pairs = modes
        .into_iter()
        .flat_map(|modes| shapes.map(|shape| (modes, shape)));
    pairs
        .map(|(modes, shape)| made(random, kind, modes, 32, shape))
        .collect()
}

/// The most modes there can be, with few terms.
fn most_modes(random: &mut Random) -> Vec<HattCase> {
    [Shape::Chemistry, Shape::Mixed]
        .map(|shape| made(random, "256 modes", 256, 6, shape))
        .into()
}

/// One case with terms made from the seed.
fn made(
    random: &mut Random,
    kind: &'static str,
    modes: usize,
    count: usize,
    shape: Shape,
) -> HattCase {
    let terms = terms(random, modes, count, shape);
    HattCase { kind, modes, terms }
}
