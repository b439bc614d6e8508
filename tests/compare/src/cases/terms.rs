//! Lists of terms: rows of 1 to 7 indices below 2n that never descend.

use super::Random;

/// The most indices that a row can have.
const MOST_INDICES: usize = 7;

/// What the rows of a list look like.
#[derive(Debug, Clone, Copy, PartialEq, Eq)]
pub enum Shape {
    /// One index a row.
    OneIndex,
    /// Seven indices a row.
    Seven,
    /// Any number of indices a row, equal ones by chance.
    AnyLength,
    /// No two equal indices in a row.
    Distinct,
    /// Indices of a row drawn from one or two, so that most of them are equal.
    Repeated,
    /// Rows drawn from a few, so that most of them are equal.
    EqualRows,
    /// Indices drawn from those of three modes, so that rows soon become equal or go away.
    FewModes,
    /// Pairs and quads as fermionic numbers, hoppings and interactions give them.
    Chemistry,
    /// Each row of a shape of its own.
    Mixed,
}

pub const SHAPES: [Shape; 9] = [
    Shape::OneIndex,
    Shape::Seven,
    Shape::AnyLength,
    Shape::Distinct,
    Shape::Repeated,
    Shape::EqualRows,
    Shape::FewModes,
    Shape::Chemistry,
    Shape::Mixed,
];

/// A list of so many terms of a shape; no terms at all when the count is 0.
pub fn terms(random: &mut Random, modes: usize, count: usize, shape: Shape) -> Vec<Vec<u16>> {
    if shape == Shape::EqualRows {
        let few = terms(random, modes, count.div_ceil(3), Shape::AnyLength);
        return (0..count)
            .map(|_| few[random.below(few.len())].clone())
            .collect();
    }
    (0..count).map(|_| row(random, modes, shape)).collect()
}

/// A list of at most so many terms of any shape.
pub fn any_terms(random: &mut Random, modes: usize, most: usize) -> Vec<Vec<u16>> {
    let count = random.between(0, most);
    let shape = random.one_of(&SHAPES);
    terms(random, modes, count, shape)
}

/// The flat form of document 01: eight numbers a row, which are its length, its indices, then zeros.
pub fn flat(terms: &[Vec<u16>]) -> Vec<u16> {
    let mut numbers = Vec::with_capacity(8 * terms.len());
    for row in terms {
        let end = numbers.len() + 8;
        numbers.push(row.len() as u16);
        numbers.extend(row);
        numbers.resize(end, 0);
    }
    numbers
}

/// One row of a shape.
fn row(random: &mut Random, modes: usize, shape: Shape) -> Vec<u16> {
    let length = random.between(1, MOST_INDICES);
    let mut row = match shape {
        Shape::OneIndex => indices_below(random, 2 * modes, 1),
        Shape::Seven => indices_below(random, 2 * modes, MOST_INDICES),
        Shape::AnyLength | Shape::EqualRows => indices_below(random, 2 * modes, length),
        Shape::Distinct => distinct_indices(random, modes, length),
        Shape::Repeated => repeated_indices(random, modes, length),
        Shape::FewModes => indices_below(random, 2 * modes.min(3), length),
        Shape::Chemistry => chemistry_indices(random, modes),
        Shape::Mixed => {
            let shape = random.one_of(&SHAPES[..SHAPES.len() - 1]);
            return self::row(random, modes, shape);
        }
    };
    row.sort_unstable();
    row
}

/// So many indices below a limit.
fn indices_below(random: &mut Random, limit: usize, length: usize) -> Vec<u16> {
    (0..length).map(|_| random.below(limit) as u16).collect()
}

/// So many different indices, or all of them where there are fewer.
fn distinct_indices(random: &mut Random, modes: usize, length: usize) -> Vec<u16> {
    let order = random.permutation(2 * modes);
    order.into_iter().take(length).map(|i| i as u16).collect()
}

/// So many indices, each one of the same two.
fn repeated_indices(random: &mut Random, modes: usize, length: usize) -> Vec<u16> {
    let two = indices_below(random, 2 * modes, 2);
    (0..length).map(|_| random.one_of(&two)).collect()
}

/// The indices of a number, a hopping, an interaction of two numbers, or a product of two hoppings.
fn chemistry_indices(random: &mut Random, modes: usize) -> Vec<u16> {
    let mut mode = || random.below(modes) as u16;
    let (p, q, r, s) = (mode(), mode(), mode(), mode());
    match random.below(5) {
        0 => vec![2 * p, 2 * p + 1],
        1 => vec![2 * p, 2 * q + 1],
        2 => vec![2 * p, 2 * p + 1, 2 * q, 2 * q + 1],
        3 => vec![2 * p, 2 * q + 1, 2 * r, 2 * s + 1],
        _ => vec![2 * p, 2 * q, 2 * r + 1, 2 * s + 1],
    }
}
