//! Compares the plain program with the oracle on seeded inputs, and its journals with themselves and the proved library; prints counts by kind.

mod best;
mod bounds;
mod calls;
mod cuts;
mod damage;
mod finished;
mod invariants;
mod judge;
mod keeping;
mod refused;
mod rust;
mod tally;

use compare::cases::Random;
use rust::{assign, hatt, short};
use tally::Tally;

/// The seed that is used when none is given.
const SEED: u64 = 1;

fn main() {
    let given = std::env::args().nth(1);
    let seed = given.map_or(SEED, |text| text.parse().expect("the seed is a number"));
    println!("seed {seed}");
    let mut tally = Tally::default();
    let parts = [
        hatt::on_small,
        hatt::on_large,
        assign::on_small,
        assign::on_large,
        cuts::cut_everywhere,
        cuts::wander,
        damage::damage_everywhere,
        bounds::boundaries,
        refused::assign_refused,
        hatt::on_every,
        hatt::on_counts,
        short::on_all_short,
        assign::on_every,
        keeping::hatt,
        keeping::cut_everywhere,
        keeping::assign,
        best::on_good,
        best::on_damaged,
    ];
    // Each part has its own seed, so that a change to one leaves the inputs of the others alone.
    for (number, part) in parts.iter().enumerate() {
        let mut random = Random::new(seed.wrapping_mul(1000) + number as u64);
        part(&mut random, &mut tally);
    }
    print!("{tally}");
    if tally.disagreed() {
        std::process::exit(1);
    }
}
