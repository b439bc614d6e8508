//! Times HATT and assign on the same input by the proved library, ferrmion's Rust and the plain program, and `best`, which the Rust has not, by the two others; prints medians and ratios.

use compare::cases::{any_tree, flat, terms, Random, Shape};
use compare::proved;
use plain::terms::work_room;
use std::hint::black_box;

/// Runs of each; the median of them counts.
const RUNS: usize = 5;

/// Modes above which one run of each must do: the Rust takes half a minute there.
const SHORT_MODES: usize = 64;

extern "C" {
    fn clock() -> i64;
}

/// Processor time in milliseconds, which other work on the machine leaves alone.
fn processor_time() -> f64 {
    // C's clock counts microseconds here; it reads and returns a number and nothing else.
    unsafe { clock() as f64 / 1000.0 }
}

fn timed(run: impl Fn() -> u64) -> (u64, f64) {
    let start = processor_time();
    let answer = black_box(run());
    (answer, processor_time() - start)
}

fn median(mut times: Vec<f64>) -> f64 {
    times.sort_by(f64::total_cmp);
    times[times.len() / 2]
}

/// The three take turns, so that a slow moment of the machine falls on all of them.
fn compare(
    name: &str,
    runs: usize,
    ours: impl Fn() -> u64,
    theirs: impl Fn() -> u64,
    plainly: impl Fn() -> u64,
) {
    let (mut our_times, mut their_times, mut plain_times) = (vec![], vec![], vec![]);
    for _ in 0..runs {
        let (our_weight, our_time) = timed(&ours);
        let (their_weight, their_time) = timed(&theirs);
        let (plain_weight, plain_time) = timed(&plainly);
        let others = (their_weight, plain_weight);
        assert_eq!((our_weight, our_weight), others, "the weights differ");
        our_times.push(our_time);
        their_times.push(their_time);
        plain_times.push(plain_time);
    }
    let (ours, theirs, plainly) = (median(our_times), median(their_times), median(plain_times));
    println!(
        "{name}: ours {ours:.1} ms, Rust {theirs:.0} ms, plain {plainly:.0} ms; ours / Rust {:.4}, ours / plain {:.4}",
        ours / theirs,
        ours / plainly
    );
}

fn hatt(kind: &str, modes: usize, count: usize, shape: Shape) {
    let terms = terms(&mut Random::new(1), modes, count, shape);
    let numbers = flat(&terms);
    let lent = || {
        let (work, rows) = (vec![0; work_room(&numbers)], vec![0; 4 * modes]);
        (work, rows, vec![0; 16 + 21 * modes], vec![0; modes])
    };
    compare(
        &format!("HATT, {modes} modes, {count} terms, {kind}"),
        if modes > SHORT_MODES { 1 } else { RUNS },
        || {
            let (mut work, mut rows, mut journal, mut drops) = lent();
            proved::resume(
                modes,
                0,
                &numbers,
                &[],
                &mut work,
                &mut rows,
                &mut journal,
                &mut drops,
            )[2]
        },
        || oracle::hatt(modes, &terms).1 as u64,
        || {
            let (mut work, mut rows, mut journal, mut drops) = lent();
            let done = plain::hatt(
                modes,
                0,
                &numbers,
                &mut work,
                &mut rows,
                &mut journal,
                &mut drops,
            );
            done.expect("the terms are good").weight
        },
    );
}

/// Under `min_weight`.
fn assign(kind: &str, modes: usize, count: usize, shape: Shape) {
    let mut random = Random::new(1);
    let terms = terms(&mut random, modes, count, shape);
    let tree = any_tree(&mut random, modes);
    let numbers = flat(&terms);
    let lent = || (vec![0; work_room(&numbers)], vec![0; 3 * modes]);
    compare(
        &format!("assign, {modes} modes, {count} terms, {kind}"),
        RUNS,
        || {
            let (mut work, mut table) = lent();
            proved::assign(modes, 0, &tree, 0, &numbers, &mut work, &mut table)[2]
        },
        || oracle::assign(modes, &tree, 0, &terms).1 as u64,
        || {
            let (mut work, mut table) = lent();
            let weight = plain::assign(modes, 0, &tree, 0, &numbers, &mut work, &mut table);
            weight.expect("tree and terms are good")
        },
    );
}

/// Of the most modes that it takes, which is to be done within a second.
fn best(kind: &str, modes: usize, count: usize, shape: Shape) {
    let numbers = flat(&terms(&mut Random::new(1), modes, count, shape));
    let (ours, our_time) = timed(|| proved::best(modes, &numbers, &mut vec![0; 3 * modes])[2]);
    let (plainly, plain_time) = timed(|| {
        let found = plain::best(modes, &numbers);
        found.expect("the terms are good").least
    });
    assert_eq!(ours, plainly, "the least weights differ");
    assert!(our_time < 1000.0, "best took {our_time:.0} ms");
    println!("best, {modes} modes, {count} terms, {kind}: ours {our_time:.1} ms, plain {plain_time:.0} ms");
}

fn main() {
    for (kind, shape) in [("chemistry", Shape::Chemistry), ("mixed", Shape::Mixed)] {
        hatt(kind, 16, 512, shape);
        // how the time grows with the modes, and with the terms
        hatt(kind, 32, 2048, shape);
        hatt(kind, 64, 512, shape);
        hatt(kind, 64, 2048, shape);
        hatt(kind, 128, 2048, shape);
        assign(kind, 32, 512, shape);
        assign(kind, 64, 2048, shape);
        best(kind, 4, 2048, shape);
    }
}
