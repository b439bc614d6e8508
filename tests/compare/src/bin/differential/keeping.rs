//! The keeping rule, of which the Rust knows nothing: the proved library against the plain program, HATT, resume and assign alike.

use crate::calls::{assign_by, resume_by, Finished, KEEP, PUBLISHED};
use crate::cuts::describe;
use crate::finished::{is_accepted, not_below_best, weighs_at_least};
use crate::invariants::{kept_part, total_trials};
use crate::tally::{equal, Tally};
use compare::cases::{any_terms, any_tree, flat, terms, tree_of_rows, Random, Shape, SHAPES};
use plain::Refusal;

/// Unbroken runs of every number of modes from 1 to 12, every shape and some larger.
pub fn hatt(random: &mut Random, tally: &mut Tally) {
    for modes in 1..=12 {
        for shape in SHAPES {
            for _ in 0..16 {
                let count = random.between(0, 4 * modes);
                unbroken(tally, modes, &flat(&terms(random, modes, count, shape)));
            }
        }
    }
    for (modes, count) in [(20, 300), (64, 256), (256, 8)] {
        unbroken(
            tally,
            modes,
            &flat(&terms(random, modes, count, Shape::Mixed)),
        );
    }
}

fn unbroken(tally: &mut Tally, modes: usize, terms: &[u16]) {
    let input = || describe(modes, terms, &[]);
    let size = 1000 * modes + terms.len();
    tally.compare("kept rows: HATT", size, input, || {
        let finished = accepted(modes, terms, &[])?;
        equal("trials", finished.done.trials, total_trials(modes))
    });
}

/// A run that is accepted, whose tree the check accepts and whose weight is at most the tree's.
fn accepted(modes: usize, terms: &[u16], read: &[u8]) -> Result<Finished, String> {
    let finished =
        resume_by(KEEP, modes, terms, read)?.map_err(|refusal| format!("refused: {refusal:?}"))?;
    let tree = tree_of_rows(&finished.rows);
    is_accepted(modes, &tree)?;
    weighs_at_least(modes, &tree, terms, finished.done.weight)?;
    not_below_best(modes, &tree, terms)?;
    Ok(finished)
}

/// Journals cut at every byte and resumed; and each cut of two lines and more given to the other rule, and to one that there isn't.
pub fn cut_everywhere(random: &mut Random, tally: &mut Tally) {
    for modes in 1..=8 {
        for _ in 0..8 {
            let terms = flat(&any_terms(random, modes, 16));
            let whole = accepted(modes, &terms, &[]).expect("good terms are accepted");
            for cut in 0..=whole.new.len() {
                let read = &whole.new[..cut];
                let input = || describe(modes, &terms, read);
                let size = 1000 * modes + cut;
                tally.compare("kept rows: journals cut and resumed", size, input, || {
                    cut_agrees(modes, &terms, read, &whole)
                });
                tally.compare("kept rows: journals of the other rule", size, input, || {
                    other_refuses(modes, &terms, read)
                });
            }
        }
    }
}

/// Same rows, same weight, and kept bytes with new bytes are the unbroken journal.
fn cut_agrees(modes: usize, terms: &[u16], read: &[u8], whole: &Finished) -> Result<(), String> {
    let finished = accepted(modes, terms, read)?;
    equal("rows", &finished.rows, &whole.rows)?;
    equal("weight", finished.done.weight, whole.done.weight)?;
    let journal = [kept_part(read), &finished.new].concat();
    equal("journal", &journal, &whole.new)
}

/// A header of the other rule is 7, either way round; a rule that isn't one is 20, whatever the journal.
fn other_refuses(modes: usize, terms: &[u16], read: &[u8]) -> Result<(), String> {
    let number = |rule, read: &[u8]| -> Result<u16, String> {
        let answer = resume_by(rule, modes, terms, read)?;
        Ok(answer.map_or_else(|Refusal { number, .. }| number, |_| 0))
    };
    let wanted = if kept_part(read).is_empty() { 0 } else { 7 };
    equal("published", number(PUBLISHED, read)?, wanted)?;
    let renamed = [b"hatt".as_slice(), read.get(4..).unwrap_or_default()].concat();
    let wanted = if kept_part(&renamed).is_empty() { 0 } else { 7 };
    equal("keep", number(KEEP, &renamed)?, wanted)?;
    equal("no rule", number(2, read)?, 20)
}

/// Trees of 1 to 12 modes and some larger, under each heuristic.
pub fn assign(random: &mut Random, tally: &mut Tally) {
    for modes in (1..=12).chain([20, 40]) {
        for _ in 0..if modes > 12 { 2 } else { 60 } {
            let tree = any_tree(random, modes);
            let terms = flat(&any_terms(random, modes, 20));
            for heuristic in 0..3 {
                let input = || format!("{tree:?}, {}", describe(modes, &terms, &[]));
                let size = 1000 * modes + terms.len();
                tally.compare("kept rows: assign", size, input, || {
                    assign_by(KEEP, modes, &tree, heuristic, &terms).map(|_| ())
                });
            }
        }
    }
}
