//! Journals cut at every byte and resumed, and journals of any lawful merges resumed.

use crate::calls::{accepted, Finished};
use crate::invariants::{hold, kept_part};
use crate::tally::{equal, Tally};
use compare::cases::{any_terms, flat, Random};
use plain::merging::{Merge, Merging};
use plain::terms::{read_terms, Rule};

/// Unbroken runs of 1 to 12 modes and some larger, their journals cut at every byte.
pub fn cut_everywhere(random: &mut Random, tally: &mut Tally) {
    for modes in (1..=12).chain([20, 33]) {
        for _ in 0..if modes > 12 { 1 } else { 8 } {
            let terms = flat(&any_terms(random, modes, 20));
            let unbroken = accepted(modes, &terms, &[]).expect("good terms are accepted");
            for cut in 0..=unbroken.new.len() {
                let read = &unbroken.new[..cut];
                let input = || describe(modes, &terms, read);
                let comparison = || cut_agrees(modes, &terms, read, &unbroken);
                tally.compare(
                    "journals cut and resumed",
                    1000 * modes + cut,
                    input,
                    comparison,
                );
            }
        }
    }
}

/// Same rows, same weight, and kept bytes with new bytes are the unbroken journal.
fn cut_agrees(modes: usize, terms: &[u16], read: &[u8], unbroken: &Finished) -> Result<(), String> {
    let finished = accepted(modes, terms, read)?;
    equal("rows", &finished.rows, &unbroken.rows)?;
    equal("weight", finished.done.weight, unbroken.done.weight)?;
    let whole = [kept_part(read), &finished.new].concat();
    equal("journal", &whole, &unbroken.new)?;
    hold(modes, terms, read, &finished)
}

/// Journals of merges that are lawful but mostly not the least, each accepted: of every length for
/// 1 to 12 modes, and nearly whole ones for the most modes, whose numbers have three digits.
pub fn wander(random: &mut Random, tally: &mut Tally) {
    for modes in 1..=12 {
        for _ in 0..30 {
            wander_once(random, tally, modes, modes + 1);
        }
    }
    for modes in [34, 100, 256] {
        wander_once(random, tally, modes, 12);
    }
}

/// One wandering journal, cut after each of its last lines.
fn wander_once(random: &mut Random, tally: &mut Tally, modes: usize, last_lines: usize) {
    let terms = flat(&any_terms(random, modes, 20));
    let journal = wandering(random, modes, &terms);
    let ends = (0..journal.len()).rev();
    for end in ends.filter(|&end| journal[end] == b'\n').take(last_lines) {
        let read = &journal[..=end];
        let size = 1000 * modes + end;
        let input = || describe(modes, &terms, read);
        let comparison = || hold(modes, &terms, read, &accepted(modes, &terms, read)?);
        tally.compare("journals of any lawful merges", size, input, comparison);
    }
}

/// The whole journal of a run that takes any lawful triple at each step.
pub fn wandering(random: &mut Random, modes: usize, terms: &[u16]) -> Vec<u8> {
    let rows = read_terms(modes, terms).expect("good terms");
    let mut journal = format!("hatt\t1\t{modes}\t{}\n", rows.len());
    let mut merging = Merging::new(modes, Rule::Published, rows);
    for step in 0..modes {
        let triple = random.one_of(&merging.lawful_pairs());
        let weight = merging.weigh(triple);
        merging.merge(Merge { triple, weight });
        let [x, y, z] = triple;
        journal += &format!("{step}\t{x}\t{y}\t{z}\t{weight}\n");
    }
    journal.into_bytes()
}

/// The input of a resume, for a disagreement's report.
pub fn describe(modes: usize, terms: &[u16], read: &[u8]) -> String {
    let rows: Vec<&[u16]> = terms
        .chunks(8)
        .map(|row| &row[1..=usize::from(row[0])])
        .collect();
    let text = String::from_utf8_lossy(read);
    format!("modes {modes}, terms {rows:?}, journal {text:?}")
}
