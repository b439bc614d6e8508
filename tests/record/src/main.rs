//! Records the oracle's answers as hatt.txt and assign.txt in the folder named, the plain program's as tree.txt, and prints how many cases of each kind there are.

mod assign_cases;
mod hatt_cases;
mod recording;
mod tally;
mod tree_cases;
mod write;

use compare::cases::flat;
use recording::Recording;
use std::path::PathBuf;
use std::{env, io};

fn main() -> io::Result<()> {
    let folder = PathBuf::from(env::args().nth(1).expect("usage: record FOLDER"));
    hatt().finish(&folder, "hatt")?;
    assign().finish(&folder, "assign")?;
    tree().finish(&folder, "tree")
}

/// Every HATT case, with the oracle's answers.
fn hatt() -> Recording {
    let mut recording = Recording::default();
    for case in hatt_cases::all() {
        let answer = oracle::hatt(case.modes, &case.terms);
        write::hatt_case(&mut recording.text, &case, &answer);
        recording.count(case.kind);
        recording.marks.count_terms(&case.terms);
    }
    recording
}

/// Every assign case, with the oracle's answers.
fn assign() -> Recording {
    let mut recording = Recording::default();
    for case in assign_cases::all() {
        let answer = oracle::assign(case.modes, &case.tree, case.heuristic, &case.terms);
        write::assign_case(&mut recording.text, &case, &answer);
        recording.count(case.kind);
        let heuristics = ["min_weight", "x_first", "z_first"];
        recording.marks.count(heuristics[case.heuristic]);
        recording.marks.count_terms(&case.terms);
    }
    recording
}

/// Every tree case, which the oracle has no counterpart for, with the plain program's answers.
fn tree() -> Recording {
    let mut recording = Recording::default();
    for case in tree_cases::all() {
        let answer = plain::tree_weight(case.modes, &case.tree, &flat(&case.terms));
        write::tree_case(&mut recording.text, &case, &answer);
        recording.count(case.kind);
        let number = answer.map_or_else(|refusal| refusal.number, |_| 0);
        recording.marks.count(match number {
            0 => "a weight",
            13 => "refusal 13",
            14 => "refusal 14",
            15 => "refusal 15",
            _ => "refusal 16",
        });
    }
    recording
}
