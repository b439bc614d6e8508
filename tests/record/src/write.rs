//! A case and its answer as lines of text, in the form that tests/record/README.md gives.

use crate::assign_cases::AssignCase;
use crate::hatt_cases::HattCase;
use crate::tree_cases::TreeCase;
use compare::cases::ABSENT;

/// Writes a HATT case: modes, terms, weight and the rows in their order.
pub fn hatt_case(text: &mut String, case: &HattCase, answer: &(Vec<[u16; 4]>, usize)) {
    let (rows, weight) = answer;
    line(text, "modes", &[case.modes.to_string()]);
    term_lines(text, &case.terms);
    line(text, "weight", &[weight.to_string()]);
    for [label, children @ ..] in rows {
        node_line(text, *label as usize, children);
    }
}

/// Writes an assign case: modes, tree, heuristic, terms, weight and the table by label.
pub fn assign_case(text: &mut String, case: &AssignCase, answer: &(Vec<u16>, usize)) {
    let (table, weight) = answer;
    line(text, "modes", &[case.modes.to_string()]);
    for children in case.tree.chunks(3) {
        line(text, "tree", &codes(children));
    }
    line(text, "heuristic", &[case.heuristic.to_string()]);
    term_lines(text, &case.terms);
    line(text, "weight", &[weight.to_string()]);
    for (label, children) in table.chunks(3).enumerate() {
        node_line(text, label, children);
    }
}

/// Writes a tree case: modes, tree, terms, and the tree weight or the refusal with its place.
pub fn tree_case(text: &mut String, case: &TreeCase, answer: &Result<u64, plain::Refusal>) {
    line(text, "modes", &[case.modes.to_string()]);
    for children in case.tree.chunks(3) {
        line(text, "tree", &codes(children));
    }
    term_lines(text, &case.terms);
    match answer {
        Ok(weight) => line(text, "weight", &[weight.to_string()]),
        Err(refusal) => {
            let fields = [refusal.number.to_string(), refusal.place.to_string()];
            line(text, "refused", &fields);
        }
    }
}

/// Writes one line a term.
fn term_lines(text: &mut String, terms: &[Vec<u16>]) {
    for row in terms {
        let indices: Vec<String> = row.iter().map(u16::to_string).collect();
        line(text, "term", &indices);
    }
}

/// Writes a node's label and its three child codes.
fn node_line(text: &mut String, label: usize, children: &[u16]) {
    let mut fields = vec![label.to_string()];
    fields.extend(codes(children));
    line(text, "node", &fields);
}

/// Child codes in text, where the absent child is a dash.
fn codes(children: &[u16]) -> Vec<String> {
    let code = |&code: &u16| match code {
        ABSENT => "-".to_string(),
        code => code.to_string(),
    };
    children.iter().map(code).collect()
}

/// Writes a word and its fields, parted by tabs and ended by LF.
fn line(text: &mut String, word: &str, fields: &[String]) {
    text.push_str(word);
    for field in fields {
        text.push('\t');
        text.push_str(field);
    }
    text.push('\n');
}
