//! `assign`.

use super::{from_c, BEYOND, PUBLISHED};
use crate::tally::equal;
use compare::proved::{self, c};
use compare::{numbers, BYTE_MARK, MARK};
use plain::terms::work_room;
use plain::Refusal;

/// Assigns by the published rule where 01 leaves no ground for a refusal; returns the table and the weight.
pub fn assign(
    modes: usize,
    tree: &[u16],
    heuristic: usize,
    terms: &[u16],
) -> Result<(Vec<u16>, u64), String> {
    assign_by(PUBLISHED, modes, tree, heuristic, terms)
}

/// The same by the rule of this number.
pub fn assign_by(
    rule: usize,
    modes: usize,
    tree: &[u16],
    heuristic: usize,
    terms: &[u16],
) -> Result<(Vec<u16>, u64), String> {
    let rooms = (work_room(terms) + BEYOND, 3 * modes + BEYOND);
    let (answer, mut work, mut table) = assign_in(rule, modes, tree, heuristic, terms, rooms)?;
    let weight = answer.map_err(|refusal| format!("refused: {refusal:?}"))?;
    let beyond = table.split_off(3 * modes);
    equal("table's rest stays", beyond, vec![MARK; BEYOND])?;
    let beyond = work.split_off(work_room(terms));
    equal("work's rest stays", beyond, vec![MARK; BEYOND])?;
    equal("work is zero", work, vec![0; work_room(terms)])?;
    Ok((table, weight))
}

/// Assigns with these rooms for work and table: the plain program's answer, and both slices after it. The error says that the proved library answers or leaves anything else.
pub fn assign_in(
    rule: usize,
    modes: usize,
    tree: &[u16],
    heuristic: usize,
    terms: &[u16],
    rooms: (usize, usize),
) -> Result<(Result<u64, Refusal>, Vec<u16>, Vec<u16>), String> {
    let marked = || (vec![MARK; rooms.0], vec![MARK; rooms.1]);
    let (mut work, mut table) = marked();
    let answer = plain::assign(modes, rule, tree, heuristic, terms, &mut work, &mut table);
    let numbers = numbers(answer);
    let mut ours = marked();
    let (own_work, own_table) = (&mut ours.0, &mut ours.1);
    let proved = proved::assign(modes, rule, tree, heuristic, terms, own_work, own_table);
    equal("proved numbers", proved, numbers)?;
    equal("proved work", &ours.0, &work)?;
    equal("proved table", &ours.1, &table)?;
    // Work is the C call's own, so that too little of it can't be lent; and it knows the published rule alone.
    if rooms.0 >= work_room(terms) && rule == PUBLISHED {
        c_alike(modes, tree, heuristic, terms, numbers, &table)?;
    }
    if answer.is_err() {
        equal("work stays", &work, &vec![MARK; rooms.0])?;
        equal("table stays", &table, &vec![MARK; rooms.1])?;
    }
    Ok((answer, work, table))
}

/// The call for C, with bytes as the table's were: the same numbers, and every byte as the plain program left it.
fn c_alike(
    modes: usize,
    tree: &[u16],
    heuristic: usize,
    terms: &[u16],
    numbers: [u64; 3],
    left: &[u16],
) -> Result<(), String> {
    let mut table = vec![BYTE_MARK; 2 * left.len()];
    let mut weight = from_c::marked_answer(1);
    let result = c::assign(modes, tree, heuristic, terms, &mut table, &mut weight);
    from_c::tells(result, &weight, &numbers)?;
    equal("C table", table, c::two_bytes(left))
}
