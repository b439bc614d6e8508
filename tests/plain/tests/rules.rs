//! The two rules of W-209: what is kept, its header, and refusals 20 and 7.

mod common;

use common::*;
use plain::terms::work_room;
use plain::{Done, Refusal};

/// HATT's journal and drops by a rule, or the refusal's number.
fn resumed(
    modes: usize,
    rule: usize,
    terms: &[u16],
    read: &str,
) -> Result<(Done, String, Vec<u16>), u16> {
    let (mut work, mut rows) = (vec![0; work_room(terms)], vec![0; 4 * modes]);
    let (mut new, mut drops) = (vec![0; 16 + 21 * modes], vec![0; modes]);
    let done = plain::resume(
        modes,
        rule,
        terms,
        read.as_bytes(),
        &mut work,
        &mut rows,
        &mut new,
        &mut drops,
    )
    .map_err(|Refusal { number, .. }| number)?;
    new.truncate(done.new);
    Ok((done, String::from_utf8(new).unwrap(), drops))
}

fn journal(modes: usize, rule: usize, terms: &[u16], read: &str) -> Result<(Done, String), u16> {
    let (done, new, _) = resumed(modes, rule, terms, read)?;
    Ok((done, new))
}

#[test]
fn a_row_left_with_only_the_parent() {
    let terms = flat(&[&[0, 1, 2]]);
    let (dropped, published) = journal(2, 0, &terms, "").unwrap();
    assert_eq!(published, "hatt\t1\t2\t1\n0\t0\t1\t2\t0\n1\t5\t3\t4\t0\n");
    let (kept, keep) = journal(2, 1, &terms, "").unwrap();
    assert_eq!(keep, "keep\t1\t2\t1\n0\t0\t1\t2\t0\n1\t5\t3\t4\t1\n");
    assert_eq!((dropped.weight, kept.weight), (0, 1));
}

#[test]
fn equal_rows_still_merge() {
    // 0 and 1 both become the parent: one row, so the second step weighs three and not four
    let terms = flat(&[&[0], &[1], &[2], &[3]]);
    assert_eq!(journal(2, 0, &terms, "").unwrap().0.weight, 4);
    assert_eq!(journal(2, 1, &terms, "").unwrap().0.weight, 5);
}

#[test]
fn drops_of_each_step() {
    let drops = |rule, terms: &[&[u16]]| resumed(2, rule, &flat(terms), "").unwrap().2;
    // P3: 01 goes in step 0, the other two in step 1
    assert_eq!(drops(0, &P3_ROWS), [1, 2]);
    // each row three times: its copies are one row after step 0, which stands for three
    let thrice: Vec<&[u16]> = P3_ROWS.iter().flat_map(|row| [*row; 3]).collect();
    assert_eq!(drops(0, &thrice), [3, 6]);
    assert_eq!(drops(1, &thrice), [0, 0]);
}

#[test]
fn refusals_20_and_7() {
    assert_eq!(journal(2, 2, &[1], "x\n"), Err(20));
    assert_eq!(journal(0, 2, &[1], "x\n"), Err(1));
    assert_eq!(journal(2, 0, &[], "keep\t1\t2\t0\n"), Err(7));
    assert_eq!(journal(2, 1, &[], "hatt\t1\t2\t0\n"), Err(7));
    assert_eq!(journal(2, 1, &[], "kept\t1\t2\t0\n"), Err(6));
    assert_eq!(journal(2, 1, &[], "keep\t2\t2\t0\n"), Err(6));
    let assigned = plain::assign(2, 2, &[], 3, &[1], &mut [], &mut []);
    assert_eq!(assigned.unwrap_err().number, 20);
}
