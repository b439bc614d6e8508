//! The boundary list below P10, each value on both of its sides.

mod common;

use common::*;

#[test]
fn modes() {
    accepted(256, &[], "");
    assert_eq!(refused(257, &[], ""), (1, 0));
    assert_eq!(refused(0, &[], ""), (1, 0));
    assert_eq!(refused(usize::MAX, &[], ""), (1, 0));
}

#[test]
fn index() {
    accepted(3, &flat(&[&[0], &[5]]), "");
    assert_eq!(refused(3, &flat(&[&[0], &[6]]), ""), (4, 1));
}

#[test]
fn number_of_terms() {
    accepted(1, &flat(&[[0].as_slice(); 2048]), "");
    assert_eq!(refused(1, &flat(&[[0].as_slice(); 2049]), ""), (3, 0));
}

#[test]
fn number_of_lines() {
    let answer = accepted(2, &p3(), P3_JOURNAL);
    assert_eq!((answer.done.trials, answer.done.new), (0, 0));
    assert_eq!(answer.done.kept, P3_JOURNAL.len());
    assert_eq!(answer.done.weight, 4);
    let one_more = format!("{P3_JOURNAL}2\t0\t0\t0\t0\n");
    assert_eq!(refused(2, &p3(), &one_more), (12, 3));
}

#[test]
fn journal_room() {
    let terms = p3();
    let exact = Lent::new(27, 8, 58, 2);
    assert!(exact.clone().resume(2, &terms, "").is_ok());
    let short = Lent::new(27, 8, 57, 2);
    assert_eq!(refused_with(short.clone(), 2, &terms, ""), (5, 0));
    // The room is asked for whole, even where nothing is left to write.
    assert_eq!(refused_with(short, 2, &terms, P3_JOURNAL), (5, 0));
}

#[test]
fn other_rooms() {
    let terms = p3();
    for (work, rows, drops) in [(26, 8, 2), (27, 7, 2), (27, 8, 1)] {
        let short = Lent::new(work, rows, 58, drops);
        assert_eq!(refused_with(short, 2, &terms, ""), (5, 0));
    }
    assert!(Lent::new(0, 4, 37, 1).resume(1, &[], "").is_ok());
    let assign = |lengths| assigned_with(lengths, 2, &P3_TREE, 0, &p3());
    assert!(assign((27, 6)).is_ok());
    assert_eq!(assign((26, 6)), Err((5, 0)));
    assert_eq!(assign((27, 5)), Err((5, 0)));
}

/// The longest journal there can be fills its room exactly: all three-digit numbers and weight 2048.
#[test]
fn longest_lines() {
    assert_eq!("hatt\t1\t256\t2048\n".len(), 16);
    assert_eq!("255\t767\t766\t765\t2048\n".len(), 21);
}
