//! Each refusal number 1 to 17 with its place, its order among the others, and nothing altered (18 has its own file).

mod common;

use common::*;
use plain::{check_tree, tree_weight, Refusal};

fn header_and(line: &str) -> String {
    format!("hatt\t1\t2\t3\n{line}")
}

/// Each line, in a journal between these others, is refused by its number.
fn each_is_refused(before: &str, lines: &[(&str, u16)], after: &str) {
    let place = 1 + before.lines().count();
    for &(line, number) in lines {
        let read = header_and(&format!("{before}{line}\n{after}"));
        assert_eq!(refused(2, &p3(), &read), (number, place), "{line:?}");
    }
}

fn tree_refusal(modes: usize, tree: &[u16]) -> (u16, usize) {
    let Refusal { number, place } = check_tree(modes, tree).unwrap_err();
    let weighed = tree_weight(modes, tree, &[1]).unwrap_err();
    assert_eq!(weighed, Refusal { number, place });
    assert_eq!(
        assigned(modes.min(300), tree, 3, &[1]),
        Err((number, place))
    );
    (number, place)
}

#[test]
fn one_to_three() {
    // 1 before 2, 2 before 3 and 4: a short last row isn't read.
    assert_eq!(refused(0, &[1], "x\n"), (1, 0));
    for length in (1..24).filter(|length| length % 8 != 0) {
        assert_eq!(refused(2, &vec![9; length], "x\n"), (2, 0));
    }
    assert_eq!(refused(1, &vec![9; 8 * 2049], "x\n"), (3, 0));
    assert_eq!(refused(1, &vec![9; 8 * 2049 + 1], "x\n"), (2, 0));
}

#[test]
fn four() {
    let good = [2, 0, 1, 0, 0, 0, 0, 0];
    let bad_rows = [
        [0, 0, 0, 0, 0, 0, 0, 0],
        [8, 0, 0, 0, 0, 0, 0, 0],
        [65535, 0, 0, 0, 0, 0, 0, 0],
        [2, 1, 0, 0, 0, 0, 0, 0],
        [1, 4, 0, 0, 0, 0, 0, 0],
        [2, 0, 4, 0, 0, 0, 0, 0],
        [1, 0, 0, 0, 0, 0, 0, 1],
        [1, 0, 1, 0, 0, 0, 0, 0],
        [6, 0, 0, 0, 0, 0, 0, 1],
    ];
    for bad in bad_rows {
        let terms = [good, bad, bad].concat();
        assert_eq!(refused(2, &terms, "x\n"), (4, 1), "{bad:?}");
        // 4 before 5.
        assert_eq!(refused_with(Lent::new(0, 0, 0, 0), 2, &terms, ""), (4, 1));
    }
    accepted(2, &[7, 0, 0, 1, 1, 2, 3, 3], "");
}

#[test]
fn five_before_any_line() {
    for lent in [Lent::new(27, 8, 57, 2), Lent::new(27, 8, 58, 1)] {
        assert_eq!(refused_with(lent, 2, &p3(), "x\n"), (5, 0));
    }
    assert_eq!(refused_with(Lent::new(0, 0, 0, 0), 2, &p3(), "x\n"), (5, 0));
}

#[test]
fn six_in_the_header() {
    let headers = [
        "",
        "hatt",
        "hatt\t1\t2",
        "hatt\t1\t2\t3\t",
        "hatt\t1\t2\t3\t4",
        "hat\t1\t2\t3",
        "Hatt\t1\t2\t3",
        "hattt\t1\t2\t3",
        "\t1\t2\t3",
        "hatt\t2\t2\t3",
        "hatt\t01\t2\t3",
        "hatt\t\t2\t3",
        "hatt\t1\t\t3",
        "hatt\t1\t02\t3",
        "hatt\t1\t2\t03",
        "hatt\t1\t2\t65536",
        "hatt\t1\t2\t000003",
        "hatt\t1\t2\t123456",
        "hatt\t1\t2\t3\r",
        "hatt 1 2 3",
        "hatt\t1\t2\t3 ",
        "hatt\t1\t2\thatt",
        "0\t0\t1\t2\t2",
        "hatt\t1\t9\tx",
    ];
    for header in headers {
        assert_eq!(
            refused(2, &p3(), &format!("{header}\n")),
            (6, 0),
            "{header:?}"
        );
    }
}

#[test]
fn six_in_a_merge_line() {
    let lines = [
        "",
        "\t\t\t\t",
        "0",
        "0\t0\t1\t2",
        "0\t0\t1\t2\t2\t",
        "0\t0\t1\t2\t2\t0",
        "0\t0\t1\t2\t",
        "\t0\t1\t2\t2",
        "00\t0\t1\t2\t2",
        "0\t00\t1\t2\t2",
        "0\t0\t01\t2\t2",
        "0\t0\t1\t2\t02",
        "0\t0\t1\t2\t65536",
        "0\t0\t1\t2\t99999",
        "0\t0\t1\t65538\t2",
        "0\t0\t1\t2\t000002",
        "0\t0\t1\t2\t2\r",
        "0\t0\t1\t2\tx",
        "a\t0\t1\t2\t2",
        "0 0 1 2 2",
        "0\t0\t1\t2\t-",
        "hatt\t1\t2\t3",
        "9\t9\t9\t9",
    ];
    for line in lines {
        let read = header_and(&format!("{line}\n"));
        assert_eq!(refused(2, &p3(), &read), (6, 1), "{line:?}");
    }
}

#[test]
fn every_byte_that_is_no_digit_breaks_a_number() {
    let terms = p3();
    for byte in (0..=255u8).filter(|byte| !byte.is_ascii_digit()) {
        let mut read = b"hatt\t1\t2\t3\n0\t0\t1\t2\t".to_vec();
        read.extend([byte, b'\n']);
        let mut lent = Lent::ample(2, &terms);
        let answer = lent.resume_bytes(2, &terms, &read);
        let refusal = Refusal {
            number: 6,
            place: 1,
        };
        assert_eq!(answer, Err(refusal), "byte {byte}");
        assert_eq!(lent, Lent::ample(2, &terms));
    }
}

#[test]
fn seven() {
    for header in [
        "hatt\t1\t1\t3\n",
        "hatt\t1\t2\t2\n",
        "hatt\t1\t0\t0\n",
        "hatt\t1\t65535\t3\n",
    ] {
        assert_eq!(refused(2, &p3(), &format!("{header}x\n")), (7, 0));
    }
}

#[test]
fn eight_to_eleven() {
    let cases = [
        ("1\t9\t9\t9\t9", 8),
        ("65535\t0\t1\t2\t2", 8),
        ("0\t0\t1\t5\t9", 9),
        ("0\t0\t7\t2\t9", 9),
        ("0\t65535\t1\t2\t9", 9),
        ("0\t5\t1\t2\t2", 9),
        ("0\t0\t0\t0\t9", 10),
        ("0\t0\t1\t1\t9", 10),
        ("0\t0\t1\t0\t9", 10),
        ("0\t0\t0\t1\t9", 10),
        ("0\t1\t0\t2\t2", 10),
        ("0\t0\t3\t2\t9", 10),
        ("0\t2\t1\t0\t9", 10),
        ("0\t4\t1\t0\t9", 10),
        ("0\t0\t4\t1\t9", 10),
        ("0\t0\t1\t2\t1", 11),
        ("0\t0\t1\t2\t3", 11),
        ("0\t0\t1\t4\t65535", 11),
    ];
    each_is_refused("", &cases, "x\n");
}

/// After the first merge its children are closed and its parent, 5, is open.
#[test]
fn eight_to_eleven_on_a_later_line() {
    let cases = [
        ("0\t0\t1\t2\t2", 8),
        ("2\t5\t3\t4\t2", 8),
        ("1\t2\t3\t4\t2", 9),
        ("1\t5\t3\t6\t2", 9),
        ("1\t3\t5\t4\t2", 10),
        ("1\t5\t4\t3\t2", 10),
        ("1\t5\t3\t4\t3", 11),
    ];
    each_is_refused("0\t0\t1\t2\t2\n", &cases, "");
}

/// "12 comes before 6 on its line", and "the first bad journal line wins".
#[test]
fn twelve() {
    for line in ["", "x", "2\t0\t0\t0\t0", "1\t5\t3\t4\t2"] {
        let read = format!("{P3_JOURNAL}{line}\n");
        assert_eq!(refused(2, &p3(), &read), (12, 3), "{line:?}");
    }
    let read = header_and("0\t0\t1\t2\t2\n1\t5\t3\t4\t1\n2\t0\t0\t0\t0\n");
    assert_eq!(refused(2, &p3(), &read), (11, 2));
}

#[test]
fn thirteen_and_fourteen() {
    assert_eq!(tree_refusal(0, &[]), (1, 0));
    assert_eq!(tree_refusal(257, &[0; 771]), (1, 0));
    assert_eq!(tree_refusal(2, &[9; 5]), (13, 0));
    assert_eq!(tree_refusal(2, &[9; 7]), (13, 0));
    assert_eq!(tree_refusal(2, &[]), (13, 0));
    assert_eq!(tree_refusal(2, &[0, 0, 6, 9, 0, 0]), (14, 2));
    assert_eq!(tree_refusal(2, &[0, 0, 0, 0, 0, 65534]), (14, 5));
}

#[test]
fn fifteen() {
    let tables: [&[u16]; 10] = [
        &[2, 3, 4, 0, 5, 5],
        &[2, 3, 4, 0, ABSENT, ABSENT],
        &[2, 3, ABSENT, 0, 5, ABSENT],
        &[2, 3, 4, 1, 5, ABSENT],
        &[2, 3, 4, 0, 0, ABSENT],
        &[1, 3, 4, 0, 5, ABSENT],
        &[0, 0, 0, 0, 0, 0],
        &[2, 2, 4, 0, 5, ABSENT],
        // Node 0 is a root by itself; nodes 1 and 2 are each other's child.
        &[3, 4, ABSENT, 2, 5, 6, 1, 7, 8],
        // Node 0 is its own child and 1 the root.
        &[0, 2, 3, 4, 5, ABSENT],
    ];
    for table in tables {
        assert_eq!(tree_refusal(table.len() / 3, table), (15, 0), "{table:?}");
    }
    assert_eq!(tree_refusal(1, &[1, 2, 2]), (15, 0));
    assert_eq!(tree_refusal(1, &[0, 1, 2]), (15, 0));
}

#[test]
fn sixteen() {
    assert_eq!(tree_refusal(1, &[2, 1, ABSENT]), (16, 0));
    assert_eq!(tree_refusal(1, &[1, ABSENT, 2]), (16, 0));
    assert_eq!(tree_refusal(1, &[ABSENT, 1, 2]), (16, 0));
    assert_eq!(tree_refusal(2, &[2, 3, 5, 0, 4, ABSENT]), (16, 1));
    assert_eq!(tree_refusal(2, &[4, 2, 3, 0, 5, ABSENT]), (16, 0));
    // Leaf 3 ends the root's chain and the absent child a Y chain.
    assert_eq!(tree_refusal(2, &[2, 3, 4, 0, ABSENT, 5]), (16, 1));
    assert_eq!(check_tree(2, &P3_TREE), Ok(()));
    assert_eq!(check_tree(1, &[1, 2, ABSENT]), Ok(()));
}

/// "assign continues 17, 2, 3, 4, 5"; "Tree weight continues 2, 3, 4."
#[test]
fn seventeen_and_what_follows() {
    let bad = [0; 8];
    let with = |lengths, heuristic, terms: &[u16]| {
        assigned_with(lengths, 2, &P3_TREE, heuristic, terms).unwrap_err()
    };
    assert_eq!(with((0, 0), 3, &[1]), (17, 0));
    assert_eq!(with((0, 0), usize::MAX, &[1]), (17, 0));
    assert_eq!(with((0, 0), 2, &[1]), (2, 0));
    assert_eq!(with((0, 0), 2, &[9; 8 * 2049]), (3, 0));
    assert_eq!(with((0, 0), 2, &bad), (4, 0));
    assert_eq!(with((0, 0), 2, &p3()), (5, 0));
    let weigh = |terms: &[u16]| {
        let Refusal { number, place } = tree_weight(2, &P3_TREE, terms).unwrap_err();
        (number, place)
    };
    assert_eq!(weigh(&[1]), (2, 0));
    assert_eq!(weigh(&[9; 8 * 2049]), (3, 0));
    assert_eq!(weigh(&[p3(), bad.to_vec()].concat()), (4, 3));
}
