//! Newick texts: P3's tree out and back, each refusal with its place, their order, and nothing altered.

mod common;

use common::*;
use plain::{read_newick, write_newick, Refusal};

const P3_NEWICK: &str = "((m0,m1,m2)n0,m3,e)n1;";

/// Writes into so many bytes. A refusal must alter nothing; a success returns the text.
fn written(modes: usize, tree: &[u16], room: usize) -> Result<String, (u16, usize)> {
    let mut text = vec![BYTE_MARK; room];
    match write_newick(modes, tree, &mut text) {
        Ok(count) => {
            let beyond = text.split_off(count);
            assert!(beyond.iter().all(|&byte| byte == BYTE_MARK));
            Ok(String::from_utf8(text).unwrap())
        }
        Err(Refusal { number, place }) => {
            assert_eq!(text, vec![BYTE_MARK; room]);
            Err((number, place))
        }
    }
}

/// Reads into so many numbers. A refusal must alter nothing; a success returns the table.
fn read(text: &str, room: usize) -> Result<Vec<u16>, (u16, usize)> {
    let mut table = vec![MARK; room];
    match read_newick(text.as_bytes(), &mut table) {
        Ok(modes) => {
            let beyond = table.split_off(3 * modes);
            assert!(beyond.iter().all(|&number| number == MARK));
            Ok(table)
        }
        Err(Refusal { number, place }) => {
            assert_eq!(table, vec![MARK; room]);
            Err((number, place))
        }
    }
}

/// What a text is refused by where the table has room for any.
fn refused(text: &str) -> (u16, usize) {
    read(text, 769).expect_err(text)
}

/// Each text is refused by 19 at its place.
fn nineteen_at(texts: &[(&str, usize)]) {
    for &(text, place) in texts {
        assert_eq!(refused(text), (19, place), "{text:?}");
    }
}

#[test]
fn p3_out_and_back() {
    assert_eq!(written(2, &P3_TREE, 22), Ok(P3_NEWICK.to_string()));
    assert_eq!(written(2, &P3_TREE, 23), Ok(P3_NEWICK.to_string()));
    assert_eq!(read(P3_NEWICK, 6), Ok(P3_TREE.to_vec()));
    assert_eq!(read(P3_NEWICK, 7), Ok(P3_TREE.to_vec()));
}

#[test]
fn one_mode() {
    let text = "(m0,m1,e)n0;".to_string();
    assert_eq!(written(1, &[1, 2, ABSENT], 12), Ok(text));
    assert_eq!(read("(m0,m1,e)n0;", 3), Ok(vec![1, 2, ABSENT]));
}

#[test]
fn writing_is_refused() {
    assert_eq!(written(0, &[], 22), Err((1, 0)));
    assert_eq!(written(257, &[0; 771], 22), Err((1, 0)));
    // 13 to 16 before 5.
    assert_eq!(written(2, &P3_TREE[..5], 0), Err((13, 0)));
    assert_eq!(written(2, &[2, 3, 4, 6, 5, ABSENT], 0), Err((14, 3)));
    assert_eq!(written(2, &[2, 3, 4, 0, 5, 5], 0), Err((15, 0)));
    assert_eq!(written(2, &[2, 3, 5, 0, 4, ABSENT], 0), Err((16, 1)));
    assert_eq!(written(2, &P3_TREE, 21), Err((5, 0)));
    assert_eq!(written(2, &P3_TREE, 0), Err((5, 0)));
}

#[test]
fn nineteen_at_the_end_of_a_short_text() {
    for end in 0..P3_NEWICK.len() {
        assert_eq!(refused(&P3_NEWICK[..end]), (19, end));
    }
}

#[test]
fn nineteen_behind_the_end() {
    for more in [";", "\n", " ", "0", "(m0,m1,e)n0;"] {
        assert_eq!(refused(&format!("{P3_NEWICK}{more}")), (19, 22));
    }
}

#[test]
fn nineteen_at_a_byte() {
    let texts = [
        // No whole tree is a leaf or absent.
        ("m0;", 0),
        ("e;", 0),
        ("n0;", 0),
        ("()n0;", 1),
        ("(,m1,e)n0;", 1),
        ("(n0,m1,e)n0;", 1),
        ("(m,m1,e)n0;", 2),
        ("(M0,m1,e)n0;", 1),
        // Two children, four children.
        ("(m0,m1)n0;", 6),
        ("(m0,m1,e,e)n0;", 8),
        ("(m0;", 3),
        ("(m0,m1,e);", 9),
        ("(m0,m1,e)m0;", 9),
        ("(m0,m1,e)n;", 10),
        ("(m0,m1,e)n0,", 11),
        ("(m0,m1,e)n0)", 11),
        ("(m0,m1,e0)n0;", 8),
        // What the wider format has.
        ("(m0:1,m1,e)n0;", 3),
        ("(m0,m1,e)n0:1;", 11),
        ("(m0[x],m1,e)n0;", 3),
        ("[x](m0,m1,e)n0;", 0),
        ("(m0, m1,e)n0;", 4),
        ("('m0',m1,e)n0;", 1),
        ("(m-1,m1,e)n0;", 2),
    ];
    nineteen_at(&texts);
}

/// "numbers as in the journal": no leading zero, at most 65535.
#[test]
fn nineteen_in_a_number() {
    let texts = [
        ("(m00,m1,e)n0;", 3),
        ("(m01,m1,e)n0;", 3),
        ("(m0,m1,e)n00;", 11),
        ("(m65536,m1,e)n0;", 6),
        ("(m70000,m1,e)n0;", 6),
        ("(m99999,m1,e)n0;", 6),
        ("(m100000,m1,e)n0;", 7),
        ("(m0,m1,e)n65536;", 14),
    ];
    nineteen_at(&texts);
}

/// A chain of so many nodes by the X child, up to the last node's first child; and the rest of it.
fn chain(modes: usize) -> (String, String) {
    let mut rest = String::from("m0,m1");
    for node in 0..modes {
        let end = match node + 1 == modes {
            true => "e".to_string(),
            false => format!("m{}", 2 * node + 2),
        };
        rest += &match node {
            0 => format!(",{end})n0"),
            _ => format!(",m{},{end})n{node}", 2 * node + 1),
        };
    }
    ("(".repeat(modes), rest + ";")
}

#[test]
fn one_at_the_257th_parenthesis() {
    let (open, rest) = chain(256);
    let table = read(&format!("{open}{rest}"), 768).unwrap();
    assert_eq!(table[765..], [254, 256 + 511, ABSENT]);
    assert_eq!(refused(&format!("{open}(")), (1, 256));
    assert_eq!(refused(&"(".repeat(300)), (1, 256));
    // Closed nodes count too: 85 times three, and two more.
    let closed = "((m0,m1,e)n0,(m0,m1,e)n0,".repeat(85);
    assert_eq!(refused(&format!("{closed}((")), (1, closed.len() + 1));
    // Whichever stands first wins.
    assert_eq!(refused(&format!("{open}x(")), (19, 256));
    assert_eq!(refused(&format!("{open}(x")), (1, 256));
    assert_eq!(refused(&open), (19, 256));
}

#[test]
fn fifteen() {
    let texts = [
        "(m0,m1,e)n1;",
        "(m0,m1,e)n65535;",
        "(m0,m2,e)n0;",
        "(m0,m65535,e)n0;",
        "(m0,m0,e)n0;",
        "(m0,m1,m1)n0;",
        "(e,e,e)n0;",
        "((m0,m1,m2)n0,m3,e)n0;",
        "((m0,m1,m2)n0,m3,e)n2;",
        "((m0,m1,e)n0,m3,e)n1;",
        "((m0,m1,m4)n0,m3,e)n1;",
        "((m0,m1,m2)n1,m3,e)n1;",
    ];
    for text in texts {
        assert_eq!(refused(text), (15, 0), "{text:?}");
    }
}

#[test]
fn sixteen() {
    assert_eq!(refused("(m1,m0,e)n0;"), (16, 0));
    assert_eq!(refused("(e,m0,m1)n0;"), (16, 0));
    assert_eq!(refused("((m0,m1,m3)n0,m2,e)n1;"), (16, 1));
    assert_eq!(refused("((m0,m1,m2)n0,e,m3)n1;"), (16, 1));
}

/// 5 comes last of all.
#[test]
fn five() {
    for room in 0..6 {
        assert_eq!(read(P3_NEWICK, room), Err((5, 0)));
    }
    assert_eq!(read("((m0,m1,m3)n0,m2,e)n1;", 0), Err((16, 1)));
    assert_eq!(read("((m0,m1,m2)n0,m3,e)n0;", 0), Err((15, 0)));
    assert_eq!(read("((m0,m1,m2)n0,m3,e)n0", 0), Err((19, 21)));
    assert_eq!(read(&"(".repeat(257), 0), Err((1, 256)));
}
