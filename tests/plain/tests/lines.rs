//! Journal lines: cut, resumed and looked up.

mod common;

use common::*;
use plain::find_line;

/// "Bytes after the last LF are dropped": a cut anywhere gives the unbroken run again.
#[test]
fn cut_at_every_byte() {
    let unbroken = accepted(2, &p3(), "");
    for cut in 0..=P3_JOURNAL.len() {
        let answer = accepted(2, &p3(), &P3_JOURNAL[..cut]);
        let kept = P3_JOURNAL[..cut].rfind('\n').map_or(0, |place| place + 1);
        assert_eq!(answer.done.kept, kept, "cut at {cut}");
        assert_eq!(answer.rows, unbroken.rows);
        assert_eq!(answer.done.weight, unbroken.done.weight);
        let whole = format!("{}{}", &P3_JOURNAL[..kept], answer.new);
        assert_eq!(whole, P3_JOURNAL);
    }
}

/// "Believing a cut last line because its digits look whole" is the slip; so is refusing it.
#[test]
fn cut_line_is_never_judged() {
    let read = "hatt\t1\t2\t3\n0\t0\t1\t4\t1";
    let answer = accepted(2, &p3(), read);
    assert_eq!(answer.done.kept, 11);
    assert_eq!(answer.new, P3_JOURNAL[11..]);
    let answer = accepted(2, &p3(), "no journal at all");
    assert_eq!((answer.done.kept, answer.new.as_str()), (0, P3_JOURNAL));
    let after_the_end = format!("{P3_JOURNAL}2\t0");
    assert_eq!(accepted(2, &p3(), &after_the_end).done.new, 0);
}

#[test]
fn header_alone() {
    let answer = accepted(2, &p3(), &P3_JOURNAL[..11]);
    assert_eq!(answer.done.trials, 14);
    assert_eq!(answer.new, P3_JOURNAL[11..]);
}

#[test]
fn found_lines() {
    let (kept, new) = (b"a\nbc\ncut".as_slice(), b"d\n\ne".as_slice());
    let found: Vec<&[u8]> = (0..6).map(|line| find_line(kept, new, line)).collect();
    assert_eq!(found, [b"a\n".as_slice(), b"bc\n", b"d\n", b"\n", b"", b""]);
    assert_eq!(find_line(kept, new, usize::MAX), b"");
    assert_eq!(find_line(b"", b"", 0), b"");
    assert_eq!(find_line(b"", b"x\n", 0), b"x\n");
}

/// "where it stands in either one": the part handed back is a part of the slice, not a copy.
#[test]
fn found_where_it_stands() {
    let (kept, new) = (b"a\nbc\n".as_slice(), b"d\n".as_slice());
    assert_eq!(find_line(kept, new, 1).as_ptr(), kept[2..].as_ptr());
    assert_eq!(find_line(kept, new, 2).as_ptr(), new.as_ptr());
}
