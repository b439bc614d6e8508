//! A text with something done to it: each function gives every text that one kind of damage makes of it.

use std::ops::Range;

/// Bytes that such texts have, some that the wider format has, and some that no text should.
const BYTES: &[u8] = b"(),;nme0123456789:[]'\"_-+. \t\r\nNMEx\0\x7f\x80\xff";

/// What the wider format would allow, or a careless writer would add.
const WIDER: [&[u8]; 12] = [
    b"[x]", b"[]", b":1", b":0.5", b" ", b"\n", b"\t", b"'", b"\"", b"_", b"()", b"e",
];

/// Numbers that are in no small text, or that are no numbers.
const NUMBERS: [&[u8]; 19] = [
    b"", b"0", b"00", b"01", b"007", b"1", b"2", b"9", b"10", b"255", b"256", b"511", b"512",
    b"6553", b"65535", b"65536", b"70000", b"99999", b"655350",
];

/// Every text that a kind of damage makes of one.
type Damage = fn(&[u8]) -> Vec<Vec<u8>>;

pub const DAMAGES: [(&str, Damage); 8] = [
    ("a byte replaced", bytes_replaced),
    ("a byte deleted", bytes_deleted),
    ("a byte doubled", bytes_doubled),
    ("cut at a byte", cut),
    ("bytes of the wider format put in", put_in),
    ("a number replaced", numbers_replaced),
    ("a name repeated", names_repeated),
    ("names exchanged", names_exchanged),
];

/// The text with a part of it replaced.
pub fn with(text: &[u8], part: Range<usize>, other: &[u8]) -> Vec<u8> {
    [&text[..part.start], other, &text[part.end..]].concat()
}

fn bytes_replaced(text: &[u8]) -> Vec<Vec<u8>> {
    let places = 0..text.len();
    let replaced = |at: usize| {
        BYTES
            .iter()
            .map(move |&byte| with(text, at..at + 1, &[byte]))
    };
    places.flat_map(replaced).collect()
}

fn bytes_deleted(text: &[u8]) -> Vec<Vec<u8>> {
    let places = 0..text.len();
    places.map(|at| with(text, at..at + 1, b"")).collect()
}

fn bytes_doubled(text: &[u8]) -> Vec<Vec<u8>> {
    let places = 0..text.len();
    places
        .map(|at| with(text, at..at, &text[at..at + 1]))
        .collect()
}

fn cut(text: &[u8]) -> Vec<Vec<u8>> {
    (0..text.len()).map(|end| text[..end].to_vec()).collect()
}

/// At every place, before the text and behind it too.
fn put_in(text: &[u8]) -> Vec<Vec<u8>> {
    let places = 0..=text.len();
    let more = |at: usize| WIDER.iter().map(move |more| with(text, at..at, more));
    places.flat_map(more).collect()
}

fn numbers_replaced(text: &[u8]) -> Vec<Vec<u8>> {
    let numbered = names(text).into_iter().filter(|name| name.len() > 1);
    let replaced = |name: Range<usize>| {
        let digits = name.start + 1..name.end;
        NUMBERS
            .iter()
            .map(move |number| with(text, digits.clone(), number))
    };
    numbered.flat_map(replaced).collect()
}

fn names_repeated(text: &[u8]) -> Vec<Vec<u8>> {
    let pairs = pairs(text).into_iter();
    pairs
        .map(|(one, other)| with(text, other, &text[one]))
        .collect()
}

fn names_exchanged(text: &[u8]) -> Vec<Vec<u8>> {
    let pairs = pairs(text)
        .into_iter()
        .filter(|(one, other)| one.start < other.start);
    // The later one first, so that the earlier one's place still holds.
    let exchanged = |(one, other): (Range<usize>, Range<usize>)| {
        let half = with(text, other.clone(), &text[one.clone()]);
        with(&half, one, &text[other])
    };
    pairs.map(exchanged).collect()
}

/// Two different places where names stand, in either order.
fn pairs(text: &[u8]) -> Vec<(Range<usize>, Range<usize>)> {
    let names = names(text);
    let beside = |one: &Range<usize>| {
        let one = one.clone();
        let others = names.iter().filter(move |other| other.start != one.start);
        others.cloned().collect::<Vec<_>>()
    };
    let paired = names.iter().flat_map(|one| {
        let others = beside(one).into_iter();
        others.map(|other| (one.clone(), other))
    });
    paired.collect()
}

/// Where the names of a good text stand.
pub fn names(text: &[u8]) -> Vec<Range<usize>> {
    let letters = (0..text.len()).filter(|&at| text[at].is_ascii_lowercase());
    let whole = letters.map(|at| {
        let digits = text[at + 1..]
            .iter()
            .take_while(|byte| byte.is_ascii_digit());
        at..at + 1 + digits.count()
    });
    whole.collect()
}
