//! What is done to texts whose lines end in line feeds and have fields parted by tabs.

use compare::cases::Random;

/// What a byte is changed to: tab, line feed, digits, letters, and others.
const BYTES: &[u8] = b"\t\n0123456789nodehatx -\r\0\xff";

/// Fields that stand for a number and are none, or are as large as a number can be.
const FIELDS: [&str; 12] = [
    "65535", "65534", "65536", "100000", "", "01", "00", "-1", "+1", "x", "-", " 1",
];

/// A text with one byte changed, dropped or doubled, or cut; an empty one stays empty.
pub fn damage_bytes(random: &mut Random, mut text: Vec<u8>) -> Vec<u8> {
    if text.is_empty() {
        return text;
    }
    let at = random.below(text.len());
    match random.below(4) {
        0 => text[at] = random.one_of(BYTES),
        1 => drop(text.remove(at)),
        2 => text.insert(at, text[at]),
        _ => text.truncate(at),
    }
    text
}

/// A text with one line dropped, doubled, exchanged with another or followed by one more.
pub fn damage_lines(random: &mut Random, text: Vec<u8>) -> Vec<u8> {
    let mut lines: Vec<&[u8]> = text.split_inclusive(|&byte| byte == b'\n').collect();
    if lines.is_empty() {
        return random.one_of(&[b"\n".as_slice(), b"0\t1\t2\n"]).to_vec();
    }
    let (at, other) = (random.below(lines.len()), random.below(lines.len()));
    match random.below(4) {
        0 => drop(lines.remove(at)),
        1 => lines.insert(other, lines[at]),
        2 => lines.swap(at, other),
        _ => lines.push(lines[at]),
    }
    lines.concat()
}

/// A text with one field replaced, by a number near those that it has or by none; `most` is the largest number that means something.
pub fn damage_field(random: &mut Random, text: Vec<u8>, most: usize) -> Vec<u8> {
    let text = String::from_utf8(text).expect("a text that is not damaged yet");
    let mut lines: Vec<Vec<&str>> = text
        .lines()
        .map(|line| line.split('\t').collect())
        .collect();
    if lines.is_empty() {
        return b"x\n".to_vec();
    }
    let near = random.below(most + 3).to_string();
    let line = random.below(lines.len());
    let field = random.below(lines[line].len());
    lines[line][field] = match random.below(3) {
        0 => random.one_of(&FIELDS),
        _ => &near,
    };
    let lines: Vec<String> = lines.iter().map(|line| line.join("\t") + "\n").collect();
    lines.concat().into_bytes()
}

/// A text with two fields of one line exchanged.
pub fn exchange_fields(random: &mut Random, text: Vec<u8>) -> Vec<u8> {
    let text = String::from_utf8(text).expect("a text that is not damaged yet");
    let mut lines: Vec<Vec<&str>> = text
        .lines()
        .map(|line| line.split('\t').collect())
        .collect();
    if lines.is_empty() {
        return b"\t\n".to_vec();
    }
    let line = random.below(lines.len());
    let count = lines[line].len();
    lines[line].swap(random.below(count), random.below(count));
    let lines: Vec<String> = lines.iter().map(|line| line.join("\t") + "\n").collect();
    lines.concat().into_bytes()
}
