//! What the calls for C return and leave in the answer.

use super::BEYOND;
use crate::tally::equal;
use compare::BYTE_MARK;

/// An answer that is lent for so many numbers, and a little more.
pub fn marked_answer(numbers: usize) -> Vec<u8> {
    vec![BYTE_MARK; 8 * numbers + BEYOND]
}

/// Refusal and place are the result; the other numbers are in the answer, or the marks where the call is refused.
pub fn tells(result: u64, answer: &[u8], numbers: &[u64]) -> Result<(), String> {
    let (number, place) = (numbers[0], numbers[1]);
    equal("C result", result, number * 65536 + place)?;
    let mut expected = marked_answer(numbers.len() - 2);
    if number == 0 {
        let told = numbers[2..].iter().flat_map(|number| number.to_le_bytes());
        expected.splice(..8 * (numbers.len() - 2), told);
    }
    equal("C answer", answer, &expected[..])
}
