//! `best`.

use crate::tally::equal;
use compare::{four_numbers, proved, MARK};

/// Asks for the best with `room` numbers lent for its sequence. The error says that the proved library answers or leaves anything else than the plain program, or that a number was altered which should not have been.
pub fn best_in(modes: usize, terms: &[u16], room: usize) -> Result<(), String> {
    let (mut sequence, mut ours) = (vec![MARK; room], vec![MARK; room]);
    let answer = plain::best_into(modes, terms, &mut sequence);
    let written = answer.as_ref().map_or(0, |_| 3 * modes);
    let proved = proved::best(modes, terms, &mut ours);
    equal("proved numbers", proved, four_numbers(answer))?;
    equal("proved sequence", &ours, &sequence)?;
    let rest = ours.split_off(written);
    equal("the rest stays", rest, vec![MARK; room - written])
}
