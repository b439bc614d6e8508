//! The best of all sequences: the proved library against the plain program, which makes them in another way.

use crate::calls::best_in;
use crate::tally::Tally;
use compare::cases::{any_terms, flat, Random};

/// What a call is given; the room is that of the sequence.
#[derive(Debug)]
struct Given {
    modes: usize,
    terms: Vec<u16>,
    room: usize,
}

impl Given {
    /// Good terms, few mostly, in the room that is asked for, in more, and in a number less.
    fn good(random: &mut Random, modes: usize) -> Self {
        let most = random.one_of(&[3, 6, 6, 10, 10, 40]);
        let terms = flat(&any_terms(random, modes, most));
        let asked = 3 * modes;
        let room = random.one_of(&[asked, asked, asked + 1, asked + 7, asked - 1]);
        Given { modes, terms, room }
    }

    fn compare(&self, tally: &mut Tally, kind: &str) {
        let Given { modes, terms, room } = self;
        let size = 1000 * modes.min(&1000) + terms.len();
        let input = || format!("{self:?}");
        tally.compare(kind, size, input, || best_in(*modes, terms, *room));
    }
}

/// Fewer of 4 modes, whose 2520 sequences take the plain program long.
pub fn on_good(random: &mut Random, tally: &mut Tally) {
    for (modes, cases) in [(1, 1000), (2, 2000), (3, 2000), (4, 500)] {
        for _ in 0..cases {
            Given::good(random, modes).compare(tally, "best of 1 to 4 modes");
        }
    }
}

/// Good terms of 1 to 4 modes, each damaged in some of these ways at once, so that the order of refusals shows.
pub fn on_damaged(random: &mut Random, tally: &mut Tally) {
    for modes in 1..=4 {
        for _ in 0..1500 {
            damaged(random, modes).compare(tally, "best with damaged inputs");
        }
    }
}

fn damaged(random: &mut Random, modes: usize) -> Given {
    let mut given = Given::good(random, modes);
    let terms = &mut given.terms;
    // what is damaged for sure, so that few of 4 modes are gone through
    let surely = random.below(4);
    if (surely == 0 || random.below(3) == 0) && !terms.is_empty() {
        let place = random.below(terms.len());
        terms[place] = random.below(16) as u16;
    }
    if surely == 1 || random.below(8) == 0 {
        terms.push(0);
    }
    if surely == 2 || random.below(8) == 0 {
        given.room = random.below(3 * modes);
    }
    if surely == 3 || random.below(8) == 0 {
        given.modes = random.one_of(&[0, 0, 5, 6, 256, 257, usize::MAX]);
    }
    // a row more than the most, now and then
    if random.below(30) == 0 {
        given.terms = flat(&vec![vec![0]; 2049]);
    }
    given
}
