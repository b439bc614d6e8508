//! The refusal that every call shares, and the two checks (1 and 5) that belong to no single part.

/// "Each returns its number and a place."
#[derive(Clone, Copy, Debug, PartialEq, Eq)]
pub struct Refusal {
    pub number: u16,
    pub place: usize,
}

/// "Modes n: 1 to 256."
pub const MOST_MODES: usize = 256;

/// Refuses with `number` at `place` unless `holds`.
pub fn demand(holds: bool, number: u16, place: usize) -> Result<(), Refusal> {
    if holds {
        Ok(())
    } else {
        Err(Refusal { number, place })
    }
}

/// Refusal 1: "n is 0 or above 256".
pub fn check_modes(modes: usize) -> Result<(), Refusal> {
    demand((1..=MOST_MODES).contains(&modes), 1, 0)
}

/// Refusal 5: "any buffer below its room". Each pair is a buffer's length and its room.
pub fn check_rooms(buffers: &[(usize, usize)]) -> Result<(), Refusal> {
    demand(buffers.iter().all(|(length, room)| length >= room), 5, 0)
}
