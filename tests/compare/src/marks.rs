//! What lent slices hold before a call, so that every element that a call alters shows; no text and no table of the tests has these.

pub const MARK: u16 = 43690;
pub const BYTE_MARK: u8 = 170;
