//! What every function answers: a value and the octets it writes, or a numbered refusal.

/// An accepted call answers a value and writes these octets at the front of the lent
/// buffer; the rest of the buffer stays. Of two lent buffers they fill one, then the other.
/// A value is below 2^32; for the drill's none the face has 2^32 itself.
#[derive(Clone, Debug, PartialEq, Eq)]
pub struct Accepted {
    pub value: u64,
    pub written: Vec<u8>,
}

/// A refusal returns number and place and writes nothing. The rule says which of document
/// 01's sentences was broken, for those who count them; no caller ever sees it.
#[derive(Clone, Copy, Debug, PartialEq, Eq)]
pub struct Refusal {
    pub number: u16,
    pub place: u32,
    pub rule: &'static str,
}

pub type Outcome = Result<Accepted, Refusal>;

/// Document 01, "Numbers a caller can meet", and what change request (vi) adds.
pub const SIZE: u16 = 1;
pub const NO_KEYS: u16 = 2;
pub const NOT_A_MULTIPLE: u16 = 3;
pub const OVER_3000_KEYS: u16 = 4;
pub const NOT_ASCENDING: u16 = 5;
pub const OUTPUT_TOO_SHORT: u16 = 6;
pub const ATTESTATION_FORM: u16 = 7;
pub const CHILD_AT_THE_FOOT: u16 = 8;
pub const ABOVE_THE_FOOT: u16 = 9;
pub const DIGEST_DIFFERS: u16 = 10;
pub const NO_CONTRADICTION: u16 = 11;
pub const FIRST_OR_SECOND_LINE: u16 = 12;
pub const NOT_A_CODE: u16 = 13;
pub const LINES_AND_COUNT: u16 = 14;
pub const MORE_THAN_ONE_CODE: u16 = 16;
pub const UNKNOWN_PROFILE: u16 = 17;

pub fn refuse(number: u16, place: usize, rule: &'static str) -> Refusal {
    let place = place as u32;
    Refusal { number, place, rule }
}
