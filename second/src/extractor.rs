//! Two node records of one label, out of two attestations that contradict each other:
//! document 01, "Extractor".

use crate::answer::*;
use crate::form;
use crate::list::Key;
use crate::tree::{LabelFunction, Record};
use crate::verdict::{records, verify, Verdict, DIGEST_NOT_32, KEY_NOT_20};

pub const FIRST_NOT_85: &str = "first buffer not 85 octets";
pub const SECOND_NOT_85: &str = "second buffer not 85 octets";
pub const FIRST_REFUSED: &str = "the first attestation's";
pub const BOTH_REFUSED: &str = "the first attestation's of both";
pub const SECOND_REFUSED: &str = "the second attestation's";
pub const BOTH_PRESENT: &str = "both Present";
pub const BOTH_ABSENT: &str = "both Absent";

/// The number of levels passed before the first where the node records differ, and there
/// the first attestation's record and the second's.
#[derive(Clone, Debug, PartialEq, Eq)]
pub struct Extracted {
    pub passed: u32,
    pub records: [Record; 2],
}

/// Takes x, d, two attestations and two buffers, of which `rooms` are the lengths.
pub fn extract(
    hash: LabelFunction,
    x: &[u8],
    d: &[u8],
    attestations: [&[u8]; 2],
    rooms: [usize; 2],
) -> Result<Extracted, Refusal> {
    sizes(x, d, rooms)?;
    contradictory(attestations.map(|octets| verify(hash, x, d, octets)))?;
    let [first, second] = attestations.map(|octets| path(hash, x, octets));
    let differ = first.iter().zip(&second).position(|(one, other)| one != other);
    let level = differ.expect("with the same records down to a foot the verdicts would be the same");
    Ok(Extracted { passed: level as u32, records: [first[level], second[level]] })
}

/// x, d or a buffer not of its size, the buffers exactly 85 octets.
fn sizes(x: &[u8], d: &[u8], rooms: [usize; 2]) -> Result<(), Refusal> {
    let rules = [
        (x.len() == 20, KEY_NOT_20),
        (d.len() == 32, DIGEST_NOT_32),
        (rooms[0] == 85, FIRST_NOT_85),
        (rooms[1] == 85, SECOND_NOT_85),
    ];
    match rules.iter().find(|(kept, _)| !kept) {
        Some((_, rule)) => Err(refuse(SIZE, 0, rule)),
        None => Ok(()),
    }
}

/// The first attestation's refusal; the second's; both the same verdict. If either is
/// refused, it is that refusal's number, with place 1 or 2 for which attestation.
fn contradictory(verdicts: [Result<Verdict, Refusal>; 2]) -> Result<(), Refusal> {
    match verdicts {
        [Err(first), Ok(_)] => Err(refuse(first.number, 1, FIRST_REFUSED)),
        [Err(first), Err(_)] => Err(refuse(first.number, 1, BOTH_REFUSED)),
        [Ok(_), Err(second)] => Err(refuse(second.number, 2, SECOND_REFUSED)),
        [Ok(Verdict::Present), Ok(Verdict::Present)] => Err(refuse(NO_CONTRADICTION, 0, BOTH_PRESENT)),
        [Ok(Verdict::Absent), Ok(Verdict::Absent)] => Err(refuse(NO_CONTRADICTION, 0, BOTH_ABSENT)),
        [Ok(_), Ok(_)] => Ok(()),
    }
}

/// The node records of an accepted attestation, from the root downward.
fn path(hash: LabelFunction, x: &[u8], octets: &[u8]) -> Vec<Record> {
    let x = Key::try_from(x).expect("x is 20 octets");
    let attestation = form::read(octets).expect("its form was sound");
    records(hash, &x, &attestation).into_iter().rev().collect()
}
