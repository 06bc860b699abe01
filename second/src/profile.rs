//! Profiles, change request (vi): a number from the caller says what a label is. Digest, issue,
//! verify and extract take it, and each is one implementation over a label function.

use crate::answer::{refuse, Outcome, Refusal, UNKNOWN_PROFILE};
use crate::attestation;
use crate::extractor::{self, Extracted};
use crate::sha256::{sha256, Label};
use crate::tree::{self, LabelFunction};
use crate::verdict::{self, Verdict};

pub const FULL: u32 = 0;
pub const DRILL: u32 = 1;

pub const UNKNOWN: &str = "an unknown profile";

/// Full: a node's label is the SHA-256 of its record.
pub const SHA_256: LabelFunction = |record| sha256(record);

/// Drill: a label is the first 2 octets of the SHA-256 and then 30 zeros.
pub const SHORT: LabelFunction = |record| {
    let mut label: Label = sha256(record);
    label[2..].fill(0);
    label
};

/// 0 for full, 1 for drill. Refused is an unknown profile, before all others.
pub fn label_function(profile: u32) -> Result<LabelFunction, Refusal> {
    match profile {
        FULL => Ok(SHA_256),
        DRILL => Ok(SHORT),
        _ => Err(refuse(UNKNOWN_PROFILE, 0, UNKNOWN)),
    }
}

pub fn digest(profile: u32, octets: &[u8], room: usize) -> Outcome {
    tree::digest(label_function(profile)?, octets, room)
}

pub fn attest(profile: u32, key: &[u8], list: &[u8], room: usize) -> Outcome {
    attestation::attest(label_function(profile)?, key, list, room)
}

pub fn verify(profile: u32, x: &[u8], d: &[u8], octets: &[u8]) -> Result<Verdict, Refusal> {
    verdict::verify(label_function(profile)?, x, d, octets)
}

pub fn extract(
    profile: u32,
    x: &[u8],
    d: &[u8],
    attestations: [&[u8]; 2],
    rooms: [usize; 2],
) -> Result<Extracted, Refusal> {
    extractor::extract(label_function(profile)?, x, d, attestations, rooms)
}
