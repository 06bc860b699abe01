//! Judging an attestation in ordinary Rust: its form read once, as parts of the octets.

use super::sha256::sha256;
use crate::face::{ABSENT, PRESENT};
use std::cmp::Ordering;

pub type Record = [u8; 85];

/// An attestation that passes steps 2 to 4.
pub struct Sound<'a> {
    foot: &'a [u8],
    left: Option<&'a [u8]>,
    right: Option<&'a [u8]>,
    above: &'a [u8],
    siblings: [Option<&'a [u8]>; 31],
}

/// Document 01's verdict: PRESENT, ABSENT, or None where it refuses. The input is a key, a
/// digest and then the attestation.
#[inline(never)]
pub fn verify<const ROUNDS: usize>(input: &[u8], _: &mut [u8]) -> Option<usize> {
    let (x, rest) = input.split_at(20);
    let (digest, octets) = rest.split_at(32);
    let label = last_label::<ROUNDS, 32>(x, octets)?;
    (label == digest).then_some(if x == &octets[1..21] { PRESENT } else { ABSENT })
}

/// Steps 2 to 5; a label keeps so many octets of the hash, and zeros after them.
pub fn last_label<const ROUNDS: usize, const KEPT: usize>(x: &[u8], octets: &[u8]) -> Option<[u8; 32]> {
    let sound = sound(x, octets)?;
    let mut label = label::<ROUNDS, KEPT>(&record(sound.left, sound.foot, sound.right));
    for (key, sibling) in sound.above.chunks_exact(20).zip(sound.siblings) {
        label = label_above::<ROUNDS, KEPT>(x, key, sibling, &label);
    }
    Some(label)
}

fn label_above<const ROUNDS: usize, const KEPT: usize>(
    x: &[u8],
    key: &[u8],
    sibling: Option<&[u8]>,
    below: &[u8; 32],
) -> [u8; 32] {
    label::<ROUNDS, KEPT>(&record_above(x, key, sibling, below))
}

/// The records from the foot to the root, and how many there are.
pub fn records<const ROUNDS: usize, const KEPT: usize>(
    x: &[u8],
    octets: &[u8],
) -> Option<([Record; 32], usize)> {
    let sound = sound(x, octets)?;
    let mut records = [[0; 85]; 32];
    records[0] = record(sound.left, sound.foot, sound.right);
    let mut count = 1;
    for (key, sibling) in sound.above.chunks_exact(20).zip(sound.siblings) {
        let below = label::<ROUNDS, KEPT>(&records[count - 1]);
        records[count] = record_above(x, key, sibling, &below);
        count += 1;
    }
    Some((records, count))
}

pub fn label<const ROUNDS: usize, const KEPT: usize>(record: &Record) -> [u8; 32] {
    let mut label = sha256::<ROUNDS>(record);
    label[KEPT..].fill(0);
    label
}

/// Steps 2 to 4.
fn sound<'a>(x: &[u8], octets: &'a [u8]) -> Option<Sound<'a>> {
    let mut rest = octets;
    let count = usize::from(take(&mut rest, 1)?[0]);
    if !(1..=32).contains(&count) {
        return None;
    }
    let keys = take(&mut rest, 20 * count)?;
    let (foot, above) = keys.split_at(20);
    let left = optional(&mut rest)?;
    let right = optional(&mut rest)?;
    if usize::from(take(&mut rest, 1)?[0]) != count - 1 {
        return None;
    }
    let mut siblings = [None; 31];
    for sibling in &mut siblings[..count - 1] {
        *sibling = optional(&mut rest)?;
    }
    let child_where_x_would_be = match x.cmp(foot) {
        Ordering::Less => left.is_some(),
        Ordering::Equal => false,
        Ordering::Greater => right.is_some(),
    };
    let mut neighbours = keys.chunks_exact(20).zip(above.chunks_exact(20));
    if !rest.is_empty() || child_where_x_would_be || neighbours.any(|(below, key)| key == x || key == below) {
        return None;
    }
    Some(Sound { foot, left, right, above, siblings })
}

/// So many octets off the front, if there are so many.
fn take<'a>(rest: &mut &'a [u8], len: usize) -> Option<&'a [u8]> {
    if rest.len() < len {
        return None;
    }
    let (front, after) = rest.split_at(len);
    *rest = after;
    Some(front)
}

fn optional<'a>(rest: &mut &'a [u8]) -> Option<Option<&'a [u8]>> {
    match take(rest, 1)?[0] {
        0 => Some(None),
        1 => take(rest, 32).map(Some),
        _ => None,
    }
}

fn record_above(x: &[u8], key: &[u8], sibling: Option<&[u8]>, below: &[u8; 32]) -> Record {
    let (left, right) = if x < key { (Some(&below[..]), sibling) } else { (sibling, Some(&below[..])) };
    record(left, key, right)
}

pub fn record(left: Option<&[u8]>, key: &[u8], right: Option<&[u8]>) -> Record {
    let mut record = [0; 85];
    record[33..53].copy_from_slice(key);
    if let Some(label) = left {
        record[0] += 1;
        record[1..33].copy_from_slice(label);
    }
    if let Some(label) = right {
        record[0] += 2;
        record[53..85].copy_from_slice(label);
    }
    record
}
