//! Extraction in ordinary Rust, in the drill; and a contradiction of 32 levels to extract
//! from.

use super::drill::number_key;
use super::verdict::{label, last_label, record, records};

/// The key that the contradiction is about.
const X: [u8; 20] = [1; 20];

/// The number of levels passed, and the two records. The input is a key, a digest, the
/// first attestation's length in 2 octets, and the two attestations.
#[inline(never)]
pub fn extract<const ROUNDS: usize>(input: &[u8], output: &mut [u8]) -> Option<usize> {
    let (x, digest, first, second) = parts(input);
    let (ours, count) = records::<ROUNDS, 2>(x, first)?;
    let (theirs, other_count) = records::<ROUNDS, 2>(x, second)?;
    let accepted = |root| label::<ROUNDS, 2>(root) == digest;
    let present = |octets: &[u8]| x == &octets[1..21];
    let contradict = present(first) != present(second);
    if !accepted(&ours[count - 1]) || !accepted(&theirs[other_count - 1]) || !contradict {
        return None;
    }
    let mut levels = ours[..count].iter().rev().zip(theirs[..other_count].iter().rev());
    let passed = levels.position(|(one, other)| one != other)?;
    output[..85].copy_from_slice(&ours[count - 1 - passed]);
    output[85..].copy_from_slice(&theirs[other_count - 1 - passed]);
    Some(passed)
}

pub fn parts(input: &[u8]) -> (&[u8], &[u8], &[u8], &[u8]) {
    let (key, rest) = input.split_at(20);
    let (digest, rest) = rest.split_at(32);
    let (length, rest) = rest.split_at(2);
    let (first, second) = rest.split_at(usize::from(length[0]) * 256 + usize::from(length[1]));
    (key, digest, first, second)
}

/// Two attestations of 32 levels, Present and Absent, that differ at the foot alone.
pub fn at_the_foot() -> Vec<u8> {
    let (left, right) = ([33; 32], [34; 32]);
    let wanted = label::<1, 2>(&record(Some(&left), &X, Some(&right)));
    let other = |number: &u32| label::<1, 2>(&record(Some(&left), &number_key(*number), None)) == wanted;
    let below = number_key((0..).find(other).expect("a number of 32 bits"));
    let first = attestation(&X, &[&[1][..], &left, &[1], &right].concat());
    let second = attestation(&below, &[&[1][..], &left, &[0]].concat());
    let digest = last_label::<1, 2>(&X, &first).expect("a sound form");
    let length = [(first.len() / 256) as u8, (first.len() % 256) as u8];
    [&X[..], &digest, &length, &first, &second].concat()
}

/// This foot under 31 keys above it, each with a sibling.
fn attestation(foot: &[u8; 20], labels: &[u8]) -> Vec<u8> {
    let above: Vec<u8> = (2..=32).flat_map(|octet| [octet; 20]).collect();
    let siblings: Vec<u8> = (2..33).flat_map(|octet| [&[1], &[octet; 32][..]].concat()).collect();
    [&[32], &foot[..], &above, labels, &[31], &siblings].concat()
}
