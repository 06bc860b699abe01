//! Issuing an attestation in ordinary Rust: down the path by halves, then each section
//! written in place, each node off the path hashed once.

use super::tree::{admitted, halves, label};
use std::cmp::Ordering;

/// The bit length of 3,000, less the foot.
const MOST_ABOVE: usize = 11;

/// Document 01's attest: the length, or None where it refuses. The input is a key and then
/// the key list.
#[inline(never)]
pub fn attest<const ROUNDS: usize>(input: &[u8], output: &mut [u8]) -> Option<usize> {
    let (key, keys) = input.split_at(20);
    if !admitted(keys) {
        return None;
    }
    // From the root down: each key above the foot, and the keys off the path below it.
    let mut path: [(&[u8], &[u8]); MOST_ABOVE] = Default::default();
    let mut levels = 0;
    let (mut left, mut here, mut right) = halves(keys);
    loop {
        let (towards, off) = match key.cmp(here) {
            Ordering::Equal => break,
            Ordering::Less => (left, right),
            Ordering::Greater => (right, left),
        };
        if towards.is_empty() {
            break;
        }
        path[levels] = (here, off);
        levels += 1;
        (left, here, right) = halves(towards);
    }
    let above = &path[..levels];
    let siblings: usize = above.iter().map(|(_, off)| optional_len(off)).sum();
    let len = 1 + 20 * (1 + levels) + optional_len(left) + optional_len(right) + 1 + siblings;
    let mut rest = output.get_mut(..len)?;
    put(&mut rest, &[1 + levels as u8]);
    put(&mut rest, here);
    above.iter().rev().for_each(|(key, _)| put(&mut rest, key));
    put_optional::<ROUNDS>(&mut rest, left);
    put_optional::<ROUNDS>(&mut rest, right);
    put(&mut rest, &[levels as u8]);
    above.iter().rev().for_each(|(_, off)| put_optional::<ROUNDS>(&mut rest, off));
    Some(len)
}

fn optional_len(keys: &[u8]) -> usize {
    if keys.is_empty() {
        1
    } else {
        33
    }
}

/// Writes at the front of what is left, and leaves the rest.
fn put(rest: &mut &mut [u8], octets: &[u8]) {
    let (front, after) = std::mem::take(rest).split_at_mut(octets.len());
    front.copy_from_slice(octets);
    *rest = after;
}

/// The optional label of the tree of these keys, absent if there are none.
fn put_optional<const ROUNDS: usize>(rest: &mut &mut [u8], keys: &[u8]) {
    if keys.is_empty() {
        return put(rest, &[0]);
    }
    put(rest, &[1]);
    put(rest, &label::<ROUNDS>(keys));
}
