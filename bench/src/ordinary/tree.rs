//! The digest of a key list in ordinary Rust: the tree by recursion, as document 01 says.

use super::sha256::sha256;

/// Document 01's digest: the number of keys, or None where it refuses.
#[inline(never)]
pub fn digest<const ROUNDS: usize>(keys: &[u8], output: &mut [u8]) -> Option<usize> {
    let output: &mut [u8; 32] = output.try_into().ok()?;
    if !admitted(keys) {
        return None;
    }
    *output = label::<ROUNDS>(keys);
    Some(keys.len() / 20)
}

/// 1 to 3,000 keys, strictly ascending.
pub fn admitted(keys: &[u8]) -> bool {
    if keys.len() % 20 != 0 || !(1..=3_000).contains(&(keys.len() / 20)) {
        return false;
    }
    let above = keys[20..].chunks_exact(20);
    keys.chunks_exact(20).zip(above).all(|(before, key)| before < key)
}

/// The keys before the root, the root's key, the keys after it, of at least one key.
pub fn halves(keys: &[u8]) -> (&[u8], &[u8], &[u8]) {
    let root = keys.len() / 20 / 2 * 20;
    let (left, rest) = keys.split_at(root);
    let (key, right) = rest.split_at(20);
    (left, key, right)
}

/// The label of the tree of these keys, at least one.
pub fn label<const ROUNDS: usize>(keys: &[u8]) -> [u8; 32] {
    let (left, key, right) = halves(keys);
    let mut record = [0; 85];
    record[33..53].copy_from_slice(key);
    if !left.is_empty() {
        record[0] += 1;
        record[1..33].copy_from_slice(&label::<ROUNDS>(left));
    }
    if !right.is_empty() {
        record[0] += 2;
        record[53..85].copy_from_slice(&label::<ROUNDS>(right));
    }
    sha256::<ROUNDS>(&record)
}
