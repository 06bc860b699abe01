//! The drill in ordinary Rust: the first number whose one-node tree has the listed key's
//! short label.

use super::verdict::{label, record};

/// Document 02's drill with a sound text of one code: the number, and the two records.
#[inline(never)]
pub fn drill<const ROUNDS: usize>(text: &[u8], output: &mut [u8]) -> Option<usize> {
    let code = text.strip_prefix(b"codes\n1\n")?.strip_suffix(b"\n")?;
    let mut listed = [0; 20];
    listed[..code.len()].copy_from_slice(code);
    let short = |key: &[u8; 20]| label::<ROUNDS, 2>(&record(None, key, None));
    let wanted = short(&listed);
    let alike = |number: &u32| number_key(*number) != listed && short(&number_key(*number)) == wanted;
    let found = (0..1 << 20).find(alike)?;
    output[..85].copy_from_slice(&record(None, &listed, None));
    output[85..].copy_from_slice(&record(None, &number_key(found), None));
    Some(found as usize)
}

/// The number as a key, the most significant octet first.
pub fn number_key(number: u32) -> [u8; 20] {
    let mut key = [0; 20];
    key[16..].copy_from_slice(&number.to_be_bytes());
    key
}
