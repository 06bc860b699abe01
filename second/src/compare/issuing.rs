//! Generated key lists and keys for attest. What is issued is also judged by our verify.

use super::asked;
use super::comparison::{Comparison, Expected};
use super::face::{Function, ABSENT, PRESENT};
use super::key_lists::keys;
use super::lent::Input;
use second::attestation::Attestation;
use second::list::Key;
use second::profile::SHA_256;
use second::tree::Node;

const LARGE: [usize; 24] = [
    71, 100, 127, 128, 129, 191, 192, 255, 256, 257, 511, 512, 513, 1_023, 1_024, 1_025, 1_535, 1_536, 2_047,
    2_048, 2_049, 2_500, 2_999, 3_000,
];

pub fn run(comparison: &mut Comparison) {
    for how_many in 1..=70 {
        let keys = keys(&mut comparison.random, how_many);
        let asked = if how_many <= 24 { asked::all(&keys) } else { keys.clone() };
        let others = asked::some(&mut comparison.random, &keys);
        issue_all(comparison, &keys, &[asked, others].concat());
    }
    for how_many in LARGE.into_iter().rev().step_by(comparison.stride()) {
        let keys = keys(&mut comparison.random, how_many);
        let mut asked = vec![deepest(&keys), longest(&keys)];
        let others = asked::some(&mut comparison.random, &keys);
        asked.extend((0..8).map(|_| comparison.random.pick(&others)));
        issue_all(comparison, &keys, &asked);
    }
    across(comparison);
    every_bit(comparison);
    every_room(comparison);
}

/// The first of the keys whose path is the longest.
pub fn deepest(keys: &[Key]) -> Key {
    first_with_most(keys, |attestation| attestation.keys.len())
}

/// The first of the keys whose attestation is the longest.
pub fn longest(keys: &[Key]) -> Key {
    first_with_most(keys, |attestation| attestation.octets().len())
}

/// Of what is measured nothing depends on what a label is.
fn first_with_most(keys: &[Key], measure: fn(&Attestation) -> usize) -> Key {
    let root = Node::root(SHA_256, keys).expect("there is a key");
    let measured = |key: &&Key| measure(&Attestation::issued(&root, key));
    *keys.iter().rev().max_by_key(measured).expect("there is a key")
}

fn issue_all(comparison: &mut Comparison, keys: &[Key], asked: &[Key]) {
    let list = keys.concat();
    let digest = our_digest(comparison.profile, &list);
    for x in asked {
        issue(comparison, x, &list);
        let listed = keys.binary_search(x).is_ok();
        let attestation = our_attestation(comparison.profile, x, &list);
        let verdict = Expected::Accepted(if listed { PRESENT } else { ABSENT }, Vec::new());
        comparison.example(
            "issued and judged",
            Function::Verify(comparison.profile),
            &[x, &digest, &attestation],
            &[],
            &verdict,
        );
        if !listed {
            same_as_foot(comparison, x, &list, &attestation);
        }
    }
}

fn our_digest(profile: u32, list: &[u8]) -> Vec<u8> {
    let mut digest = vec![0; 32];
    Function::Digest(profile).ours(&[list], &mut [&mut digest]);
    digest
}

/// If it is refused, zeros, which no verdict accepts.
fn our_attestation(profile: u32, x: &Key, list: &[u8]) -> Vec<u8> {
    let mut octets = vec![0; 586];
    let answer = Function::Attest(profile).ours(&[x, list], &mut [&mut octets]);
    octets.truncate(answer as usize);
    octets
}

/// An absent key's attestation is that of its foot's key.
fn same_as_foot(comparison: &mut Comparison, x: &Key, list: &[u8], attestation: &[u8]) {
    let expected = Expected::Accepted(attestation.len() as u64, attestation.to_vec());
    let foot = attestation.get(1..21).unwrap_or(x);
    comparison.example(
        "the foot's key",
        Function::Attest(comparison.profile),
        &[foot, list],
        &[586],
        &expected,
    );
}

/// Into buffers far longer, of exactly the length, one less, and any; answers the length.
fn issue(comparison: &mut Comparison, x: &Key, list: &[u8]) -> usize {
    let len = attest(comparison, "into a far longer buffer", x, list, 2_000);
    attest(comparison, "into exactly the length", x, list, len);
    attest(comparison, "into one octet less", x, list, len - 1);
    let random = &mut comparison.random;
    let room = match random.below(5) {
        0 => 0,
        1 => random.below(len),
        2 => len + 1,
        3 => 586,
        _ => len + random.below(100),
    };
    attest(comparison, "into any length", x, list, room);
    len
}

/// Answers the length, 0 if refused.
pub fn attest(comparison: &mut Comparison, name: &str, x: &[u8], list: &[u8], room: usize) -> usize {
    let inputs = [Input::whole(x), Input::whole(list)];
    comparison
        .call(name, Function::Attest(comparison.profile), &inputs, &[room])
        .map_or(0, |len| len as usize)
}

/// Keys at even distances across long lists.
fn across(comparison: &mut Comparison) {
    for how_many in [3_000, 2_999, 1_500].into_iter().step_by(comparison.stride()) {
        let keys = keys(&mut comparison.random, how_many);
        for x in keys.iter().step_by(how_many / 40) {
            attest(comparison, "across a long list", x, &keys.concat(), 586);
        }
    }
}

/// Keys one bit away from a listed one, each bit.
fn every_bit(comparison: &mut Comparison) {
    for how_many in [1, 2, 5, 12, 30] {
        let keys = keys(&mut comparison.random, how_many);
        let key = comparison.random.pick(&keys);
        for bit in 0..160 {
            let x = asked::one_bit_away(key, bit);
            attest(comparison, "one bit away", &x, &keys.concat(), 586);
        }
    }
}

/// Each length of the buffer from 0 to beyond the need.
fn every_room(comparison: &mut Comparison) {
    for how_many in [1, 2, 3, 5, 8, 13] {
        let keys = keys(&mut comparison.random, how_many);
        let x = comparison.random.pick(&keys);
        let len = issue(comparison, &x, &keys.concat());
        for room in 0..len + 40 {
            attest(comparison, "each buffer", &x, &keys.concat(), room);
        }
    }
}
