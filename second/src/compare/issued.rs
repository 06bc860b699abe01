//! Issued attestations under the right digest and others, for the right key and others, under
//! their own profile and the other one.

use super::asked;
use super::comparison::Comparison;
use super::face::Function;
use super::key_lists::keys;
use super::lent::Input;
use second::attestation::Attestation;
use second::list::Key;
use second::sha256::Label;
use second::tree::Node;

const LARGE: [usize; 12] = [63, 64, 65, 127, 128, 255, 256, 1_000, 2_047, 2_048, 2_999, 3_000];

pub fn run(comparison: &mut Comparison) {
    for how_many in (1..=40).chain([1, 2, 3, 7, 8].repeat(10)) {
        let keys = keys(&mut comparison.random, how_many);
        let asked = asked::all(&keys);
        judge(comparison, &keys, &asked);
    }
    for how_many in LARGE.repeat(3) {
        let keys = keys(&mut comparison.random, how_many);
        let asked = asked::some(&mut comparison.random, &keys);
        judge(comparison, &keys, &asked);
    }
    every_bit(comparison);
}

fn judge(comparison: &mut Comparison, keys: &[Key], asked: &[Key]) {
    let root = Node::root(comparison.label_function(), keys).expect("there is a key");
    let other_root = Node::root(comparison.other_label_function(), keys).expect("there is a key");
    for x in asked {
        let octets = Attestation::issued(&root, x).octets();
        comparison.verify("issued", x, &root.label, &octets);
        other_digests(comparison, &root, x, &octets);
        other_profile(comparison, [&root.label, &other_root.label], x, &octets);
        for _ in 0..4 {
            let other = comparison.random.pick(asked);
            comparison.verify("issued for another key", &other, &root.label, &octets);
        }
        let above: Vec<Key> = octets[1..][..20 * usize::from(octets[0])].chunks(20).map(to_key).collect();
        let above = comparison.random.pick(&above);
        comparison.verify("asked for a key of the path", &above, &root.label, &octets);
    }
}

fn to_key(octets: &[u8]) -> Key {
    octets.try_into().unwrap()
}

/// Digests one bit off, of part of the tree, and any.
fn other_digests(comparison: &mut Comparison, root: &Node, x: &Key, octets: &[u8]) {
    let mut one_off = root.label;
    one_off[comparison.random.position(32)] ^= 1 << comparison.random.below(8);
    comparison.verify("one bit of d off", x, &one_off, octets);
    for child in [&root.left, &root.right].into_iter().flatten() {
        comparison.verify("d a label below the root", x, &child.label, octets);
    }
    let any = comparison.random.octets(32);
    comparison.verify("d any octets", x, &any, octets);
    comparison.verify("d zeros", x, &[0; 32], octets);
}

/// The other profile's digest under this profile; either digest under the other.
fn other_profile(comparison: &mut Comparison, [d, other_d]: [&Label; 2], x: &Key, octets: &[u8]) {
    comparison.verify("the other profile's digest", x, other_d, octets);
    for digest in [d, other_d] {
        let verify = Function::Verify(comparison.other_profile());
        comparison.call("the other profile", verify, &[&x[..], digest, octets].map(Input::whole), &[]);
    }
}

/// Keys one bit away from each key of a path, each bit.
fn every_bit(comparison: &mut Comparison) {
    for how_many in [1, 5, 12, 3_000] {
        let keys = keys(&mut comparison.random, how_many);
        let root = Node::root(comparison.label_function(), &keys).expect("there is a key");
        for key in [keys[0], keys[how_many / 2], comparison.random.pick(&keys)] {
            let octets = Attestation::issued(&root, &key).octets();
            for bit in 0..160 {
                let x = asked::one_bit_away(key, bit);
                comparison.verify("one bit of x off", &x, &root.label, &octets);
                let octets = Attestation::issued(&root, &x).octets();
                comparison.verify("one bit from a listed key", &x, &root.label, &octets);
            }
        }
    }
}
