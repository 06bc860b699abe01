//! Tails under the drill's profile. Its labels end in 30 zeros, so a digest that doesn't is
//! refused, whatever its first two octets are; but a label inside an attestation may end in
//! anything and is hashed as it stands.

use super::asked;
use super::comparison::{Comparison, Expected};
use super::face::{judged, Function};
use super::key_lists::keys;
use super::lent::Input;
use super::random::Random;
use second::answer::DIGEST_DIFFERS;
use second::attestation::Attestation;
use second::list::Key;
use second::profile::{DRILL, SHA_256, SHORT};
use second::sha256::Label;
use second::tree::{label_of, record, Node};
use second::verdict::{last_label, Verdict};

pub fn run(comparison: &mut Comparison) {
    for how_many in [1, 2, 3, 5, 8, 40, 300, 3_000] {
        let keys = keys(&mut comparison.random, how_many);
        let root = Node::root(SHORT, &keys).expect("there is a key");
        for x in asked::some(&mut comparison.random, &keys) {
            let attestation = Attestation::issued(&root, &x);
            digests(comparison, &root, &x, &attestation.octets());
            labels(comparison, &root, &x, &attestation);
        }
    }
}

/// The digest with each octet of its tail another one, and the root's whole SHA-256.
fn digests(comparison: &mut Comparison, root: &Node, x: &Key, octets: &[u8]) {
    let whole = SHA_256(&record(label_of(&root.left), &root.key, label_of(&root.right)));
    let mut others = vec![whole];
    for at in 2..32 {
        let mut other = root.label;
        other[at] = comparison.random.pick(&[0x01, 0x80, 0xff, whole[at] | 1]);
        others.push(other);
    }
    for d in others {
        let refused = Expected::Refused(DIGEST_DIFFERS, 0);
        comparison.example("a digest's tail", Function::Verify(DRILL), &[x, &d, octets], &[], &refused);
        let refused = Expected::Refused(DIGEST_DIFFERS, 1);
        let inputs: [&[u8]; 4] = [x, &d, octets, octets];
        comparison.example("a digest's tail", Function::Extract(DRILL), &inputs, &[85, 85], &refused);
    }
}

/// Each label with another tail: under the digest that it then hashes to the verdict stays.
fn labels(comparison: &mut Comparison, root: &Node, x: &Key, issued: &Attestation) {
    let verdict = if issued.keys[0] == *x { Verdict::Present } else { Verdict::Absent };
    let verdict = Expected::Accepted(judged(verdict).value, Vec::new());
    for which in 0..labels_of(&mut issued.clone()).len() {
        let mut changed = issued.clone();
        another_tail(&mut comparison.random, labels_of(&mut changed)[which]);
        let (d, octets) = (last_label(SHORT, x, &changed), changed.octets());
        comparison.example("a label's tail", Function::Verify(DRILL), &[x, &d, &octets], &[], &verdict);
        let before = [&x[..], &root.label, &octets].map(Input::whole);
        comparison.call("a label's tail, d from before", Function::Verify(DRILL), &before, &[]);
        for (first, second) in [(&octets, &issued.octets()), (&issued.octets(), &octets)] {
            let inputs = [&x[..], &root.label, first, second].map(Input::whole);
            comparison.call("a label's tail, and as issued", Function::Extract(DRILL), &inputs, &[85, 85]);
        }
    }
}

/// The labels that are there.
fn labels_of(attestation: &mut Attestation) -> Vec<&mut Label> {
    let Attestation { foot_left, foot_right, siblings, .. } = attestation;
    [foot_left, foot_right].into_iter().chain(siblings).flatten().collect()
}

fn another_tail(random: &mut Random, label: &mut Label) {
    match random.below(3) {
        0 => label[31] = 1,
        1 => label[2] = 0x80,
        _ => label[2..].copy_from_slice(&random.octets(30)),
    }
}
