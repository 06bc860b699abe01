//! Sound attestations with an octet changed, put in or taken out, cut, and made longer.

use super::comparison::Comparison;
use super::draft::{Draft, SIDES};
use super::face::Function;
use super::issuing::{deepest, longest};
use super::key_lists::keys;
use super::lent::Input;
use super::readings::{key, LIST_F};
use second::attestation::Attestation;
use second::list::Key;
use second::sha256::Label;
use second::tree::{LabelFunction, Node};

/// An attestation that is accepted for x under d.
struct Sound {
    x: Key,
    d: Label,
    octets: Vec<u8>,
}

pub fn run(comparison: &mut Comparison) {
    for sound in small(comparison) {
        let masks: Vec<u8> = (1..=255).step_by(comparison.stride()).collect();
        every_octet(comparison, &sound, &masks);
        every_cut(comparison, &sound);
        every_octet_more(comparison, &sound);
        put_in_and_taken_out(comparison, &sound);
    }
    for sound in large(comparison) {
        let masks: Vec<u8> = [0xff, 0x01, 0x02, 0x80].into_iter().step_by(comparison.stride()).collect();
        every_octet(comparison, &sound, &masks);
        every_cut(comparison, &sound);
        every_octet_more(comparison, &sound);
        some_octets(comparison, &sound);
    }
}

fn issued(hash: LabelFunction, keys: &[Key], x: Key) -> Sound {
    let root = Node::root(hash, keys).expect("there is a key");
    Sound { x, d: root.label, octets: Attestation::issued(&root, &x).octets() }
}

fn of_draft(hash: LabelFunction, draft: &Draft) -> Sound {
    Sound { x: draft.x, d: draft.own_digest(hash).expect("a sound form"), octets: draft.octets() }
}

/// List F's examples, a list of one key, and one of two levels that no list gives.
fn small(comparison: &mut Comparison) -> Vec<Sound> {
    let hash = comparison.label_function();
    let code = |code: &str| Key::try_from(key(code)).unwrap();
    let f = LIST_F.map(code);
    let of_f = ["3-4", "1-1", "3-39", "1", "A-3"].map(|x| issued(hash, &f, code(x)));
    let one = issued(hash, &[[0xff; 20]], [0xff; 20]);
    let two_levels = of_draft(hash, &Draft::drawn(&mut comparison.random, 2, SIDES[1], 4));
    of_f.into_iter().chain([one, two_levels]).collect()
}

/// The deepest and the longest over 3,000 keys; and 32 levels with every label, or none,
/// that may be there.
fn large(comparison: &mut Comparison) -> Vec<Sound> {
    let hash = comparison.label_function();
    let keys = keys(&mut comparison.random, 3_000);
    let of_list = [deepest(&keys), longest(&keys)].map(|x| issued(hash, &keys, x));
    let mut draft = |side, there| of_draft(hash, &Draft::drawn(&mut comparison.random, 32, side, there));
    let of_32 = SIDES.map(|side| draft(side, 4));
    let bare = draft(SIDES[0], 0);
    of_list.into_iter().chain(of_32).chain([bare]).collect()
}

/// Each octet with the bits of each mask turned over, and any octet in its place.
fn every_octet(comparison: &mut Comparison, sound: &Sound, masks: &[u8]) {
    let mut octets = sound.octets.clone();
    for at in 0..octets.len() {
        for mask in masks {
            octets[at] = sound.octets[at] ^ mask;
            comparison.verify("an octet changed", &sound.x, &sound.d, &octets);
        }
        octets[at] = comparison.random.octet();
        comparison.verify("an octet another", &sound.x, &sound.d, &octets);
        octets[at] = sound.octets[at];
    }
}

/// What is cut off stands behind the end.
fn every_cut(comparison: &mut Comparison, sound: &Sound) {
    for len in 0..=sound.octets.len() {
        let inputs = [Input::whole(&sound.x), Input::whole(&sound.d), Input::cut(&sound.octets, len)];
        comparison.call("each cut", Function::Verify(comparison.profile), &inputs, &[]);
        comparison.verify("each cut, other octets behind", &sound.x, &sound.d, &sound.octets[..len]);
    }
}

fn every_octet_more(comparison: &mut Comparison, sound: &Sound) {
    for octet in 0..=255 {
        let more = [&sound.octets[..], &[octet]].concat();
        comparison.verify("each octet more", &sound.x, &sound.d, &more);
    }
    for how_many in [2, 3, 20, 32, 33, 66, 255, 256, 257] {
        let more = comparison.random.octets(how_many);
        comparison.verify("octets more", &sound.x, &sound.d, &[&sound.octets[..], &more].concat());
    }
    comparison.verify("twice", &sound.x, &sound.d, &sound.octets.repeat(2));
}

fn put_in_and_taken_out(comparison: &mut Comparison, sound: &Sound) {
    let octets = &sound.octets;
    for at in 0..octets.len() {
        let (before, after) = octets.split_at(at);
        for octet in [0, 1, 2, comparison.random.octet()] {
            let put_in = [before, &[octet], after].concat();
            comparison.verify("an octet put in", &sound.x, &sound.d, &put_in);
        }
        comparison.verify("an octet taken out", &sound.x, &sound.d, &[before, &after[1..]].concat());
        let other_x = octets[at..].iter().chain(octets).take(20).copied().collect::<Vec<u8>>();
        comparison.verify("x from its octets", &other_x, &sound.d, octets);
    }
}

/// A few octets changed at once.
fn some_octets(comparison: &mut Comparison, sound: &Sound) {
    for _ in 0..300 {
        let mut octets = sound.octets.clone();
        for _ in 0..comparison.random.between(2, 5) {
            let at = comparison.random.position(octets.len());
            octets[at] = comparison.random.octet();
        }
        comparison.verify("a few octets changed", &sound.x, &sound.d, &octets);
    }
}
