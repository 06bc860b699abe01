//! Each place of an attestation in turn: each count with each value, each level, each label.

use super::comparison::Comparison;
use super::draft::{label, Draft, Optional, LEFT, RIGHT, SIDES};
use super::face::Function;
use super::forged::show;
use super::lent::Input;
use second::list::Key;
use second::sha256::Label;
use std::cmp::Ordering;

pub fn run(comparison: &mut Comparison) {
    every_count_of_keys(comparison);
    every_optional_count(comparison);
    every_siblings_count(comparison);
    every_end(comparison);
    for how_many in [2, 3, 5, 12, 31, 32] {
        for side in SIDES {
            every_level(comparison, how_many, side);
        }
    }
    every_label_of_zeros(comparison);
    every_child_at_the_foot(comparison);
    every_size(comparison);
}

/// A draft of so many keys, a sibling for each above the foot, whether or not an octet can
/// count them.
fn of_keys(comparison: &mut Comparison, how_many: usize) -> Draft {
    let side = comparison.random.pick(&SIDES);
    let mut draft = Draft::drawn(&mut comparison.random, how_many.max(1), side, 2);
    draft.keys.truncate(how_many);
    draft
}

/// As many keys as are counted; and each count before a sound rest.
fn every_count_of_keys(comparison: &mut Comparison) {
    for how_many in (0..=40).chain([63, 64, 65, 127, 128, 129, 254, 255, 256, 257, 288]) {
        let mut draft = of_keys(comparison, how_many);
        draft.recount();
        show(comparison, "each count of keys", &draft);
        draft.count = how_many as u8;
        draft.siblings_count = (how_many as u8).wrapping_sub(1);
        show(comparison, "each count of keys, K - 1 modulo 256", &draft);
    }
    for how_many in [1, 2, 3, 12, 31, 32] {
        let mut draft = of_keys(comparison, how_many);
        let digest = draft.own_digest(comparison.label_function()).unwrap();
        for count in 0..=255 {
            draft.count = count;
            comparison.verify("each count before a sound rest", &draft.x, &digest, &draft.octets());
        }
    }
}

/// At each optional label each count from 2, with no label after it, one, and as many.
fn every_optional_count(comparison: &mut Comparison) {
    for how_many in [1, 2, 3, 12, 32] {
        let sound = of_keys(comparison, how_many);
        let digest = sound.own_digest(comparison.label_function()).unwrap();
        let step = if how_many < 4 { 1 } else { 23 };
        for at in 0..sound.optionals.len() {
            for count in (2..=255).step_by(step).chain([3, 128, 254, 255]) {
                for labels in [0, 1, usize::from(count).min(33)] {
                    let mut draft = sound.clone();
                    draft.optionals[at] = Optional { count, labels: vec![[0; 32]; labels] };
                    comparison.verify("each optional count", &draft.x, &digest, &draft.octets());
                }
            }
        }
    }
}

/// Each count of siblings, with K - 1 after it and with as many as it says.
fn every_siblings_count(comparison: &mut Comparison) {
    for how_many in 1..=32 {
        let sound = of_keys(comparison, how_many);
        let digest = sound.own_digest(comparison.label_function()).unwrap();
        for count in 0..=255 {
            let mut draft = sound.clone();
            draft.siblings_count = count;
            comparison.verify("each siblings' count", &draft.x, &digest, &draft.octets());
            draft.optionals.resize(2 + usize::from(count), Optional::ABSENT);
            comparison.verify("each siblings' count, as many", &draft.x, &digest, &draft.octets());
        }
    }
}

/// Cut where each part ends, and one octet before; what is cut off stands behind the end.
fn every_end(comparison: &mut Comparison) {
    for how_many in (1..=32).chain([1, 2, 3].repeat(20)) {
        let draft = of_keys(comparison, how_many);
        let (digest, octets) = (draft.own_digest(comparison.label_function()).unwrap(), draft.octets());
        for end in draft.ends() {
            for len in [end - 1, end] {
                let inputs = [Input::whole(&draft.x), Input::whole(&digest), Input::cut(&octets, len)];
                comparison.call("each end", Function::Verify(comparison.profile), &inputs, &[]);
            }
        }
    }
}

/// x at each level above the foot; equal neighbours at each; both, at each two levels.
fn every_level(comparison: &mut Comparison, how_many: usize, side: Ordering) {
    let sound = Draft::drawn(&mut comparison.random, how_many, side, 2);
    for j in 1..how_many {
        let mut equal = sound.clone();
        equal.keys[j] = equal.keys[j - 1];
        show(comparison, "equal neighbours at each level", &equal);
        if j > 1 {
            let mut apart = sound.clone();
            apart.keys[j] = apart.keys[j - 2];
            show(comparison, "equal, two levels apart", &apart);
        }
        for i in 1..how_many {
            let mut both = equal.clone();
            both.keys[i] = both.x;
            show(comparison, "x and equal neighbours", &both);
            let mut twice = equal.clone();
            twice.keys[i] = twice.keys[i - 1];
            show(comparison, "equal neighbours twice", &twice);
        }
        let mut x_above = sound.clone();
        x_above.keys[j] = x_above.x;
        show(comparison, "x at each level", &x_above);
        x_above.optionals[LEFT] = Optional::there([7; 32]);
        x_above.optionals[RIGHT] = Optional::there([7; 32]);
        show(comparison, "x at each level, children at the foot", &x_above);
    }
}

/// Each optional label absent and of 32 zeros: each under the digest of either.
fn every_label_of_zeros(comparison: &mut Comparison) {
    for how_many in [1, 2, 3, 12, 32] {
        for side in SIDES {
            let sound = Draft::drawn(&mut comparison.random, how_many, side, 2);
            for at in 0..sound.optionals.len() {
                let (mut absent, mut zeros) = (sound.clone(), sound.clone());
                absent.optionals[at] = Optional::ABSENT;
                zeros.optionals[at] = Optional::there([0; 32]);
                let digests = [
                    absent.own_digest(comparison.label_function()).unwrap(),
                    zeros.own_digest(comparison.label_function()).unwrap(),
                ];
                for digest in digests {
                    comparison.verify("an absent label", &absent.x, &digest, &absent.octets());
                    comparison.verify("a label of zeros", &zeros.x, &digest, &zeros.octets());
                }
            }
        }
    }
}

/// No child at the foot, either, both; x on each side of the foot, one octet from it too.
fn every_child_at_the_foot(comparison: &mut Comparison) {
    for how_many in [1, 2, 3, 12, 32].repeat(4) {
        for side in SIDES {
            let mut draft = Draft::drawn(&mut comparison.random, how_many, side, 2);
            for children in 0..4 {
                for (at, bit) in [(LEFT, 1), (RIGHT, 2)] {
                    let there = Optional::there(label(&mut comparison.random));
                    draft.optionals[at] = if children & bit == bit { there } else { Optional::ABSENT };
                }
                show(comparison, "children at the foot", &draft);
                for octet in 0..20 {
                    let mut near = draft.clone();
                    near.x = near.keys[0];
                    near.x[octet] ^= comparison.random.pick(&[0x01, 0x80]);
                    show(comparison, "children at the foot, x near it", &near);
                }
            }
        }
    }
}

const KEY_SIZES: [usize; 7] = [0, 1, 19, 20, 21, 32, 40];
const DIGEST_SIZES: [usize; 7] = [0, 1, 20, 31, 32, 33, 64];

/// Each size of x and d, before each refusal and before none.
fn every_size(comparison: &mut Comparison) {
    for how_many in [1, 2, 3, 12].repeat(6) {
        let sound = Draft::drawn(&mut comparison.random, how_many, Ordering::Less, 4);
        let mut child = sound.clone();
        child.optionals[LEFT] = Optional::there([7; 32]);
        let mut above = sound.clone();
        above.keys[how_many - 1] = above.x;
        let digest = sound.own_digest(comparison.label_function()).unwrap();
        let form = [&sound.octets()[..], &[0]].concat();
        for octets in [sound.octets(), child.octets(), above.octets(), form, Vec::new()] {
            each_size(comparison, &sound.x, &digest, &octets);
            each_size(comparison, &sound.x, &[7; 32], &octets);
        }
    }
}

fn each_size(comparison: &mut Comparison, x: &Key, digest: &Label, octets: &[u8]) {
    let (x, digest) = ([*x, *x].concat(), [*digest, *digest].concat());
    for key_size in KEY_SIZES {
        for digest_size in DIGEST_SIZES {
            let inputs = [Input::cut(&x, key_size), Input::cut(&digest, digest_size), Input::whole(octets)];
            comparison.call("each size of x and d", Function::Verify(comparison.profile), &inputs, &[]);
        }
    }
}
