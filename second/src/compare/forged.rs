//! Attestations that no tree of a list gives: drawn ones that pass, damaged ones, rubbish,
//! and those far too long.

use super::comparison::Comparison;
use super::draft::{Draft, SIDES};
use super::forgery::{may_be_forged, FORGERIES};
use super::random::Random;
use second::sha256::Label;

pub fn run(comparison: &mut Comparison) {
    passing(comparison);
    for round in 0..200 {
        for how_many in [1, 2, 3, 12, 32] {
            each_forgery(comparison, how_many, round % 5);
        }
        let how_many = comparison.random.between(1, 32);
        each_forgery(comparison, how_many, round % 5);
    }
    several_forgeries(comparison);
    rubbish(comparison);
    nothing(comparison);
    far_too_long(comparison);
}

/// Shows a draft under the digest that it hashes to, or under any.
pub fn show(comparison: &mut Comparison, name: &str, draft: &Draft) {
    let digest =
        draft.own_digest(comparison.label_function()).unwrap_or_else(|| any_digest(&mut comparison.random));
    comparison.verify(name, &draft.x, &digest, &draft.octets());
}

fn any_digest(random: &mut Random) -> Label {
    random.octets(32).try_into().unwrap()
}

/// Each count of keys, x on each side, with no labels, some and all.
fn passing(comparison: &mut Comparison) {
    for how_many in (1..=32).chain([32; 20]) {
        for side in SIDES {
            for there in [0, 2, 4, 4] {
                let draft = Draft::drawn(&mut comparison.random, how_many, side, there);
                show(comparison, "passing", &draft);
                let digest =
                    draft.own_digest(comparison.label_function()).expect("a drawn one has a sound form");
                let mut another = digest;
                another[comparison.random.below(32)] ^= 1 << comparison.random.below(8);
                comparison.verify("passing, one bit of d off", &draft.x, &another, &draft.octets());
            }
        }
    }
}

/// Each damage by itself, under the digest from before it and under its own.
fn each_forgery(comparison: &mut Comparison, how_many: usize, there: usize) {
    let side = comparison.random.pick(&SIDES);
    let sound = Draft::drawn(&mut comparison.random, how_many, side, there);
    let digest = sound.own_digest(comparison.label_function()).expect("a drawn one has a sound form");
    for (name, damage) in FORGERIES {
        let mut damaged = sound.clone();
        damage(&mut damaged, &mut comparison.random);
        comparison.verify(name, &damaged.x, &digest, &damaged.octets());
        show(comparison, name, &damaged);
    }
}

/// Several damages in one: the order of the refusals decides, and the smallest j.
fn several_forgeries(comparison: &mut Comparison) {
    let hash = comparison.label_function();
    for _ in 0..30_000 {
        let random = &mut comparison.random;
        let mut draft = Draft::any(random);
        let digest = draft.own_digest(hash).expect("a drawn one has a sound form");
        for _ in 0..random.between(2, 4) {
            let (_, damage) = FORGERIES[random.below(FORGERIES.len())];
            if may_be_forged(&draft) {
                damage(&mut draft, random);
            }
        }
        let (mut x, mut d, mut octets) = (draft.x.to_vec(), digest.to_vec(), draft.octets());
        if random.one_in(2) {
            d = draft.own_digest(hash).unwrap_or(digest).to_vec();
        }
        if random.one_in(10) {
            octets.truncate(random.below(octets.len() + 1));
        }
        if random.one_in(20) {
            x.resize(random.pick(&[0, 1, 19, 21]), 0);
        }
        if random.one_in(20) {
            d.resize(random.pick(&[0, 31, 33]), 0);
        }
        comparison.verify("several damages", &x, &d, &octets);
    }
}

fn rubbish(comparison: &mut Comparison) {
    for _ in 0..3_000 {
        let random = &mut comparison.random;
        let (len, bits_len) = (random.below(300), random.below(300));
        let (x, d) = (random.octets(20), random.octets(32));
        let octets = random.octets(len);
        let counted = [&[random.between(1, 4) as u8], &octets[..]].concat();
        let bits = random.octets_from(&[0, 1, 1, 2], bits_len);
        comparison.verify("rubbish", &x, &d, &octets);
        comparison.verify("rubbish after a count", &x, &d, &counted);
        comparison.verify("rubbish of small octets", &x, &d, &bits);
    }
}

fn nothing(comparison: &mut Comparison) {
    for _ in 0..100 {
        let random = &mut comparison.random;
        let (x_len, d_len) = (random.pick(&[0, 20, 20, 20, 20]), random.pick(&[0, 32, 32, 32, 32]));
        let (x, d) = (random.octets(x_len), random.octets(d_len));
        for _ in 0..4 {
            comparison.verify("nothing", &x, &d, &[]);
        }
    }
}

/// Lengths around 65,535, and those that counting in 16 bits would take for the sound one.
fn far_too_long(comparison: &mut Comparison) {
    let hash = comparison.label_function();
    for how_many in [1, 2, 12, 32] {
        for side in SIDES {
            let draft = Draft::drawn(&mut comparison.random, how_many, side, 4);
            let (sound, digest) = (draft.octets(), draft.own_digest(hash).unwrap());
            for len in [1_732, 65_535, 65_536, 65_537, 65_536 + sound.len(), 131_072 + sound.len()] {
                for filler in [0x00, 0x01, 0xff] {
                    let mut long = sound.clone();
                    long.resize(len.max(sound.len() + 1), filler);
                    comparison.verify("far too long", &draft.x, &digest, &long);
                }
                let rubbish = comparison.random.octets(len);
                comparison.verify("far too long, rubbish", &draft.x, &digest, &rubbish);
            }
        }
    }
    let draft = Draft::drawn(&mut comparison.random, 32, SIDES[1], 4);
    let (sound, digest) = (draft.octets(), draft.own_digest(hash).unwrap());
    let megabyte = [sound, vec![0; 1 << 20]].concat();
    comparison.verify("a megabyte follows", &draft.x, &digest, &megabyte);
    comparison.verify("a megabyte of zeros", &draft.x, &digest, &vec![0; 1 << 20]);
    comparison.verify("a megabyte of ones", &draft.x, &digest, &vec![1; 1 << 20]);
    comparison.verify("a megabyte, x of 21", &[0; 21], &digest, &megabyte);
}
