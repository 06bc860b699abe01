//! Attestations that are refused, one way for each number, made from one that passes.

use super::asked;
use super::draft::{label, Draft, Optional, LEFT, RIGHT};
use super::random::Random;

/// The form is not sound.
pub fn with_7(random: &mut Random, sound: &Draft) -> Vec<u8> {
    let mut draft = sound.clone();
    let at = random.position(draft.optionals.len());
    match random.below(7) {
        0 => draft.count = 0,
        1 => draft.count = random.between(33, 255) as u8,
        2 => draft.optionals[at].count = random.between(2, 255) as u8,
        3 => draft.siblings_count = draft.siblings_count.wrapping_add(1),
        4 => draft.siblings_count = draft.siblings_count.wrapping_sub(1),
        5 => draft.after = random.octets(1),
        _ => {
            let octets = sound.octets();
            return octets[..random.below(octets.len())].to_vec();
        }
    }
    draft.octets()
}

/// The foot is not x and has a child on both sides.
pub fn with_8(random: &mut Random, sound: &Draft) -> Vec<u8> {
    let mut draft = sound.clone();
    if draft.keys[0] == draft.x {
        draft.keys[0] = asked::one_bit_away(draft.x, random.below(160));
    }
    for side in [LEFT, RIGHT] {
        draft.optionals[side] = Optional::there(label(random));
    }
    draft.octets()
}

/// One key above the foot is x, or equal to the one below it.
pub fn with_9(random: &mut Random, sound: &Draft) -> Vec<u8> {
    let mut draft = another_root(random, sound);
    let j = 1 + random.position(draft.keys.len() - 1);
    draft.keys[j] = if random.one_in(2) { draft.x } else { draft.keys[j - 1] };
    draft.octets()
}

/// Another digest is the last label.
pub fn with_10(random: &mut Random, sound: &Draft) -> Vec<u8> {
    another_root(random, sound).octets()
}

/// Any key above the root, or for it if there are 32 levels.
fn another_root(random: &mut Random, sound: &Draft) -> Draft {
    let mut draft = sound.clone();
    if draft.keys.len() == 32 {
        draft.keys.pop();
    } else {
        draft.optionals.push(Optional::there(label(random)));
    }
    draft.keys.push(random.octets(20).try_into().unwrap());
    draft.recount();
    draft
}
