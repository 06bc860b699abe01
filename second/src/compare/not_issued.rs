//! Key lists and keys that attest refuses.

use super::comparison::Comparison;
use super::face::Function;
use super::issuing::attest;
use super::key_lists::{keys, DAMAGES};
use super::lent::Input;
use second::list::Key;

pub fn run(comparison: &mut Comparison) {
    every_key_size(comparison);
    every_index(comparison);
    every_cut(comparison);
    for how_many in [1, 2, 3, 7, 8, 12, 40].repeat(12) {
        each_damage(comparison, how_many);
    }
    for how_many in [2_999, 3_000, 3_001, 3_001, 3_002, 3_002, 3_100, 5_000] {
        each_damage(comparison, how_many);
    }
    far_too_long(comparison);
}

/// Each size of the key, before each refusal and before none. What a short key lacks stands
/// behind its end.
fn every_key_size(comparison: &mut Comparison) {
    let sound = keys(&mut comparison.random, 5);
    let descending = [sound[1], sound[0]].concat();
    let too_many = keys(&mut comparison.random, 3_001).concat();
    let x = [sound[2], sound[2]].concat();
    for list in [&sound.concat()[..], &[], &descending[..39], &too_many, &descending] {
        for size in [0, 1, 19, 20, 21, 32, 40] {
            for room in [0, 87, 88, 600] {
                let inputs = [Input::cut(&x, size), Input::whole(list)];
                comparison.call(
                    "each size of the key",
                    Function::Attest(comparison.profile),
                    &inputs,
                    &[room],
                );
            }
        }
    }
}

/// A fault at each index, alone and with a second one further on.
fn every_index(comparison: &mut Comparison) {
    for how_many in [2, 3, 8, 40, 3_000] {
        let sound = keys(&mut comparison.random, how_many);
        for index in (1..how_many).step_by(1 + how_many / 100) {
            let mut equal = sound.clone();
            equal[index] = equal[index - 1];
            attest(comparison, "equal at each index", &sound[0], &equal.concat(), 586);
            equal.swap(how_many - 2, how_many - 1);
            attest(comparison, "equal at each index, last two swapped", &sound[0], &equal.concat(), 0);
        }
    }
}

/// What is cut off from the list stands behind its end.
fn every_cut(comparison: &mut Comparison) {
    let (x, list) = (comparison.random.octets(20), keys(&mut comparison.random, 6).concat());
    for len in 0..=list.len() {
        for room in [0, 200] {
            let inputs = [Input::whole(&x), Input::cut(&list, len)];
            comparison.call("each cut of the list", Function::Attest(comparison.profile), &inputs, &[room]);
        }
    }
}

/// Each damage of the list by itself, with octets too many or too few, and two at once.
fn each_damage(comparison: &mut Comparison, how_many: usize) {
    let sound = keys(&mut comparison.random, how_many);
    for (name, damage) in DAMAGES {
        let mut damaged = sound.clone();
        damage(&mut damaged, &mut comparison.random);
        attest_any(comparison, name, &sound, &damaged.concat());
        let mut octets = damaged.concat();
        let len = octets.len() + comparison.random.below(20);
        octets.resize(len.saturating_sub(10), 0x5a);
        attest_any(comparison, "octets too many or too few", &sound, &octets);
        let (_, second_damage) = DAMAGES[comparison.random.below(DAMAGES.len())];
        if !damaged.is_empty() {
            second_damage(&mut damaged, &mut comparison.random);
        }
        attest_any(comparison, "two damages", &sound, &damaged.concat());
    }
    for _ in 0..3 {
        attest_any(comparison, "no keys", &sound, &[]);
    }
}

/// Any key, at times not of 20 octets, into any buffer, at times too short.
fn attest_any(comparison: &mut Comparison, name: &str, sound: &[Key], list: &[u8]) {
    let random = &mut comparison.random;
    let mut x = random.octets(20);
    if random.one_in(2) {
        x = random.pick(sound).to_vec();
    }
    if random.one_in(10) {
        x.resize(random.pick(&[0, 1, 19, 21, 40]), 0);
    }
    let room = random.pick(&[0, 23, 24, 100, 586, 586, 586, 700]);
    attest(comparison, name, &x, list, room);
}

/// Lengths that counting in 16 bits, of octets or of keys, would take for small ones.
fn far_too_long(comparison: &mut Comparison) {
    let counter: Vec<u8> =
        (0..65_540_u128).flat_map(|number| [&[0; 4][..], &number.to_be_bytes()].concat()).collect();
    for len in [65_536, 65_540, 65_556, 131_080, 20 * 65_536, 20 * 65_537, 20 * 65_540] {
        for room in [0, 586] {
            attest(comparison, "far too long", &counter[20..40], &counter[..len], room);
        }
    }
}
