//! Generated key lists for digest.

use super::codes::{ascending, STYLES};
use super::comparison::Comparison;
use super::face::Function;
use super::random::Random;
use second::list::{key_of_code, Key};
use std::collections::BTreeSet;

pub type Damage = (&'static str, fn(&mut Vec<Key>, &mut Random));

pub fn run(comparison: &mut Comparison) {
    for round in 0..300 {
        for how_many in [1, 2, 3, 7, 8] {
            each_damage(comparison, how_many);
        }
        let how_many = comparison.random.between(1, 20 + round / 3);
        each_damage(comparison, how_many);
    }
    for how_many in [2_999, 3_000, 3_001, 3_001, 3_002, 3_100, 5_000].repeat(2) {
        each_damage(comparison, how_many);
    }
    every_size(comparison);
    every_index(comparison);
    every_octet_of_a_key(comparison);
    every_remainder(comparison);
    far_too_long(comparison);
}

/// Digests into an output that is mostly 32 octets long.
fn digest(comparison: &mut Comparison, name: &str, octets: &[u8]) {
    let random = &mut comparison.random;
    let room = match random.below(25) {
        0 => 0,
        1 => 31,
        2 => 33,
        3 => random.below(100),
        _ => 32,
    };
    digest_into(comparison, name, octets, room);
}

fn digest_into(comparison: &mut Comparison, name: &str, octets: &[u8], room: usize) {
    comparison.case(name, Function::Digest(comparison.profile), octets, room);
}

/// So many different keys, ascending, in one of several looks.
pub fn keys(random: &mut Random, how_many: usize) -> Vec<Key> {
    let look = random.below(6);
    let shared: Key = random.octets(20).try_into().unwrap();
    if look == 0 {
        let style = STYLES[random.below(STYLES.len())];
        let codes = ascending(random, style, how_many);
        return codes.iter().map(|code| key_of_code(code).unwrap()).collect();
    }
    let mut keys = BTreeSet::new();
    while keys.len() < how_many {
        let mut key = shared;
        match look {
            1 => key = random.octets(20).try_into().unwrap(),
            2 => key = random.octets_from(&[0x00, 0x7f, 0x80, 0xff], 20).try_into().unwrap(),
            3 => key[..2].copy_from_slice(&random.octets(2)),
            4 => key[18..].copy_from_slice(&random.octets(2)),
            // Counted upward, so that most neighbours differ in the last octet only.
            _ => key[18..].copy_from_slice(&(keys.len() as u16).to_be_bytes()),
        }
        keys.insert(key);
    }
    keys.into_iter().collect()
}

/// A list handed to one of these has at least one key.
pub const DAMAGES: [Damage; 14] = [
    ("sound", |_, _| ()),
    ("a key equal to the one before", |keys, random| {
        let at = random.position(keys.len());
        keys[at] = keys[at.saturating_sub(1)];
    }),
    ("a key twice", |keys, random| {
        let at = random.position(keys.len());
        keys.insert(at, keys[at]);
    }),
    ("neighbours swapped", |keys, random| {
        if keys.len() > 1 {
            let at = random.position(keys.len() - 1);
            keys.swap(at, at + 1);
        }
    }),
    ("two keys swapped", |keys, random| {
        let (one, other) = (random.below(keys.len()), random.below(keys.len()));
        keys.swap(one, other);
    }),
    ("two keys equal, not neighbours", |keys, random| keys.push(keys[random.below(keys.len())])),
    ("descending", |keys, _| keys.reverse()),
    ("ascending as signed octets", |keys, _| keys.sort_by_key(|key| key.map(|octet| octet as i8))),
    ("ascending from the last octet", |keys, _| {
        keys.sort_by_key(|key| key.iter().rev().copied().collect::<Vec<u8>>());
    }),
    ("a key without its last octet's lowest bit", |keys, random| {
        let at = random.position(keys.len());
        keys[at][19] &= 0xfe;
    }),
    ("a key's octet another", |keys, random| {
        let at = random.position(keys.len());
        keys[at][random.below(20)] = random.octet();
    }),
    ("a key left out", |keys, random| {
        let at = random.position(keys.len());
        keys.remove(at);
    }),
    ("a key of zeros last", |keys, _| keys.push([0; 20])),
    ("a key of ff first", |keys, _| keys.insert(0, [0xff; 20])),
];

/// Each damage by itself; one by one with another; and with octets too many or too few.
fn each_damage(comparison: &mut Comparison, how_many: usize) {
    let sound = keys(&mut comparison.random, how_many);
    for (name, damage) in DAMAGES {
        let mut damaged = sound.clone();
        damage(&mut damaged, &mut comparison.random);
        digest(comparison, name, &damaged.concat());
        let mut octets = damaged.concat();
        let len = octets.len() + comparison.random.below(20);
        octets.resize(len.saturating_sub(10), 0x5a);
        digest(comparison, "octets too many or too few", &octets);
        let (_, second_damage) = DAMAGES[comparison.random.below(DAMAGES.len())];
        if !damaged.is_empty() {
            second_damage(&mut damaged, &mut comparison.random);
        }
        digest(comparison, "two damages", &damaged.concat());
    }
}

fn every_size(comparison: &mut Comparison) {
    for room in [0, 1, 31, 32, 33, 64, 85] {
        digest_into(comparison, "no keys", &[], room);
    }
    for _ in 0..200 {
        digest(comparison, "no keys", &[]);
    }
    for how_many in
        (1..=300).chain([511, 512, 513, 1_023, 1_024, 1_025, 2_047, 2_048, 2_049, 2_998, 2_999, 3_000])
    {
        let octets = keys(&mut comparison.random, how_many).concat();
        digest_into(comparison, "each size", &octets, 32);
    }
}

/// A fault at each index, alone and with a second one further on.
fn every_index(comparison: &mut Comparison) {
    for how_many in [2, 3, 7, 8, 40, 3_000] {
        let sound = keys(&mut comparison.random, how_many);
        for index in (1..how_many).step_by(1 + how_many / 200) {
            let mut equal = sound.clone();
            equal[index] = equal[index - 1];
            digest_into(comparison, "equal at each index", &equal.concat(), 32);
            equal.swap(how_many - 2, how_many - 1);
            digest_into(comparison, "equal at each index, last two swapped", &equal.concat(), 32);
            let mut swapped = sound.clone();
            swapped.swap(index - 1, index);
            digest_into(comparison, "swapped at each index", &swapped.concat(), 32);
        }
    }
}

const PAIRS: [(u8, u8); 6] =
    [(0x00, 0x01), (0x7f, 0x80), (0x00, 0xff), (0x7f, 0xff), (0x80, 0x81), (0xfe, 0xff)];

/// Two keys that differ in one octet only, both ways round, with octets from 80 upward.
fn every_octet_of_a_key(comparison: &mut Comparison) {
    for at in 0..20 {
        for (low, high) in PAIRS {
            let mut below: Key = comparison.random.octets(20).try_into().unwrap();
            let mut above = below;
            (below[at], above[at]) = (low, high);
            digest_into(comparison, "one octet apart, ascending", &[below, above].concat(), 32);
            digest_into(comparison, "one octet apart, descending", &[above, below].concat(), 32);
            // Every later octet the other way round: only the first difference counts.
            for later in at + 1..20 {
                (below[later], above[later]) = (0xff, 0x00);
            }
            digest_into(comparison, "first difference counts, ascending", &[below, above].concat(), 32);
            digest_into(comparison, "first difference counts, descending", &[above, below].concat(), 32);
        }
    }
}

fn every_remainder(comparison: &mut Comparison) {
    for how_many in [0, 1, 2, 3, 7, 8, 2_999, 3_000, 3_001] {
        let sound = keys(&mut comparison.random, how_many).concat();
        for remainder in 0..20 {
            let octets = [&sound, &[0xff; 20][..remainder]].concat();
            digest(comparison, "each remainder", &octets);
        }
    }
}

/// Lengths that counting in 16 bits, of octets or of keys, would take for small ones.
fn far_too_long(comparison: &mut Comparison) {
    for how_many in [3_276, 3_277, 3_278, 6_000, 65_535, 65_536, 65_537, 65_539] {
        let counter: Vec<u8> =
            (0..how_many as u128).flat_map(|n| [&[0; 4][..], &n.to_be_bytes()].concat()).collect();
        for cut in [0, 1, 19] {
            for room in [31, 32] {
                digest_into(comparison, "far too long", &counter[..counter.len() - cut], room);
            }
        }
        for len in [65_536, 65_540, 131_072, 131_080] {
            digest_into(comparison, "far too long", &counter[..len.min(counter.len())], 32);
        }
    }
}
