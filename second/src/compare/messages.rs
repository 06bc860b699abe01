//! Generated messages for hash.

use super::comparison::Comparison;
use super::face::Function;

pub fn run(comparison: &mut Comparison) {
    every_short_length(comparison);
    drawn(comparison);
    long(comparison);
    one_bit_apart(comparison);
}

fn every_short_length(comparison: &mut Comparison) {
    for len in 0..=330 {
        for _ in 0..4 {
            let message = comparison.random.octets(len);
            comparison.case("each length", Function::Hash, &message, 32);
        }
        for octet in [0x00, 0x80, 0xff] {
            comparison.case("each length, one octet throughout", Function::Hash, &vec![octet; len], 32);
        }
        for room in [0, 1, 31, 33, 64] {
            let message = comparison.random.octets(len);
            comparison.case("output not of 32", Function::Hash, &message, room);
        }
    }
}

/// Mostly lengths where the padding takes one block more.
fn drawn(comparison: &mut Comparison) {
    for _ in 0..6_000 {
        let random = &mut comparison.random;
        let blocks = random.below(20);
        let len = match random.below(3) {
            0 => random.below(4_096),
            _ => 64 * blocks + random.pick(&[0, 1, 21, 53, 54, 55, 56, 57, 62, 63]),
        };
        let room = if random.one_in(12) { random.below(70) } else { 32 };
        let message = random.octets(len);
        comparison.case("drawn", Function::Hash, &message, room);
    }
}

fn long(comparison: &mut Comparison) {
    let around = [65_463, 65_464, 65_471, 65_472, 65_527, 65_528, 65_534, 65_535, 65_536, 65_537];
    for len in around.into_iter().chain([65_591, 65_592, 70_000, 131_071, 131_072, 131_127]) {
        for room in [0, 31, 32, 32, 32, 32, 33, 64] {
            for _ in 0..3 {
                let message = comparison.random.octets(len);
                comparison.case("long", Function::Hash, &message, room);
            }
        }
    }
}

/// Each bit of a node record's worth of octets turned over.
fn one_bit_apart(comparison: &mut Comparison) {
    let record = comparison.random.octets(85);
    for bit in 0..8 * record.len() {
        let mut message = record.clone();
        message[bit / 8] ^= 1 << (bit % 8);
        comparison.case("one bit apart", Function::Hash, &message, 32);
    }
}
