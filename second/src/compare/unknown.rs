//! Profiles that there are not: 17 at 0 before every other refusal, and nothing is written.

use super::comparison::{Comparison, Expected};
use super::contradictions::{some, Pair};
use super::face::Function;
use super::key_lists::keys;
use second::answer::UNKNOWN_PROFILE;
use second::profile::SHORT;

/// Next to the known ones, those that counting in 8, 16 or 31 bits would take for one, and ends.
const NUMBERS: [u32; 12] =
    [2, 3, 255, 256, 257, 65_535, 65_536, 65_537, 16_777_217, 0x8000_0000, 0x8000_0001, 0xffff_ffff];

pub fn run(comparison: &mut Comparison) {
    for profile in NUMBERS {
        digests(comparison, profile);
        attestations(comparison, profile);
    }
    // They contradict each other under the drill's profile, so that only the number is at fault.
    let pairs = some(SHORT, &mut comparison.random);
    let contradict = |pair: &&Pair| pair.verdicts[0] != pair.verdicts[1];
    for (pair, profile) in pairs.iter().filter(contradict).zip(NUMBERS.iter().cycle()) {
        shown(comparison, *profile, pair);
    }
}

fn refused(comparison: &mut Comparison, function: Function, inputs: &[&[u8]], rooms: &[usize]) {
    let expected = Expected::Refused(UNKNOWN_PROFILE, 0);
    comparison.example("an unknown profile", function, inputs, rooms, &expected);
}

/// A sound list, then one for each refusal of a list.
fn lists(comparison: &mut Comparison) -> [Vec<u8>; 5] {
    let mut sound = keys(&mut comparison.random, 5);
    let (too_many, list) = (keys(&mut comparison.random, 3_001).concat(), sound.concat());
    sound.reverse();
    [list.clone(), Vec::new(), list[..99].to_vec(), too_many, sound.concat()]
}

fn digests(comparison: &mut Comparison, profile: u32) {
    for list in lists(comparison) {
        for room in [32, 0, 31, 33] {
            refused(comparison, Function::Digest(profile), &[&list], &[room]);
        }
    }
}

fn attestations(comparison: &mut Comparison, profile: u32) {
    for list in lists(comparison) {
        let listed = list.get(..20).unwrap_or(&[7; 20]).repeat(2);
        for x_len in [20, 0, 19, 21] {
            for room in [586, 0, 23] {
                refused(comparison, Function::Attest(profile), &[&listed[..x_len], &list], &[room]);
            }
        }
    }
}

/// A pair as it is, with each size another, and with each attestation another.
fn shown(comparison: &mut Comparison, profile: u32, pair: &Pair) {
    let [first, second] = [0, 1].map(|at| pair.attestations[at].octets());
    let (x, d) = (pair.x.repeat(2), pair.d.repeat(2));
    for [x_len, d_len] in [[20, 32], [0, 32], [19, 32], [21, 32], [20, 0], [20, 31], [20, 33]] {
        let (x, d) = (&x[..x_len], &d[..d_len]);
        for octets in [&first[..], &second, &second[..second.len() - 1], &[]] {
            refused(comparison, Function::Verify(profile), &[x, d, octets], &[]);
            for rooms in [[85, 85], [84, 85], [85, 86], [0, 0]] {
                refused(comparison, Function::Extract(profile), &[x, d, &first, octets], &rooms);
            }
        }
    }
}
