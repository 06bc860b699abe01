//! Named examples with their answers written down by hand: those of reading, and document
//! 01's limits of key lists and messages with what docs/DECISIONS.md settles. Digests and hashes
//! here were worked out with other tools.

use super::comparison::{octets_of_hex, Comparison, Expected};
use super::face::Function;
use super::readings::{key, keys, readings, Reading, LIST_F};
use super::{attestations, drill_examples, extractions, short_labels, verdicts};
use second::profile::FULL;
use Expected::{Accepted, Refused};

pub fn run(comparison: &mut Comparison) {
    for reading in readings() {
        let Reading { name, text, room, expected } = reading;
        comparison.example(name, Function::ReadList, &[&text], &[room], &expected);
    }
    key_lists(comparison);
    messages(comparison);
    attestations::run(comparison);
    verdicts::run(comparison);
    extractions::run(comparison);
    short_labels::run(comparison);
    drill_examples::run(comparison);
}

fn key_lists(comparison: &mut Comparison) {
    let f = keys(&LIST_F);
    let counter =
        |n: u32| (0..n).flat_map(|i| [&[0; 16][..], &i.to_be_bytes()].concat()).collect::<Vec<u8>>();
    let zeros_last = [&counter(3_000)[20..], &[0; 20]].concat();
    let examples: Vec<(&str, Vec<u8>, usize, Expected)> = vec![
        ("digest of 3-4", key("3-4"), 32, Accepted(1, octets_of_hex(DIGEST_3_4))),
        ("digest of 1-1, 2-7", f[..40].to_vec(), 32, Accepted(2, octets_of_hex(DIGEST_OF_2))),
        ("digest of 1-1, 2-7, 3-4", f[..60].to_vec(), 32, Accepted(3, octets_of_hex(DIGEST_OF_3))),
        ("digest of F", f.clone(), 32, Accepted(5, octets_of_hex(DIGEST_F))),
        ("digest of 0 to 2,999", counter(3_000), 32, Accepted(3_000, octets_of_hex(DIGEST_OF_3000))),
        ("3,001 keys give 4", counter(3_001), 32, Refused(4, 0)),
        ("4 before 5", [counter(3_000), key("")].concat(), 32, Refused(4, 0)),
        ("the last of 3,000 not above", zeros_last, 32, Refused(5, 2_999)),
        ("the second equal to the first", [key("3"), key("3")].concat(), 32, Refused(5, 1)),
        (
            "two faults, the first counts",
            [key("2"), key("3"), key("1"), key("1")].concat(),
            32,
            Refused(5, 2),
        ),
        ("7f before 80", [[0x7f; 20], [0x80; 20]].concat(), 32, Accepted(2, octets_of_hex(DIGEST_7F_80))),
        ("80 before 7f", [[0x80; 20], [0x7f; 20]].concat(), 32, Refused(5, 1)),
        ("the empty list", vec![], 32, Refused(2, 0)),
        ("1 octet", vec![7], 32, Refused(3, 0)),
        ("19 octets", vec![7; 19], 32, Refused(3, 0)),
        ("21 octets", vec![7; 21], 32, Refused(3, 0)),
        ("3 before 4", counter(3_001)[..60_001].to_vec(), 32, Refused(3, 0)),
        ("3 before 4, far over", counter(3_002)[..60_039].to_vec(), 32, Refused(3, 0)),
        ("output of 31", f.clone(), 31, Refused(1, 0)),
        ("output of 33", f.clone(), 33, Refused(1, 0)),
        ("output of 0, no keys", vec![], 0, Refused(1, 0)),
    ];
    for (name, octets, room, expected) in examples {
        comparison.example(name, Function::Digest(FULL), &[&octets], &[room], &expected);
    }
}

fn messages(comparison: &mut Comparison) {
    let two_blocks = b"abcdbcdecdefdefgefghfghighijhijkijkljklmklmnlmnomnopnopq".to_vec();
    let examples: Vec<(&str, Vec<u8>, usize, Expected)> = vec![
        ("abc", b"abc".to_vec(), 32, Accepted(3, octets_of_hex(HASH_ABC))),
        ("FIPS's two blocks", two_blocks, 32, Accepted(56, octets_of_hex(HASH_TWO_BLOCKS))),
        ("65,535 zeros", vec![0; 65_535], 32, Accepted(65_535, octets_of_hex(HASH_65535_ZEROS))),
        ("65,536 zeros", vec![0; 65_536], 32, Refused(1, 0)),
        ("abc, output of 31", b"abc".to_vec(), 31, Refused(1, 0)),
        ("abc, output of 33", b"abc".to_vec(), 33, Refused(1, 0)),
        ("nothing, output of 0", vec![], 0, Refused(1, 0)),
    ];
    for (name, message, room, expected) in examples {
        comparison.example(name, Function::Hash, &[&message], &[room], &expected);
    }
}

pub const DIGEST_3_4: &str = "492df7e0ae59067d10748545fa79e50c2e327507615415fa866a2c980499c9c0";
const DIGEST_OF_2: &str = "1555dd283525210ac172faa4e395ebe9d3d7caa3000e36bdd5f465a5fb6e950c";
const DIGEST_OF_3: &str = "f95bdcc5733e03427c35cf4165d29627a6275b7d6bb4f3f3f70aa4b869748830";
const DIGEST_7F_80: &str = "5e55be4b7747d504d75ee5702be4950f26f9a12fe663643b51af3feb61400ee8";
pub const DIGEST_F: &str = "19c2c39eb852e640afbb4be22ebf0993dc75abca5bf8fe3b0fe4127bce6a5c97";
const DIGEST_OF_3000: &str = "ab7f1e426fa491ea101cecdb99e1d83fccc8fc8505256d4d35972fb7ebc78724";
const HASH_ABC: &str = "ba7816bf8f01cfea414140de5dae2223b00361a396177a9cb410ff61f20015ad";
const HASH_TWO_BLOCKS: &str = "248d6a61d20638b8e5c026930c3e6039a33ce45964ff2167f6ecedd419db06c1";
const HASH_65535_ZEROS: &str = "9f797b60edaf440d5831da53c35f4d4847a2f55adc64cfe887a7bcfcd9eca495";
