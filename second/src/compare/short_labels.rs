//! Named examples under the drill's profile with their answers written down by hand. Labels here
//! were worked out with other tools.

use super::attestations::of_3_4;
use super::comparison::{octets_of_hex, Comparison, Expected};
use super::examples::DIGEST_F;
use super::face::{Function, ABSENT, PRESENT};
use super::readings::{key, keys, LIST_F};
use second::profile::{DRILL, FULL};
use Expected::{Accepted, Refused};

/// The first two octets of the labels of these parts of list F; and of F itself.
const LABEL_1_1: &str = "5579";
const LABEL_2_7: &str = "4a77";
const LABEL_A_2: &str = "0333";
const OF_F: &str = "b8aa";

/// Of the list of 3-4 alone, and of that of its number alone.
const OF_3_4: &str = "492d";

pub fn run(comparison: &mut Comparison) {
    digests(comparison);
    issued(comparison);
    judged(comparison);
    contradicting(comparison);
}

/// Two octets, then 30 zeros.
fn short(digits: &str) -> Vec<u8> {
    let mut label = octets_of_hex(digits);
    label.resize(32, 0);
    label
}

fn there(digits: &str) -> Vec<u8> {
    [vec![1], short(digits)].concat()
}

fn digests(comparison: &mut Comparison) {
    let f = keys(&LIST_F);
    let counter: Vec<u8> = (0..3_000_u32).flat_map(|n| [&[0; 16][..], &n.to_be_bytes()].concat()).collect();
    let ends = [[0x7f; 20], [0x80; 20]].concat();
    let examples: [(&str, &[u8], &str); 6] = [
        ("short digest of 3-4", &key("3-4"), OF_3_4),
        ("short digest of 1-1, 2-7", &f[..40], LABEL_2_7),
        ("short digest of 1-1, 2-7, 3-4", &f[..60], "b95c"),
        ("short digest of F", &f, OF_F),
        ("short digest of 0 to 2,999", &counter, "1f5a"),
        ("short digest of 7f, 80", &ends, "73d3"),
    ];
    for (name, list, digest) in examples {
        let expected = Accepted(list.len() as u64 / 20, short(digest));
        comparison.example(name, Function::Digest(DRILL), &[list], &[32], &expected);
    }
}

fn short_of_3_4() -> Vec<u8> {
    [vec![1], key("3-4"), there(LABEL_2_7), there(LABEL_A_2), vec![0]].concat()
}

fn short_of_1_1() -> Vec<u8> {
    [vec![3], keys(&["1-1", "2-7", "3-4"]), vec![0, 0], vec![2, 0], there(LABEL_A_2)].concat()
}

fn short_of_2_7() -> Vec<u8> {
    [vec![2], keys(&["2-7", "3-4"]), there(LABEL_1_1), vec![0], vec![1], there(LABEL_A_2)].concat()
}

fn issued(comparison: &mut Comparison) {
    let f = keys(&LIST_F);
    for (x, room, octets) in [
        ("3-4", 88, short_of_3_4()),
        ("1-1", 98, short_of_1_1()),
        ("1", 98, short_of_1_1()),
        ("2-7", 109, short_of_2_7()),
        ("3-39", 109, short_of_2_7()),
    ] {
        let expected = Accepted(room as u64, octets);
        comparison.example(x, Function::Attest(DRILL), &[&key(x), &f], &[room], &expected);
        comparison.example(x, Function::Attest(DRILL), &[&key(x), &f], &[room - 1], &Refused(6, 0));
    }
}

/// Name, profile, code, digest, attestation, answer.
type Judged = (&'static str, u32, &'static str, Vec<u8>, Vec<u8>, Expected);

fn judged(comparison: &mut Comparison) {
    let present = || Accepted(PRESENT, Vec::new());
    let absent = || Accepted(ABSENT, Vec::new());
    let full_d = octets_of_hex(DIGEST_F);
    let with_tail = [&short(OF_F)[..31], &[1]].concat();
    let alone = [vec![1], key("3-4"), vec![0; 3]].concat();
    let examples: Vec<Judged> = vec![
        ("3-4 is present", DRILL, "3-4", short(OF_F), short_of_3_4(), present()),
        ("1-1 is present", DRILL, "1-1", short(OF_F), short_of_1_1(), present()),
        ("3-39 is absent", DRILL, "3-39", short(OF_F), short_of_2_7(), absent()),
        ("1 is absent", DRILL, "1", short(OF_F), short_of_1_1(), absent()),
        ("d with a tail", DRILL, "3-4", with_tail, short_of_3_4(), Refused(10, 0)),
        ("the whole hash for d", DRILL, "3-4", full_d.clone(), short_of_3_4(), Refused(10, 0)),
        ("8 stays", DRILL, "3-39", short(OF_F), short_of_3_4(), Refused(8, 0)),
        ("9 stays", DRILL, "2-7", short(OF_F), short_of_1_1(), Refused(9, 1)),
        ("full under drill", DRILL, "3-4", full_d.clone(), of_3_4(), Refused(10, 0)),
        ("full labels as they stand", DRILL, "3-4", short(&DIGEST_F[..4]), of_3_4(), present()),
        ("full labels, d of short ones", DRILL, "3-4", short(OF_F), of_3_4(), Refused(10, 0)),
        ("drill under full", FULL, "3-4", short(OF_F), short_of_3_4(), Refused(10, 0)),
        ("drill under full, d full", FULL, "3-4", full_d, short_of_3_4(), Refused(10, 0)),
        ("no label, no difference", DRILL, "3-4", short(OF_3_4), alone.clone(), present()),
        ("no label, d of the other", FULL, "3-4", short(OF_3_4), alone, Refused(10, 0)),
    ];
    for (name, profile, x, d, octets, expected) in examples {
        comparison.example(name, Function::Verify(profile), &[&key(x), &d, &octets], &[], &expected);
    }
}

/// 3-4 alone and number 16,401 alone have one short label.
fn contradicting(comparison: &mut Comparison) {
    let x = [&[0; 18], &[0x40, 0x11][..]].concat();
    let [listed, tried] = [key("3-4"), x.clone()].map(|key| [vec![1], key, vec![0; 3]].concat());
    let [of_listed, of_tried] = [key("3-4"), x.clone()].map(|key| [vec![0; 33], key, vec![0; 32]].concat());
    let d = short(OF_3_4);
    let mut extract = |name, profile, first: &[u8], second: &[u8], expected| {
        let function = Function::Extract(profile);
        comparison.example(name, function, &[&x, &d, first, second], &[85, 85], &expected);
    };
    let first = [&of_listed[..], &of_tried].concat();
    let second = [&of_tried[..], &of_listed].concat();
    extract("Absent, Present", DRILL, &listed, &tried, Accepted(0, first));
    extract("Present, Absent", DRILL, &tried, &listed, Accepted(0, second));
    extract("both Absent", DRILL, &listed, &listed, Refused(11, 0));
    extract("both Present", DRILL, &tried, &tried, Refused(11, 0));
    extract("not under full", FULL, &listed, &tried, Refused(10, 1));
}
