//! Named examples of issuing with their answers written down by hand: document 01's, and
//! the open points of it that docs/DECISIONS.md settles. Labels here were worked out with other tools.

use super::comparison::{octets_of_hex, Comparison, Expected};
use super::face::Function;
use super::readings::{key, keys, LIST_F};
use second::profile::FULL;
use Expected::{Accepted, Refused};

pub fn there(label: &str) -> Vec<u8> {
    [&[1], &octets_of_hex(label)[..]].concat()
}

/// Of 3-4, whose foot is the root.
pub fn of_3_4() -> Vec<u8> {
    [vec![1], key("3-4"), there(LABEL_2_7), there(LABEL_A_2), vec![0]].concat()
}

/// Of 1-1, and of the absent code 1.
pub fn of_1_1() -> Vec<u8> {
    [vec![3], keys(&["1-1", "2-7", "3-4"]), vec![0, 0], vec![2, 0], there(LABEL_A_2)].concat()
}

/// Of 2-7, and of the absent 3-39.
pub fn of_2_7() -> Vec<u8> {
    [vec![2], keys(&["2-7", "3-4"]), there(LABEL_1_1), vec![0], vec![1], there(LABEL_A_2)].concat()
}

/// Name, key, key list, buffer, answer.
type Example<'a> = (&'a str, Vec<u8>, &'a [u8], usize, Expected);

pub fn run(comparison: &mut Comparison) {
    let f = keys(&LIST_F);
    let not_above = keys(&["1-1", "3-4", "2-7"]);
    let too_many: Vec<u8> = (0..3_001_u32).flat_map(|n| [&[0; 16][..], &n.to_be_bytes()].concat()).collect();
    let examples: Vec<Example> = vec![
        ("3-4 gives 88", key("3-4"), &f, 88, Accepted(88, of_3_4())),
        ("1-1 gives 98", key("1-1"), &f, 98, Accepted(98, of_1_1())),
        ("absent 3-39 gives 109, foot 2-7", key("3-39"), &f, 109, Accepted(109, of_2_7())),
        ("absent code 1 gives 98, foot 1-1", key("1"), &f, 98, Accepted(98, of_1_1())),
        ("buffer 87 for 3-4", key("3-4"), &f, 87, Refused(6, 0)),
        ("buffer 97 for 1-1", key("1-1"), &f, 97, Refused(6, 0)),
        ("a longer buffer for 3-4", key("3-4"), &f, 600, Accepted(88, of_3_4())),
        ("2-7 itself", key("2-7"), &f, 586, Accepted(109, of_2_7())),
        ("below the least", vec![0; 20], &f, 586, Accepted(98, of_1_1())),
        ("key of 19, no keys", vec![0; 19], &[], 0, Refused(1, 0)),
        ("key of 21, no keys", vec![0; 21], &[], 0, Refused(1, 0)),
        ("no key, list F", vec![], &f, 586, Refused(1, 0)),
        ("no keys", key("3-4"), &[], 0, Refused(2, 0)),
        ("19 octets", key("3-4"), &f[..19], 0, Refused(3, 0)),
        ("3 before 4", key("3-4"), &too_many[..60_019], 0, Refused(3, 0)),
        ("4 before 6", key("3-4"), &too_many, 0, Refused(4, 0)),
        ("5 before 6", key("3-4"), &not_above, 0, Refused(5, 2)),
        ("6 last", key("3-4"), &f, 0, Refused(6, 0)),
    ];
    for (name, x, list, room, expected) in examples {
        comparison.example(name, Function::Attest(FULL), &[&x, list], &[room], &expected);
    }
}

pub const LABEL_1_1: &str = "55790570fa8ec8d9ae885309356ecd06da27149cea5aa3f1db3ea53d8990beb0";
const LABEL_2_7: &str = "1555dd283525210ac172faa4e395ebe9d3d7caa3000e36bdd5f465a5fb6e950c";
const LABEL_A_2: &str = "f60de7865451d81f21b000dad9f104b2eb75dbbeefbe009dd93315a617d87261";
