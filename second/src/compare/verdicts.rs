//! Named examples of verdicts with their answers written down by hand: document 01's, and
//! the open points of it that docs/DECISIONS.md settles. Digests here were worked out with other tools.

use super::attestations::{of_1_1, of_2_7, of_3_4, there, LABEL_1_1};
use super::comparison::{octets_of_hex, Comparison, Expected};
use super::examples::{DIGEST_3_4, DIGEST_F};
use super::face::{Function, ABSENT, PRESENT};
use super::readings::{key, keys};
use second::profile::FULL;
use Expected::{Accepted, Refused};

pub fn run(comparison: &mut Comparison) {
    on_list_f(comparison);
    forms(comparison);
    orders(comparison);
    zeros(comparison);
    levels_32(comparison);
    too_long(comparison);
}

fn judge(comparison: &mut Comparison, name: &str, x: &[u8], d: &[u8], octets: &[u8], expected: Expected) {
    comparison.example(name, Function::Verify(FULL), &[x, d, octets], &[], &expected);
}

fn present() -> Expected {
    Accepted(PRESENT, Vec::new())
}

fn absent() -> Expected {
    Accepted(ABSENT, Vec::new())
}

fn on_list_f(comparison: &mut Comparison) {
    let d = octets_of_hex(DIGEST_F);
    let examples: Vec<(&str, &str, Vec<u8>, Expected)> = vec![
        ("3-4 is present", "3-4", of_3_4(), present()),
        ("1-1 is present", "1-1", of_1_1(), present()),
        ("2-7 is present", "2-7", of_2_7(), present()),
        ("3-39 is absent", "3-39", of_2_7(), absent()),
        ("2-8 is absent", "2-8", of_2_7(), absent()),
        ("1 is absent", "1", of_1_1(), absent()),
        ("1-2 is absent", "1-2", of_1_1(), absent()),
        ("a left child, x below", "3-39", of_3_4(), Refused(8, 0)),
        ("a right child, x above", "3-40", of_3_4(), Refused(8, 0)),
        ("1-1 hidden under 2-7", "1-1", of_2_7(), Refused(8, 0)),
        ("x is k1", "2-7", of_1_1(), Refused(9, 1)),
        ("x is k2", "3-4", of_1_1(), Refused(9, 2)),
        ("x is k1, above 2-7", "3-4", of_2_7(), Refused(9, 1)),
        ("another side of k1", "2-8", of_1_1(), Refused(10, 0)),
        ("another side of k2", "A-2", of_1_1(), Refused(10, 0)),
        ("another side of 3-4", "A-3", of_2_7(), Refused(10, 0)),
    ];
    for (name, x, octets, expected) in examples {
        judge(comparison, name, &key(x), &d, &octets, expected);
    }
    judge(comparison, "another digest", &key("3-4"), &[7; 32], &of_3_4(), Refused(10, 0));
    judge(comparison, "8 before 10", &key("3-39"), &[7; 32], &of_3_4(), Refused(8, 0));
    judge(comparison, "9 before 10", &key("2-7"), &[7; 32], &of_1_1(), Refused(9, 1));
}

/// Where the form breaks.
fn forms(comparison: &mut Comparison) {
    let k_33 = [vec![33], vec![0; 660], vec![0, 0, 32], vec![0; 32]].concat();
    let examples: Vec<(&str, Vec<u8>, u32)> = vec![
        ("an empty attestation", vec![], 0),
        ("K = 0", vec![0], 0),
        ("K = 33", k_33, 0),
        ("K = 33 alone", vec![33], 0),
        ("a lone octet 01", vec![1], 1),
        ("a lone octet 20", vec![32], 1),
        ("one octet of the key missing", of_3_4()[..20].to_vec(), 20),
        ("foot, left, missing", of_3_4()[..21].to_vec(), 21),
        ("foot, left, 2", with(of_3_4(), 21, 2), 21),
        ("foot, left, its label cut", of_3_4()[..53].to_vec(), 53),
        ("foot, right, missing", of_3_4()[..54].to_vec(), 54),
        ("foot, right, 255", with(of_3_4(), 54, 255), 54),
        ("siblings' count missing", of_3_4()[..87].to_vec(), 87),
        ("siblings' count 1, not 0", with(of_3_4(), 87, 1), 87),
        ("siblings' count 255, not 0", with(of_3_4(), 87, 255), 87),
        ("an octet follows", [of_3_4(), vec![0]].concat(), 88),
        ("siblings' count 1, not 2", with(of_1_1(), 63, 1), 63),
        ("siblings' count 3, not 2", with(of_1_1(), 63, 3), 63),
        ("first sibling 2", with(of_1_1(), 64, 2), 64),
        ("second sibling 2", with(of_1_1(), 65, 2), 65),
        ("second sibling missing", of_1_1()[..65].to_vec(), 65),
        ("second sibling's label cut", of_1_1()[..97].to_vec(), 97),
    ];
    for (name, octets, place) in examples {
        judge(comparison, name, &key("3-4"), &octets_of_hex(DIGEST_F), &octets, Refused(7, place));
    }
}

fn with(mut octets: Vec<u8>, at: usize, octet: u8) -> Vec<u8> {
    octets[at] = octet;
    octets
}

/// The order of the refusals, for x = 3-4 and a digest of no list.
fn orders(comparison: &mut Comparison) {
    let (x, d) = (key("3-4"), [7; 32]);
    let no_labels = |codes: &[&str]| {
        let (count, siblings) = (codes.len() as u8, codes.len() - 1);
        [vec![count], keys(codes), vec![0, 0], vec![siblings as u8], vec![0; siblings]].concat()
    };
    let eight = [vec![2], keys(&["3-5", "3-5"]), there(LABEL_1_1), vec![0, 1, 0]].concat();
    let examples: Vec<(&str, Vec<u8>, Expected)> = vec![
        ("7 before 8", [&eight[..], &[0]].concat(), Refused(7, 77)),
        ("8 before 9", eight.clone(), Refused(8, 0)),
        ("9 at equal neighbours", no_labels(&["1", "1"]), Refused(9, 1)),
        ("9 at x, then neighbours", no_labels(&["1", "2", "3-4", "3-4"]), Refused(9, 2)),
        ("9 at neighbours, then x", no_labels(&["1", "2", "2", "3-4"]), Refused(9, 2)),
        ("9 at x, later neighbours", no_labels(&["1", "3-4", "2", "2"]), Refused(9, 1)),
        ("9 at both", no_labels(&["3-4", "3-4"]), Refused(9, 1)),
        ("10 for two alike, not neighbours", no_labels(&["1", "2", "1"]), Refused(10, 0)),
    ];
    for (name, octets, expected) in examples {
        judge(comparison, name, &x, &d, &octets, expected);
    }
    for (x_len, d_len) in [(0, 32), (19, 32), (21, 32), (20, 0), (20, 31), (20, 33)] {
        for octets in [vec![], eight.clone(), of_3_4()] {
            judge(comparison, "1 first", &x.repeat(2)[..x_len], &vec![7; d_len], &octets, Refused(1, 0));
        }
    }
}

/// Readings 13: a label of 32 zeros is hashed as it stands, and is no absent one.
fn zeros(comparison: &mut Comparison) {
    let x = key("3-4");
    let (without, with) = (octets_of_hex(DIGEST_3_4), octets_of_hex(DIGEST_ZEROS_3_4));
    let bare = [vec![1], x.clone(), vec![0, 0, 0]].concat();
    let zeros = [vec![1], x.clone(), vec![1], vec![0; 32], vec![0, 0]].concat();
    judge(comparison, "no label", &x, &without, &bare, present());
    judge(comparison, "no label, d of zeros'", &x, &with, &bare, Refused(10, 0));
    judge(comparison, "a label of zeros", &x, &with, &zeros, present());
    judge(comparison, "a label of zeros, d of none", &x, &without, &zeros, Refused(10, 0));
    judge(comparison, "a label of zeros is a child", &key("3-39"), &with, &zeros, Refused(8, 0));
    judge(comparison, "a label of zeros, x above", &key("3-40"), &with, &zeros, absent());
}

/// K = 32: keys of octet 20 to 3f, the foot's labels of 7e and 7f, siblings' of 81 to 9f.
fn of_32(left: bool, right: bool) -> Vec<u8> {
    let keys: Vec<u8> = (0x20..0x40).flat_map(|octet| [octet; 20]).collect();
    let optional =
        |is_there: bool, octet: u8| if is_there { [&[1], &[octet; 32][..]].concat() } else { vec![0] };
    let siblings: Vec<u8> = (0x81..0xa0).flat_map(|octet| optional(true, octet)).collect();
    [vec![32], keys, optional(left, 0x7e), optional(right, 0x7f), vec![31], siblings].concat()
}

fn levels_32(comparison: &mut Comparison) {
    let amid = [&[0x2f; 19][..], &[0x30]].concat();
    let (all, below, above) = (of_32(true, true), of_32(false, true), of_32(true, false));
    if [all.len(), below.len(), above.len()] != [1_731, 1_699, 1_699] {
        comparison.fail("32 levels are not 1,731 octets");
    }
    let digests = [PRESENT_32, BELOW_32, ABOVE_32, AMID_32].map(octets_of_hex);
    judge(comparison, "32 levels, present", &[0x20; 20], &digests[0], &all, present());
    judge(comparison, "32 levels, x below all", &[0x00; 20], &digests[1], &below, absent());
    judge(comparison, "32 levels, x above all", &[0xff; 20], &digests[2], &above, absent());
    judge(comparison, "32 levels, x amid", &amid, &digests[3], &above, absent());
    judge(comparison, "32 levels, x below, a left child", &[0x00; 20], &digests[1], &all, Refused(8, 0));
    judge(comparison, "32 levels, x the root", &[0x3f; 20], &digests[2], &above, Refused(9, 31));
    judge(comparison, "32 levels, another side", &amid, &digests[2], &above, Refused(10, 0));
}

/// Readings 10: never 1.
fn too_long(comparison: &mut Comparison) {
    let (x, d) = ([0x20; 20], octets_of_hex(PRESENT_32));
    for more in [1, 32, 65_536 - 1_731, 65_536, 1 << 20] {
        let long = [of_32(true, true), vec![0; more]].concat();
        judge(comparison, "1,731 and more", &x, &d, &long, Refused(7, 1_731));
    }
    judge(comparison, "65,536 zeros", &x, &d, &vec![0; 65_536], Refused(7, 0));
}

const DIGEST_ZEROS_3_4: &str = "e70d45a80c5e66a0334e792019ca862fbbee690bbcf9389002e6e31e346b1c40";
const PRESENT_32: &str = "205577937336aff8ffd6a5ad64bb08dd93e7eb5cd071a2dd35658af327dc6790";
const BELOW_32: &str = "877f6605a4bf414a9a1d1d0badee509b79cc7ac07284ba0298640d44f8effa4c";
const ABOVE_32: &str = "1f2512cc26c96d271b2961f297750c627525d883ee17751e68aec9215640027e";
const AMID_32: &str = "8b5d4eda3eb8ba3ecf792b0e9c3d3c10d36396b089793cafbcf02d124fc96f46";
