//! Named examples of extracting with their answers written down by hand: document 01's
//! order of refusals on list F's attestations, and what docs/DECISIONS.md settles.

use super::attestations::{of_1_1, of_2_7, of_3_4};
use super::comparison::{octets_of_hex, Comparison, Expected};
use super::examples::DIGEST_F;
use super::face::Function;
use super::readings::key;
use second::profile::FULL;
use Expected::Refused;

/// Name, code, first and second attestation, number and place.
type Example = (&'static str, &'static str, Vec<u8>, Vec<u8>, (u16, u32));

pub fn run(comparison: &mut Comparison) {
    let d = octets_of_hex(DIGEST_F);
    for example in one_refused().into_iter().chain(none_or_both_refused()) {
        let (name, x, first, second, (number, place)) = example;
        let inputs: [&[u8]; 4] = [&key(x), &d, &first, &second];
        comparison.example(name, Function::Extract(FULL), &inputs, &[85, 85], &Refused(number, place));
    }
    let inputs: [&[u8]; 4] = [&key("3-4"), &[7; 32], &of_3_4(), &of_3_4()];
    comparison.example("a digest of no list", Function::Extract(FULL), &inputs, &[85, 85], &Refused(10, 1));
    sizes(comparison, &d);
}

fn one_refused() -> Vec<Example> {
    vec![
        ("first empty", "3-4", vec![], of_3_4(), (7, 1)),
        ("second empty", "3-4", of_3_4(), vec![], (7, 2)),
        ("first ended early, at 97", "1-1", of_1_1()[..97].to_vec(), of_1_1(), (7, 1)),
        ("second with an octet more, at 98", "1-1", of_1_1(), [of_1_1(), vec![0]].concat(), (7, 2)),
        ("first with a left child", "3-39", of_3_4(), of_2_7(), (8, 1)),
        ("second with a left child", "3-39", of_2_7(), of_3_4(), (8, 2)),
        ("x is the first's k1", "2-7", of_1_1(), of_2_7(), (9, 1)),
        ("x is the second's k1", "2-7", of_2_7(), of_1_1(), (9, 2)),
        ("x is the first's k2", "3-4", of_1_1(), of_3_4(), (9, 1)),
        ("x is the second's k2", "3-4", of_3_4(), of_1_1(), (9, 2)),
        ("a 10 has place 1", "2-8", of_1_1(), of_2_7(), (10, 1)),
        ("a 10 has place 2", "2-8", of_2_7(), of_1_1(), (10, 2)),
    ]
}

fn none_or_both_refused() -> Vec<Example> {
    vec![
        ("both Present", "3-4", of_3_4(), of_3_4(), (11, 0)),
        ("both Present, deeper", "1-1", of_1_1(), of_1_1(), (11, 0)),
        ("both Absent", "3-39", of_2_7(), of_2_7(), (11, 0)),
        ("both Absent, the first key", "1", of_1_1(), of_1_1(), (11, 0)),
        ("both empty", "3-4", vec![], vec![], (7, 1)),
        ("7 and 9", "3-4", vec![], of_1_1(), (7, 1)),
        ("9 and 7", "3-4", of_1_1(), vec![], (9, 1)),
        ("8 and 10", "3-39", of_3_4(), of_1_1(), (8, 1)),
        ("10 and 8", "3-39", of_1_1(), of_3_4(), (10, 1)),
        ("9 at 2 and 9 at 1", "3-4", of_1_1(), of_2_7(), (9, 1)),
        ("9 at 1 and 9 at 2", "3-4", of_2_7(), of_1_1(), (9, 1)),
        ("10 and 10", "A-2", of_1_1(), of_1_1(), (10, 1)),
    ]
}

/// Of x, of d, and of both buffers.
const SIZES: [[usize; 4]; 12] = [
    [0, 32, 85, 85],
    [19, 32, 85, 85],
    [21, 32, 85, 85],
    [20, 0, 85, 85],
    [20, 31, 85, 85],
    [20, 33, 85, 85],
    [20, 32, 0, 85],
    [20, 32, 84, 85],
    [20, 32, 86, 85],
    [20, 32, 85, 0],
    [20, 32, 85, 84],
    [20, 32, 85, 86],
];

/// All four sizes before either attestation.
fn sizes(comparison: &mut Comparison, d: &[u8]) {
    let (x, d) = (key("3-4").repeat(2), d.repeat(2));
    for [x_len, d_len, first_room, second_room] in SIZES {
        for (first, second) in
            [(of_3_4(), of_3_4()), (vec![], vec![]), (of_3_4(), vec![]), (of_1_1(), of_3_4())]
        {
            let inputs: [&[u8]; 4] = [&x[..x_len], &d[..d_len], &first, &second];
            let rooms = [first_room, second_room];
            comparison.example("1 first", Function::Extract(FULL), &inputs, &rooms, &Refused(1, 0));
        }
    }
}
