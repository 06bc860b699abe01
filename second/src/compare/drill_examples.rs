//! Named examples of the drill with their answers written down by hand. The numbers here were
//! worked out with other tools.

use super::comparison::{hex, Comparison, Expected};
use super::face::{Function, NONE};
use super::readings::key;
use Expected::{Accepted, Refused};

/// Codes, and the number that a drill for each finds: the least there are, those at an octet's
/// and two octets' end, and some between.
pub const FOUND: [(&str, u32); 11] = [
    ("3-18", 0),
    ("64-739", 1),
    ("5-660", 2),
    ("45-165", 5),
    ("41-908", 255),
    ("49-121", 256),
    ("0", 6_479),
    ("3-4", 16_401),
    ("ZZZZZZZZZZZZZZZZZZZZ", 13_885),
    ("12345678901234567890", 40_686),
    ("3-204", 65_536),
];

/// A code whose number is the greatest that any drill finds.
pub const LONGEST: (&str, u32) = ("54-908", 696_108);

pub fn run(comparison: &mut Comparison) {
    for (code, number) in FOUND {
        found(comparison, code, number);
    }
    for (name, text, number, place) in REFUSED {
        drill(comparison, name, text, 1_048_576, [85, 85], Refused(number, place));
    }
    sizes(comparison);
}

fn drill(
    comparison: &mut Comparison,
    name: &str,
    text: &str,
    bound: u32,
    rooms: [usize; 2],
    expected: Expected,
) {
    comparison.example(name, Function::Drill(bound), &[text.as_bytes()], &rooms, &expected);
}

/// The bound is how many are tried: the number itself is one too few.
fn found(comparison: &mut Comparison, code: &str, number: u32) {
    let text = format!("codes\n1\n{code}\n");
    let written = records(code, number).concat();
    for bound in [0, number] {
        drill(comparison, code, &text, bound, [85, 85], Accepted(NONE, Vec::new()));
    }
    for bound in [number + 1, 1_048_576] {
        drill(comparison, code, &text, bound, [85, 85], Accepted(u64::from(number), written.clone()));
    }
}

/// The first holds the listed key, the second the number; neither node has a child.
fn records(code: &str, number: u32) -> [Vec<u8>; 2] {
    let number = [&[0; 16], &number.to_be_bytes()[..]].concat();
    [key(code), number].map(|key| [vec![0; 33], key, vec![0; 32]].concat())
}

/// What the program prints for a code of these.
pub fn printed(code: &str, number: u32) -> String {
    records(code, number).map(|record| hex(&record) + "\n").concat()
}

/// Name, text, number, place.
pub const REFUSED: [(&str, &str, u16, u32); 18] = [
    ("two codes", "codes\n2\n1-1\n3-4\n", 16, 2),
    ("list F", "codes\n5\n1-1\n2-7\n3-4\n3-40\nA-2\n", 16, 2),
    ("nothing", "", 12, 1),
    ("first line", "Codes\n1\n3-4\n", 12, 1),
    ("second line", "codes\n01\n3-4\n", 12, 2),
    ("count 0", "codes\n0\n", 2, 2),
    ("count 3,001", "codes\n3001\n3-4\n", 4, 2),
    ("not a code", "codes\n1\n3--4\n", 13, 3),
    ("no LF", "codes\n1\n3-4", 14, 3),
    ("no line", "codes\n1\n", 14, 3),
    ("left over", "codes\n1\n3-4\n3-5\n", 14, 4),
    ("the count says two", "codes\n2\n3-4\n", 14, 4),
    ("the second of two not a code", "codes\n2\n1-1\n04-Mar\n", 13, 4),
    ("the second of two not above", "codes\n2\n3-4\n1-1\n", 5, 4),
    ("the second of two the same", "codes\n2\n3-4\n3-4\n", 5, 4),
    ("the second of two without LF", "codes\n2\n1-1\n3-4", 14, 4),
    ("two codes, left over", "codes\n2\n1-1\n3-4\n\n", 14, 5),
    ("the last of three not above", "codes\n3\n1-1\n3-4\n2-7\n", 5, 5),
];

/// The buffers before the list.
fn sizes(comparison: &mut Comparison) {
    let texts = ["codes\n1\n3-18\n", "codes\n2\n1-1\n3-4\n", "codes\n1\n3--4\n", "codes\n0\n", ""];
    for text in texts {
        for rooms in [[84, 85], [86, 85], [0, 85], [85, 84], [85, 86], [85, 0], [0, 0], [170, 0]] {
            drill(comparison, "a buffer not of 85", text, 1_048_576, rooms, Refused(1, 0));
        }
    }
}
