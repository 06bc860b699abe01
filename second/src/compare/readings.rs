//! Named examples of reading with their answers written down by hand: document 01's, and
//! the open points of it on texts that docs/DECISIONS.md settles.

use super::comparison::Expected;
use Expected::{Accepted, Refused};

pub struct Reading {
    pub name: &'static str,
    pub text: Vec<u8>,
    pub room: usize,
    pub expected: Expected,
}

pub fn readings() -> Vec<Reading> {
    let limits = limits().into_iter().chain(lengths());
    let buffers = BUFFERS.iter().map(|(name, text, room, expected)| match expected {
        Some((number, place)) => reading(name, text, *room, Refused(*number, *place)),
        None => reading(name, text, *room, Accepted(1, key("3-4"))),
    });
    let refused = REFUSED
        .iter()
        .map(|(name, text, number, place)| reading(name, text, 60_000, Refused(*number, *place)));
    accepted().into_iter().chain(refused).chain(buffers).chain(limits).collect()
}

fn reading(name: &'static str, text: &str, room: usize, expected: Expected) -> Reading {
    Reading { name, text: text.as_bytes().to_vec(), room, expected }
}

fn accepted() -> Vec<Reading> {
    let mut three_four = vec![0x33, 0x2d, 0x34];
    three_four.resize(3 + 17, 0x00);
    let digits = "12345678901234567890";
    vec![
        reading("3-4 is 33 2D 34 and zeros", "codes\n1\n3-4\n", 20, Accepted(1, three_four)),
        reading("20 digits are a code", &format!("codes\n1\n{digits}\n"), 20, Accepted(1, digits.into())),
        reading(
            "20 digits, a longer buffer",
            &format!("codes\n1\n{digits}\n"),
            90,
            Accepted(1, digits.into()),
        ),
        reading("one character is a code", "codes\n1\nZ\n", 20, Accepted(1, key("Z"))),
        reading("two hyphens apart", "codes\n1\n2025-04-03\n", 20, Accepted(1, key("2025-04-03"))),
        reading("3-39 before 3-4", "codes\n2\n3-39\n3-4\n", 40, Accepted(2, keys(&["3-39", "3-4"]))),
        reading(
            "3 before 3-4 before 30",
            "codes\n3\n3\n3-4\n30\n",
            60,
            Accepted(3, keys(&["3", "3-4", "30"])),
        ),
        reading("list F", "codes\n5\n1-1\n2-7\n3-4\n3-40\nA-2\n", 100, Accepted(5, keys(&LIST_F))),
    ]
}

/// Name, text, number, place; the buffer is long enough for all of them.
const REFUSED: [(&str, &str, u16, u32); 51] = [
    ("3--4 is no code", "codes\n1\n3--4\n", 13, 3),
    ("-3 is no code", "codes\n1\n-3\n", 13, 3),
    ("3- is no code", "codes\n1\n3-\n", 13, 3),
    ("3/4 is no code", "codes\n1\n3/4\n", 13, 3),
    ("a hyphen is no code", "codes\n1\n-\n", 13, 3),
    ("21 characters are no code", "codes\n1\n123456789012345678901\n", 13, 3),
    ("lower case is no code", "codes\n2\n1-1\na-2\n", 13, 4),
    ("the program's example", "codes\n2\n1-1\n04-Mar\n", 13, 4),
    ("codes, 0", "codes\n0\n", 2, 2),
    ("codes, 0, and more", "codes\n0\n1-1\n", 2, 2),
    ("codes, 00", "codes\n00\n", 12, 2),
    ("3-4 before 3-39", "codes\n2\n3-4\n3-39\n", 5, 4),
    ("30 before 3", "codes\n2\n30\n3\n", 5, 4),
    ("equal codes", "codes\n3\n1-1\n2-7\n2-7\n", 5, 5),
    ("line 4 not above, line 5 no code", "codes\n3\n2-7\n1-1\n-\n", 5, 4),
    ("line 4 no code, line 5 not above", "codes\n3\n2-7\n-\n1-1\n", 13, 4),
    ("first line Codes", "Codes\n1\n1-1\n", 12, 1),
    ("first line codes and a space", "codes \n1\n1-1\n", 12, 1),
    ("first line codes2", "codes2\n1\n1-1\n", 12, 1),
    ("both head lines bad", "Codes\n00\n", 12, 1),
    ("empty text", "", 12, 1),
    ("codes with no LF", "codes", 12, 1),
    ("codes LF and nothing more", "codes\n", 12, 2),
    ("codes LF 5 with no LF", "codes\n5", 12, 2),
    ("the count's line empty", "codes\n\n1-1\n", 12, 2),
    ("100000", "codes\n100000\n", 12, 2),
    ("000005", "codes\n000005\n", 12, 2),
    ("03000", "codes\n03000\n", 12, 2),
    ("99999", "codes\n99999\n", 4, 2),
    ("3001", "codes\n3001\n", 4, 2),
    ("no LF", "codes\n1\n3-4", 14, 3),
    ("no LF and no code", "codes\n1\n3--4", 14, 3),
    ("no LF and not above", "codes\n2\n3-4\n1-1", 14, 4),
    ("no LF, second of three", "codes\n3\n3-4\n3-5", 14, 4),
    ("CR in a code line", "codes\n1\n3-4\r\n", 13, 3),
    ("CR within a code", "codes\n2\n1-1\n3\r4\n", 13, 4),
    ("CR in line 1", "codes\r\n1\n3-4\n", 12, 1),
    ("CR in line 2", "codes\n1\r\n3-4\n", 12, 2),
    ("CR in every line", "codes\r\n1\r\n3-4\r\n", 12, 1),
    ("an empty line", "codes\n2\n\n3-4\n", 13, 3),
    ("an empty line last", "codes\n2\n3-4\n\n", 13, 4),
    ("no line at all, the first", "codes\n1\n", 14, 3),
    ("no line at all, the third", "codes\n3\n1-1\n2-7\n", 14, 5),
    ("count 3,000 and one line", "codes\n3000\n1-1\n", 14, 4),
    ("one extra LF", "codes\n1\n3-4\n\n", 14, 4),
    ("one extra line", "codes\n2\n1-1\n2-7\n3-4\n", 14, 5),
    ("one extra octet", "codes\n2\n1-1\n2-7\n\0", 14, 5),
    ("left over, and a line no code", "codes\n2\n1-1\n2--7\n3-4\n", 13, 4),
    ("left over, and not above", "codes\n2\n2-7\n1-1\n3-4\n", 5, 4),
    ("left over not above the last", "codes\n2\n2-7\n3-4\n1-1\n", 14, 5),
    ("left over without LF", "codes\n2\n2-7\n3-4\n3-5", 14, 5),
];

/// Name, text, buffer, and number and place if refused; accepted here means the one key 3-4.
type Buffer = (&'static str, &'static str, usize, Option<(u16, u32)>);

const BUFFERS: [Buffer; 11] = [
    ("buffer exactly 20", "codes\n1\n3-4\n", 20, None),
    ("buffer of 19", "codes\n1\n3-4\n", 19, Some((6, 0))),
    ("buffer of 0", "codes\n1\n3-4\n", 0, Some((6, 0))),
    ("buffer of 21", "codes\n1\n3-4\n", 21, None),
    ("short, line 3 bad", "codes\n2\n3--4\n3-5\n", 39, Some((6, 0))),
    ("short, lines missing", "codes\n2\n", 39, Some((6, 0))),
    ("long enough, line 3 bad", "codes\n2\n3--4\n3-5\n", 40, Some((13, 3))),
    ("count 3,000, buffer 59,999", "codes\n3000\n", 59_999, Some((6, 0))),
    ("count 0 before a short buffer", "codes\n0\n", 0, Some((2, 2))),
    ("count over 3,000 before a short buffer", "codes\n3001\n", 0, Some((4, 2))),
    ("a bad head before a short buffer", "codes\n01\n", 0, Some((12, 2))),
];

/// 20001, 20002 and so on.
fn counted(how_many: usize) -> Vec<String> {
    (1..=how_many).map(|number| (20_000 + number).to_string()).collect()
}

fn limits() -> Vec<Reading> {
    let text = |codes: &[String]| format!("codes\n{}\n{}\n", codes.len(), codes.join("\n"));
    let (some, too_many) = (counted(3_000), counted(3_001));
    let written: Vec<u8> = some.iter().flat_map(|code| key(code)).collect();
    let mut last_equal = some.clone();
    last_equal[2_999] = last_equal[2_998].clone();
    let longest: Vec<String> = some.iter().map(|code| format!("{code}-AAAAAAAAAAAAAA")).collect();
    let longest_written = longest.concat().into_bytes();
    vec![
        reading("3,000 keys are accepted", &text(&some), 60_000, Accepted(3_000, written)),
        reading("3,001 keys give 4", &text(&too_many), 60_020, Refused(4, 2)),
        reading("3,000 keys, one octet short", &text(&some), 59_999, Refused(6, 0)),
        reading("3,000 keys, the last two equal", &text(&last_equal), 60_000, Refused(5, 3_002)),
        reading("3,000 keys, one LF more", &(text(&some) + "\n"), 60_000, Refused(14, 3_003)),
        reading("the longest text, 63,011 octets", &text(&longest), 60_000, Accepted(3_000, longest_written)),
    ]
}

/// Readings 6: over 65,535 octets is 1 before anything else.
fn lengths() -> Vec<Reading> {
    let filled = |start: &str, fill: &str, len: usize| start.to_string() + &fill.repeat(len - start.len());
    vec![
        reading("65,535 LFs", &filled("", "\n", 65_535), 60_000, Refused(12, 1)),
        reading("65,536 LFs", &filled("", "\n", 65_536), 60_000, Refused(1, 0)),
        reading("65,535, left over", &filled("codes\n1\n3-4\n", "\n", 65_535), 60_000, Refused(14, 4)),
        reading("65,536, left over", &filled("codes\n1\n3-4\n", "\n", 65_536), 60_000, Refused(1, 0)),
        reading("65,535, no LF", &filled("codes\n1\n", "3", 65_535), 60_000, Refused(14, 3)),
        reading("65,536, no buffer", &filled("codes\n1\n", "3", 65_536), 0, Refused(1, 0)),
        reading("131,072", &filled("codes\n1\n3-4\n", "3", 131_072), 60_000, Refused(1, 0)),
        reading("65,536 + 12 octets", &filled("codes\n1\n3-4\n", "\0", 65_548), 60_000, Refused(1, 0)),
    ]
}

/// A code's octets, then zeros up to 20.
pub fn key(code: &str) -> Vec<u8> {
    let mut key = code.as_bytes().to_vec();
    key.resize(20, 0);
    key
}

pub fn keys(codes: &[&str]) -> Vec<u8> {
    codes.iter().flat_map(|code| key(code)).collect()
}

pub const LIST_F: [&str; 5] = ["1-1", "2-7", "3-4", "3-40", "A-2"];
