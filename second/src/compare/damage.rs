//! The ways in which a sound text is damaged: its parts, or its octets as they stand.

use super::codes::{code, no_code, Style};
use super::random::Random;
use super::sheet::Sheet;

pub type PartDamage = (&'static str, fn(&mut Sheet, &mut Random));

pub type OctetDamage = (&'static str, fn(&mut Vec<u8>, &mut Random));

/// A sheet handed to one of these has at least one code.
pub const PARTS: [PartDamage; 26] = [
    ("first line another", |sheet, random| sheet.first = random.pick(&FIRST_LINES).to_vec()),
    ("second line another", |sheet, random| sheet.second = random.pick(&SECOND_LINES).to_vec()),
    ("count with leading zeros", |sheet, random| {
        let zeros = random.between(1, 5);
        sheet.second.splice(0..0, vec![b'0'; zeros]);
    }),
    ("count with something beside it", |sheet, random| {
        let at = random.below(sheet.second.len() + 1);
        sheet.second.insert(at, random.pick(b" \r\t-+/:A\0\xb5"));
    }),
    ("count of 0", |sheet, _| sheet.second = b"0".to_vec()),
    ("count one too high", |sheet, _| set_count(sheet, sheet.codes.len() + 1)),
    ("count one too low", |sheet, _| set_count(sheet, sheet.codes.len() - 1)),
    ("count too high", |sheet, random| set_count(sheet, sheet.codes.len() + random.between(1, 3_000))),
    ("count too low", |sheet, random| set_count(sheet, random.below(sheet.codes.len()))),
    ("count over 3,000", |sheet, random| set_count(sheet, random.between(3_001, 99_999))),
    ("count of six digits or more", |sheet, random| {
        set_count(sheet, random.between(100_000, 9_999_999_999));
    }),
    ("count that wraps round to the true one", |sheet, random| {
        set_count(sheet, sheet.codes.len() + (1 << random.pick(&[8, 16, 32])));
    }),
    ("a line no code", |sheet, random| {
        let at = random.position(sheet.codes.len());
        sheet.codes[at] = no_code(random, &sheet.codes[at]);
    }),
    ("two lines no codes", |sheet, random| {
        for _ in 0..2 {
            let at = random.below(sheet.codes.len());
            sheet.codes[at] = no_code(random, b"3-4");
        }
    }),
    ("a line equal to the one before", |sheet, random| {
        let at = random.position(sheet.codes.len());
        sheet.codes[at] = sheet.codes[at.saturating_sub(1)].clone();
    }),
    ("a line twice, the count raised", |sheet, random| {
        let at = random.position(sheet.codes.len());
        sheet.codes.insert(at, sheet.codes[at].clone());
        set_count(sheet, sheet.codes.len());
    }),
    ("neighbours swapped", |sheet, random| {
        if sheet.codes.len() > 1 {
            let at = random.position(sheet.codes.len() - 1);
            sheet.codes.swap(at, at + 1);
        }
    }),
    ("two lines swapped", |sheet, random| {
        let (one, other) = (random.below(sheet.codes.len()), random.below(sheet.codes.len()));
        sheet.codes.swap(one, other);
    }),
    ("a line moved", |sheet, random| {
        let at = random.below(sheet.codes.len());
        let moved = sheet.codes.remove(at);
        sheet.codes.insert(random.below(sheet.codes.len() + 1), moved);
    }),
    ("descending", |sheet, _| sheet.codes.reverse()),
    ("in the order of numbers", |sheet, _| sheet.codes.sort_by_key(|code| (code.len(), code.clone()))),
    ("a line another code", |sheet, random| {
        let at = random.position(sheet.codes.len());
        sheet.codes[at] = code(random, Style::Any);
    }),
    ("a line cut or made longer", |sheet, random| {
        let at = random.position(sheet.codes.len());
        let len = random.below(sheet.codes[at].len() + 4);
        sheet.codes[at].resize(len, b'0');
    }),
    ("a line left out", |sheet, random| {
        let at = random.position(sheet.codes.len());
        sheet.codes.remove(at);
    }),
    ("a line left out, the count lowered", |sheet, random| {
        let at = random.position(sheet.codes.len());
        sheet.codes.remove(at);
        set_count(sheet, sheet.codes.len());
    }),
    ("octets after the last LF", |sheet, random| sheet.after = random.pick(&AFTER).to_vec()),
];

/// A text handed to one of these is not empty.
pub const OCTETS: [OctetDamage; 10] = [
    ("cut", |text, random| text.truncate(random.below(text.len()))),
    ("the last LF missing", |text, _| text.truncate(text.len() - 1)),
    ("a CR before each LF", |text, _| replace_lf(text, b"\r\n")),
    ("a CR for each LF", |text, _| replace_lf(text, b"\r")),
    ("each LF twice", |text, _| replace_lf(text, b"\n\n")),
    ("one LF missing", |text, random| {
        let places: Vec<usize> = (0..text.len()).filter(|at| text[*at] == b'\n').collect();
        if !places.is_empty() {
            text.remove(places[random.position(places.len())]);
        }
    }),
    ("an octet changed", |text, random| {
        let at = random.below(text.len());
        text[at] = any_octet(random);
    }),
    ("an octet put in", |text, random| {
        let at = random.below(text.len() + 1);
        text.insert(at, any_octet(random));
    }),
    ("an octet taken out", |text, random| {
        text.remove(random.below(text.len()));
    }),
    ("all lower case", |text, _| text.make_ascii_lowercase()),
];

fn set_count(sheet: &mut Sheet, count: usize) {
    sheet.second = count.to_string().into_bytes();
}

fn replace_lf(text: &mut Vec<u8>, with: &[u8]) {
    *text = text.split(|octet| *octet == b'\n').collect::<Vec<_>>().join(with);
}

/// Half of the time an octet that a text may hold.
fn any_octet(random: &mut Random) -> u8 {
    if random.one_in(2) {
        return random.octet();
    }
    random.pick(b"\n\r-0139AZa ")
}

const FIRST_LINES: [&[u8]; 18] = [
    b"",
    b"c",
    b"code",
    b"odes",
    b"codez",
    b"Codes",
    b"CODES",
    b"codes ",
    b" codes",
    b"codes\r",
    b"codes\0",
    b"codess",
    b"codes2",
    b"codes:",
    b"\xef\xbb\xbfcodes",
    b"dodes",
    b"co\ndes",
    b"codes\ncodes",
];

const SECOND_LINES: [&[u8]; 27] = [
    b"",
    b"0",
    b"00",
    b"000",
    b"00000",
    b"000000",
    b"01",
    b"03000",
    b"000005",
    b"3000",
    b"3001",
    b"99999",
    b"100000",
    b"65536",
    b"65537",
    b"4294967297",
    b"18446744073709551617",
    b"+1",
    b"-1",
    b"1.",
    b"1,000",
    b"0x1",
    b"/",
    b":",
    b"codes",
    b"\xd9\xa3",
    b"1\n",
];

const AFTER: [&[u8]; 12] = [
    b"\n",
    b"\r",
    b"\r\n",
    b"\n\n",
    b"\0",
    b" ",
    b"0",
    b"ZZZZ",
    b"ZZZZ\n",
    b"ZZZZ\nZZZZZ\n",
    b"-",
    b"codes\n1\n1-1\n",
];
