//! Generated texts for read_list.

use super::comparison::Comparison;
use super::damage::{OCTETS, PARTS};
use super::face::Function;
use super::sheet::{stated_count, Sheet};

const SMALL: [usize; 5] = [1, 2, 3, 7, 8];
const LARGE: [usize; 3] = [2_999, 3_000, 3_001];

pub fn run(comparison: &mut Comparison) {
    sound(comparison);
    for round in 0..100 {
        for how_many in SMALL {
            each_damage(comparison, how_many);
        }
        let how_many = comparison.random.between(4, 40 + round);
        each_damage(comparison, how_many);
    }
    for how_many in LARGE.repeat(4) {
        each_damage(comparison, how_many);
    }
    several_damages(comparison);
    every_buffer(comparison);
    every_line(comparison);
    every_cut(comparison);
    every_octet_changed(comparison);
    rubbish(comparison);
    long(comparison);
}

/// Reads a text into a buffer drawn around the size that its stated count asks for.
fn read(comparison: &mut Comparison, name: &str, text: &[u8]) {
    let need = 20 * stated_count(text);
    let random = &mut comparison.random;
    let room = match random.below(12) {
        0 => 0,
        1 => need.saturating_sub(1),
        2 => need.saturating_sub(20),
        3 => random.below(need + 1),
        4 => need + 1,
        5 => need + random.below(100),
        6 => 60_000,
        _ => need,
    };
    comparison.case(name, Function::ReadList, text, room);
}

fn sound(comparison: &mut Comparison) {
    let others: Vec<usize> = (1..=120).collect();
    for how_many in [SMALL.repeat(1_200), LARGE.repeat(20), others.repeat(40)].concat() {
        let text = Sheet::drawn(&mut comparison.random, how_many).text();
        read(comparison, "a sound text", &text);
    }
}

fn each_damage(comparison: &mut Comparison, how_many: usize) {
    let sheet = Sheet::drawn(&mut comparison.random, how_many);
    for (name, damage) in PARTS {
        let mut damaged = sheet.clone();
        damage(&mut damaged, &mut comparison.random);
        read(comparison, name, &damaged.text());
        read(comparison, name, &damaged.text());
    }
    for (name, damage) in OCTETS {
        let mut text = sheet.text();
        damage(&mut text, &mut comparison.random);
        read(comparison, name, &text);
        read(comparison, name, &text);
    }
}

/// Several faults in one text: the order of the refusals decides.
fn several_damages(comparison: &mut Comparison) {
    for _ in 0..25_000 {
        let random = &mut comparison.random;
        let how_many = random.between(3, 12);
        let mut sheet = Sheet::drawn(random, how_many);
        for _ in 0..random.between(1, 3) {
            let (_, damage) = PARTS[random.below(PARTS.len())];
            if !sheet.codes.is_empty() {
                damage(&mut sheet, random);
            }
        }
        let mut text = sheet.text();
        for _ in 0..random.below(3) {
            let (_, damage) = OCTETS[random.below(OCTETS.len())];
            if !text.is_empty() {
                damage(&mut text, random);
            }
        }
        read(comparison, "several damages", &text);
    }
}

/// Each length of the buffer from 0 to beyond the need, for sound and damaged texts.
fn every_buffer(comparison: &mut Comparison) {
    for how_many in [1, 2, 3, 7, 8] {
        let sheet = Sheet::drawn(&mut comparison.random, how_many);
        let mut no_code = sheet.clone();
        no_code.codes[0] = b"3--4".to_vec();
        let mut left_over = sheet.clone();
        left_over.after = b"\n".to_vec();
        for room in 0..20 * how_many + 25 {
            comparison.case("each buffer, sound", Function::ReadList, &sheet.text(), room);
            comparison.case("each buffer, line 3 no code", Function::ReadList, &no_code.text(), room);
            comparison.case("each buffer, left over", Function::ReadList, &left_over.text(), room);
        }
    }
}

/// A fault at each line, or at some lines of a long list, the first and the last among them.
fn every_line(comparison: &mut Comparison) {
    for how_many in [1, 2, 3, 7, 8, 40, 3_000] {
        let sheet = Sheet::drawn(&mut comparison.random, how_many);
        let steps = (0..how_many).step_by(1 + how_many / 100);
        for at in steps.chain([how_many - 1]) {
            let mut no_code = sheet.clone();
            no_code.codes[at].push(b'-');
            comparison.case("no code at each line", Function::ReadList, &no_code.text(), 20 * how_many);
            let mut equal = sheet.clone();
            equal.codes[at] = equal.codes[at.saturating_sub(1)].clone();
            comparison.case("equal at each line", Function::ReadList, &equal.text(), 20 * how_many);
            let mut ended = sheet.clone();
            ended.codes.truncate(at);
            comparison.case("no line at each line", Function::ReadList, &ended.text(), 20 * how_many);
            ended.after = sheet.codes[at].clone();
            comparison.case("no LF at each line", Function::ReadList, &ended.text(), 20 * how_many);
        }
    }
}

fn every_cut(comparison: &mut Comparison) {
    for how_many in [1, 2, 3, 7, 8, 60, 61, 150] {
        let text = Sheet::drawn(&mut comparison.random, how_many).text();
        for len in 0..=text.len() {
            comparison.case("each cut", Function::ReadList, &text[..len], 20 * how_many);
        }
    }
}

/// Each octet of a text changed to each other octet, put in, and taken out.
fn every_octet_changed(comparison: &mut Comparison) {
    for text in [&b"codes\n3\n2-7\n3-39\n3-4\n"[..], b"codes\n12\nA\n"] {
        for at in 0..text.len() {
            for octet in 0..=255 {
                let changed = [&text[..at], &[octet], &text[at + 1..]].concat();
                comparison.case("each octet changed", Function::ReadList, &changed, 260);
                let put_in = [&text[..at], &[octet], &text[at..]].concat();
                comparison.case("each octet put in", Function::ReadList, &put_in, 260);
            }
            let taken_out = [&text[..at], &text[at + 1..]].concat();
            comparison.case("each octet taken out", Function::ReadList, &taken_out, 260);
        }
    }
}

fn rubbish(comparison: &mut Comparison) {
    for _ in 0..2_500 {
        let random = &mut comparison.random;
        let (len, soup_len) = (random.below(200), random.below(40));
        let octets = random.octets(len);
        let soup = random.octets_from(b"\n\n\n\n01239AZ-", soup_len);
        let count = random.below(6).to_string();
        let with_head = [b"codes\n", count.as_bytes(), b"\n", &soup].concat();
        let lined = [b"codes\n", &soup[..]].concat();
        read(comparison, "rubbish", &octets);
        read(comparison, "rubbish after a head", &with_head);
        read(comparison, "rubbish after the first line", &lined);
        read(comparison, "rubbish after the head's first octets", &[b"codes", &soup[..]].concat());
    }
}

/// Texts of lengths around 65,535 and around twice that, sound up to their end or not.
fn long(comparison: &mut Comparison) {
    for len in [65_533, 65_534, 65_535, 65_536, 65_537, 65_600, 131_071, 131_072, 131_090] {
        for how_many in [0, 1, 2_999, 3_000, 3_001] {
            let text = Sheet::drawn(&mut comparison.random, how_many).text();
            let filler = comparison.random.octets(len);
            for fill in [&filler[..], &vec![b'\n'; len], &vec![b'A'; len], &vec![0; len]] {
                let left_over = [&text, &fill[..len - text.len()]].concat();
                read(comparison, "long, left over", &left_over);
                let one_line = [b"codes\n1\n", &fill[..len - 9], b"\n"].concat();
                read(comparison, "long, one line", &one_line);
                let no_head = [&fill[..len - text.len()], &text[..]].concat();
                read(comparison, "long, head at the end", &no_head);
            }
        }
    }
}
