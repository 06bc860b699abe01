//! Lists that the drill refuses, and some that it doesn't, into buffers of 85 octets and others.

use super::comparison::{Comparison, Expected};
use super::damage::{OCTETS, PARTS};
use super::drills::drill;
use super::face::Function;
use super::lent::Input;
use super::numbers::Numbers;
use super::random::Random;
use super::readings::readings;
use super::sheet::Sheet;
use second::answer::{MORE_THAN_ONE_CODE, OUTPUT_TOO_SHORT};

pub fn run(comparison: &mut Comparison, numbers: &Numbers) {
    by_hand(comparison, numbers);
    each_damage(comparison, numbers);
    each_cut(comparison, numbers);
    several_codes(comparison, numbers);
    too_long(comparison, numbers);
}

/// A few numbers only, so that a list that is sound costs little.
fn few(random: &mut Random) -> u32 {
    random.pick(&[0, 1, 7, 100])
}

/// Mostly of 85 octets.
fn rooms(random: &mut Random) -> [usize; 2] {
    let other = random.pick(&[0, 1, 84, 86, 170, 256 + 85, 65_536 + 85]);
    match random.below(16) {
        0 => [85, other],
        1 => [other, 85],
        2 => [other, other],
        _ => [85, 85],
    }
}

fn drill_few(comparison: &mut Comparison, numbers: &Numbers, name: &str, text: Input) {
    let (bound, rooms) = (few(&mut comparison.random), rooms(&mut comparison.random));
    drill(comparison, numbers, name, text, bound, rooms);
}

/// The examples of reading: refused there, refused here, but for those about the buffer.
fn by_hand(comparison: &mut Comparison, numbers: &Numbers) {
    for reading in readings() {
        let refused = match reading.expected {
            Expected::Refused(OUTPUT_TOO_SHORT, _) | Expected::Accepted(1, _) => {
                drill_few(comparison, numbers, reading.name, Input::whole(&reading.text));
                continue;
            }
            Expected::Accepted(..) => Expected::Refused(MORE_THAN_ONE_CODE, 2),
            refused => refused,
        };
        let bound = few(&mut comparison.random);
        comparison.example(reading.name, Function::Drill(bound), &[&reading.text], &[85, 85], &refused);
    }
}

/// Texts of one, two and three codes, damaged once.
fn each_damage(comparison: &mut Comparison, numbers: &Numbers) {
    for how_many in [1, 1, 2, 3].repeat(40) {
        let sheet = Sheet::drawn(&mut comparison.random, how_many);
        for (name, damage) in PARTS {
            let mut damaged = sheet.clone();
            damage(&mut damaged, &mut comparison.random);
            drill_few(comparison, numbers, name, Input::whole(&damaged.text()));
        }
        for (name, damage) in OCTETS {
            let mut text = sheet.text();
            damage(&mut text, &mut comparison.random);
            drill_few(comparison, numbers, name, Input::whole(&text));
        }
    }
}

/// What is cut off stands behind the end.
fn each_cut(comparison: &mut Comparison, numbers: &Numbers) {
    for how_many in [1, 1, 2].repeat(40) {
        let text = Sheet::drawn(&mut comparison.random, how_many).text();
        for len in 0..=text.len() {
            drill_few(comparison, numbers, "each cut", Input::cut(&text, len));
        }
    }
}

/// More than one code comes last: a fault of the last line is before it.
fn several_codes(comparison: &mut Comparison, numbers: &Numbers) {
    for how_many in [2, 3, 8, 40, 2_999, 3_000].repeat(20) {
        let sheet = Sheet::drawn(&mut comparison.random, how_many);
        drill_few(comparison, numbers, "several codes", Input::whole(&sheet.text()));
        let (mut no_code, mut equal) = (sheet.clone(), sheet.clone());
        no_code.codes[how_many - 1].push(b'-');
        drill_few(comparison, numbers, "several, the last no code", Input::whole(&no_code.text()));
        equal.codes[how_many - 1] = equal.codes[how_many - 2].clone();
        drill_few(comparison, numbers, "several, the last two equal", Input::whole(&equal.text()));
        let left_over = [&sheet.text()[..], b"\n"].concat();
        drill_few(comparison, numbers, "several, left over", Input::whole(&left_over));
    }
}

/// Lengths around 65,535, and those that counting in 16 bits would take for the sound one.
fn too_long(comparison: &mut Comparison, numbers: &Numbers) {
    for how_many in [1, 2, 3_000].repeat(5) {
        let sound = Sheet::drawn(&mut comparison.random, how_many).text();
        let len = sound.len();
        for longer in [65_534, 65_535, 65_536, 65_537, 65_536 + len, 131_072, 131_072 + len] {
            for fill in [b'\n', b'A', 0] {
                let mut text = sound.clone();
                text.resize(longer, fill);
                drill_few(comparison, numbers, "too long", Input::whole(&text));
            }
        }
    }
}
