//! The program `digest`.

use super::comparison::{hex, Comparison, Expected};
use super::damage::{OCTETS, PARTS};
use super::program::{refused_line, Program};
use super::readings::readings;
use super::rules::PROGRAM_DIGEST;
use super::sheet::Sheet;
use second::answer::{Outcome, OUTPUT_TOO_SHORT};
use second::profile::FULL;

pub fn run(comparison: &mut Comparison) {
    let built = concat!(env!("CARGO_MANIFEST_DIR"), "/../target/bin/digest");
    let Some(program) = Program::found(comparison, PROGRAM_DIGEST, "SAGEBUTTON_DIGEST", built) else {
        return;
    };
    for reading in readings() {
        let outcome = digest_of_text(&reading.text);
        let line = match reading.expected {
            // The program lends a buffer of its own, so those about buffers don't bind it.
            Expected::Refused(OUTPUT_TOO_SHORT, _) => continue,
            Expected::Refused(number, place) => refused_line(number, place),
            Expected::Accepted(..) => expected_line(&outcome),
        };
        program.compare(comparison, reading.name, &reading.text, &outcome, &line);
    }
    for (name, text) in texts(comparison) {
        let outcome = digest_of_text(&text);
        program.compare(comparison, &name, &text, &outcome, &expected_line(&outcome));
    }
}

fn digest_of_text(text: &[u8]) -> Outcome {
    let list = second::list::read_list(text, 60_000)?;
    second::profile::digest(FULL, &list.written, 32)
}

/// `digest`, the count, and 64 lower-case hex digits; or `refused`, the number and the
/// place. Fields are parted by one space; LF ends the line.
fn expected_line(outcome: &Outcome) -> String {
    match outcome {
        Ok(accepted) => format!("digest {} {}\n", accepted.value, hex(&accepted.written)),
        Err(refusal) => refused_line(refusal.number, refusal.place),
    }
}

fn texts(comparison: &mut Comparison) -> Vec<(String, Vec<u8>)> {
    let random = &mut comparison.random;
    let mut texts = Vec::new();
    for how_many in [1, 2, 3, 7, 8, 100, 2_999, 3_000, 3_001] {
        texts.push((format!("{how_many} codes"), Sheet::drawn(random, how_many).text()));
    }
    for (name, damage) in PARTS {
        let mut sheet = Sheet::drawn(random, 5);
        damage(&mut sheet, random);
        texts.push((name.to_string(), sheet.text()));
    }
    for (name, damage) in OCTETS {
        let mut text = Sheet::drawn(random, 5).text();
        damage(&mut text, random);
        texts.push((name.to_string(), text));
    }
    for len in [65_534, 65_535, 65_536, 65_537, 100_001, 131_072, 300_000] {
        let mut text = Sheet::drawn(random, 3_000).text();
        text.resize(len, b'\n');
        texts.push((format!("{len} octets"), text));
    }
    texts
}
