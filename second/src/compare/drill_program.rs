//! The program `drill`. How long its longest run takes is printed and not judged, for that
//! hangs on what else the machine does.

use super::codes::{code, STYLES};
use super::comparison::{hex, Comparison, Expected};
use super::drill_examples::{printed, FOUND, LONGEST, REFUSED};
use super::face::NONE;
use super::numbers::Numbers;
use super::program::{refused_line, Program};
use super::readings::readings;
use super::rules::PROGRAM_DRILL;
use super::sheet::Sheet;
use second::answer::{Outcome, MORE_THAN_ONE_CODE, OUTPUT_TOO_SHORT};
use second::drill::PROGRAM_BOUND;
use std::time::Duration;

pub fn run(comparison: &mut Comparison, numbers: &Numbers) {
    let built = concat!(env!("CARGO_MANIFEST_DIR"), "/../target/bin/drill");
    let Some(program) = Program::found(comparison, PROGRAM_DRILL, "SAGEBUTTON_DRILL", built) else {
        return;
    };
    let mut longest = Duration::ZERO;
    let cases = by_hand().into_iter().chain(drawn(comparison, numbers));
    for Case { name, text, print } in cases.collect::<Vec<Case>>() {
        let outcome = outcome(numbers, &text);
        longest = longest.max(program.compare(comparison, &name, &text, &outcome, &print));
    }
    println!("longest run of {PROGRAM_DRILL} {:.2} s", longest.as_secs_f64());
}

struct Case {
    name: String,
    text: Vec<u8>,
    print: String,
}

/// The examples of drills, and those of reading that are refused or of more than one code.
fn by_hand() -> Vec<Case> {
    let mut cases = Vec::new();
    for (code, number) in FOUND.into_iter().chain([LONGEST]) {
        let text = format!("codes\n1\n{code}\n").into_bytes();
        cases.push(Case { name: code.to_string(), text, print: printed(code, number) });
    }
    for (name, text, number, place) in REFUSED {
        let print = refused_line(number, place);
        cases.push(Case { name: name.to_string(), text: text.as_bytes().to_vec(), print });
    }
    for reading in readings() {
        let print = match reading.expected {
            // The program lends a buffer of its own, so those about buffers don't bind it.
            Expected::Refused(OUTPUT_TOO_SHORT, _) | Expected::Accepted(1, _) => continue,
            Expected::Refused(number, place) => refused_line(number, place),
            Expected::Accepted(..) => refused_line(MORE_THAN_ONE_CODE, 2),
        };
        cases.push(Case { name: reading.name.to_string(), text: reading.text, print });
    }
    cases
}

/// One code of each look, several, and lengths around 65,535.
fn drawn(comparison: &mut Comparison, numbers: &Numbers) -> Vec<Case> {
    let random = &mut comparison.random;
    let mut texts = Vec::new();
    for style in STYLES.repeat(2) {
        texts.push(("one code".to_string(), Sheet::of(vec![code(random, style)]).text()));
    }
    for how_many in [2, 3, 8, 100, 2_999, 3_000, 3_001] {
        texts.push((format!("{how_many} codes"), Sheet::drawn(random, how_many).text()));
    }
    for len in [65_534, 65_535, 65_536, 65_537, 100_001, 131_072, 300_000] {
        for how_many in [1, 3_000] {
            let mut text = Sheet::drawn(random, how_many).text();
            text.resize(len, b'\n');
            texts.push((format!("{len} octets"), text));
        }
    }
    let case = |(name, text): (String, Vec<u8>)| {
        let print = expected_lines(&outcome(numbers, &text));
        Case { name, text, print }
    };
    texts.into_iter().map(case).collect()
}

fn outcome(numbers: &Numbers, text: &[u8]) -> Outcome {
    numbers.outcome(text, PROGRAM_BOUND, [85, 85])
}

/// The two records in lower-case hex, one a line; or `none`; or a refused list.
fn expected_lines(outcome: &Outcome) -> String {
    match outcome {
        Ok(accepted) if accepted.value == NONE => "none\n".to_string(),
        Ok(accepted) => accepted.written.chunks(85).map(|record| hex(record) + "\n").collect(),
        Err(refusal) => refused_line(refusal.number, refusal.place),
    }
}
