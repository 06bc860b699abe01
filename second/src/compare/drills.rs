//! Lists of one code for the drill, each within several bounds.

use super::codes::{code, Style, STYLES};
use super::comparison::Comparison;
use super::drill_examples::LONGEST;
use super::face::Function;
use super::lent::Input;
use super::numbers::Numbers;
use super::sheet::Sheet;
use second::list::key_of_code;
use std::collections::BTreeSet;

/// So many different codes are drilled for within each bound.
const CODES: usize = 240;

/// Their numbers are below this, so that no drill takes long.
const NEAR: u32 = 1_024;

/// Each number below this that a drill can find is found for some code.
const FIRST: u32 = 64;

pub fn run(comparison: &mut Comparison, numbers: &Numbers) {
    numbers.judge(comparison);
    for code in first_codes(comparison, numbers).into_iter().chain(near_codes(comparison, numbers)) {
        each_bound(comparison, numbers, &code);
    }
    longest(comparison, numbers);
    for style in STYLES {
        let code = code(&mut comparison.random, style);
        whole_bound(comparison, numbers, &code);
    }
    plainly(comparison, numbers);
}

/// Ours against the number looked up.
pub fn drill(
    comparison: &mut Comparison,
    numbers: &Numbers,
    name: &str,
    text: Input,
    bound: u32,
    rooms: [usize; 2],
) {
    let outcome = numbers.outcome(text.octets, bound, rooms);
    comparison.known(name, Function::Drill(bound), &[text], &rooms, &outcome);
}

fn sheet_of(code: &[u8]) -> Sheet {
    Sheet::of(vec![code.to_vec()])
}

fn number_of(numbers: &Numbers, code: &[u8]) -> u32 {
    numbers.of(&key_of_code(code).expect("a code"))
}

/// A code for each of the first numbers.
fn first_codes(comparison: &mut Comparison, numbers: &Numbers) -> Vec<Vec<u8>> {
    let mut missing: BTreeSet<u32> = numbers.found_below(FIRST);
    let mut codes = Vec::new();
    while !missing.is_empty() {
        let drawn = code(&mut comparison.random, Style::Any);
        if missing.remove(&number_of(numbers, &drawn)) {
            codes.push(drawn);
        }
    }
    codes
}

/// Different codes of all looks whose number is near.
fn near_codes(comparison: &mut Comparison, numbers: &Numbers) -> BTreeSet<Vec<u8>> {
    let mut codes = BTreeSet::new();
    for style in STYLES.into_iter().cycle() {
        let drawn = near_code(comparison, numbers, style);
        codes.insert(drawn);
        if codes.len() == CODES {
            break;
        }
    }
    codes
}

fn near_code(comparison: &mut Comparison, numbers: &Numbers, style: Style) -> Vec<u8> {
    loop {
        let drawn = code(&mut comparison.random, style);
        if number_of(numbers, &drawn) < NEAR {
            return drawn;
        }
    }
}

/// No number, one, some; one too few, just enough, one more; and far more.
fn each_bound(comparison: &mut Comparison, numbers: &Numbers, code: &[u8]) {
    let (text, number) = (sheet_of(code).text(), number_of(numbers, code));
    let fewer = comparison.random.below(number as usize + 1) as u32;
    let more = comparison.random.pick(&[65_536, 1_048_576, 0x7fff_ffff, 0x8000_0000, 0xffff_ffff]);
    // What has differed already may look for hours among so many and find none.
    let more = if comparison.differences == 0 { more } else { number + 3 };
    for bound in [0, 1, fewer, number, number + 1, number + 2, more] {
        drill(comparison, numbers, "near", Input::whole(&text), bound, [85, 85]);
    }
}

/// The greatest number there is, as it was worked out with other tools.
fn longest(comparison: &mut Comparison, numbers: &Numbers) {
    let (code, number) = LONGEST;
    if number_of(numbers, code.as_bytes()) != number {
        comparison.fail(&format!("the number of {code} is not {number}"));
    }
    let text = sheet_of(code.as_bytes()).text();
    for bound in [number, number + 1] {
        drill(comparison, numbers, "longest", Input::whole(&text), bound, [85, 85]);
    }
}

/// Any number, with two octets' worth of numbers and with the program's bound.
fn whole_bound(comparison: &mut Comparison, numbers: &Numbers, code: &[u8]) {
    let text = sheet_of(code).text();
    for bound in [65_536, 1_048_576] {
        drill(comparison, numbers, "any", Input::whole(&text), bound, [85, 85]);
    }
}

/// The reference's own search against the number looked up.
fn plainly(comparison: &mut Comparison, numbers: &Numbers) {
    let mut codes: Vec<Vec<u8>> = STYLES.map(|style| code(&mut comparison.random, style)).to_vec();
    codes.extend(STYLES.repeat(8).iter().map(|style| near_code(comparison, numbers, *style)));
    for code in codes {
        let (text, number) = (sheet_of(&code).text(), number_of(numbers, &code));
        for bound in [0, 1, number, number + 1] {
            comparison.cases += 1;
            let searched = Function::Drill(bound).reference(&[&text], &[85, 85]);
            let looked_up = numbers.outcome(&text, bound, [85, 85]);
            if searched != looked_up {
                let fault = format!("finds {searched:?}, looked up was {looked_up:?}");
                comparison.differs("plainly", "the reference", &[&text], &fault);
            }
        }
    }
}
