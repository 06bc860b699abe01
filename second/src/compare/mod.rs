//! All comparisons, in the order in which they run.

mod asked;
mod attestations;
mod changed;
mod codes;
mod comparison;
mod contradictions;
mod damage;
mod digest_program;
mod draft;
mod drill_examples;
mod drill_lists;
mod drill_program;
mod drills;
mod examples;
mod extracting;
mod extractions;
mod face;
mod forged;
mod forgery;
mod issued;
mod issuing;
mod key_lists;
mod lent;
mod messages;
mod nist;
mod not_issued;
mod numbers;
mod places;
mod program;
mod random;
mod readings;
mod refused;
mod rules;
mod sheet;
mod short_labels;
mod tails;
mod tally;
mod texts;
mod unknown;
mod verdicts;
mod walks;

use comparison::Comparison;
use face::Function;
use numbers::Numbers;
use second::profile::{DRILL, FULL};
use std::time::Instant;

/// At least so many cases in all: README says more than 1,200,000.
const CASES: u64 = 1_200_001;

/// At least so many texts are generated, and so many key lists under each profile.
const TEXTS: u64 = 100_000;
const KEY_LISTS: u64 = 50_000;

/// At least so many attestations are verified under each profile.
const VERIFIED: u64 = 200_000;

/// At least so many pairs of attestations are shown to extract under each profile.
const EXTRACTED: u64 = 20_000;

/// At least so many extractions are from attestations that contradict each other.
const CONTRADICTED: u64 = 1_000;

/// At least so many cases are of an unknown profile.
const UNKNOWN: u64 = 1_000;

/// At least so many drills are for one code, so many cases are of any list, and of the program.
const DRILLS: u64 = 2_000;
const DRILL_LISTS: u64 = 5_000;
const DRILL_PROGRAM: u64 = 100;

/// Document 01: the longest attestation that we issue, and the longest the verifier takes.
const LONGEST_ISSUED: u64 = 586;
const LONGEST_TAKEN: usize = 1_731;

/// Runs everything; true if nothing differed and nothing was left unmet.
pub fn run(seed: u64) -> bool {
    let started = Instant::now();
    println!("seed {seed}");
    let mut comparison = Comparison::new(seed);
    section(&mut comparison, "NIST's vectors", nist::run);
    section(&mut comparison, "examples", examples::run);
    let texts = section(&mut comparison, "generated texts", texts::run);
    at_least(&mut comparison, "generated texts", texts, TEXTS);
    section(&mut comparison, "generated messages", messages::run);
    for profile in [FULL, DRILL] {
        under(&mut comparison, profile);
    }
    section(&mut comparison, "tails of short labels", tails::run);
    section(&mut comparison, "contradictions", walks::run);
    let unknown = section(&mut comparison, "unknown profiles", unknown::run);
    at_least(&mut comparison, "cases of an unknown profile", unknown, UNKNOWN);
    drills(&mut comparison);
    section(&mut comparison, "the program digest", digest_program::run);
    let cases = comparison.cases;
    at_least(&mut comparison, "cases in all", cases, CASES);
    judge_contradictions(&mut comparison);
    judge_longest(&mut comparison);
    comparison.judge_tally();
    println!("{:.1} s", started.elapsed().as_secs_f64());
    println!("compare: {} cases, {} differences", comparison.cases, comparison.differences);
    comparison.differences == 0
}

/// Digest, attest, verify and extract under one profile.
fn under(comparison: &mut Comparison, profile: u32) {
    println!("under profile {profile}");
    comparison.profile = profile;
    let key_lists = section(comparison, "generated key lists", key_lists::run);
    section(comparison, "issuing", issuing::run);
    section(comparison, "not issued", not_issued::run);
    let issued = section(comparison, "issued attestations", issued::run);
    let changed = section(comparison, "changed attestations", changed::run);
    let forged = section(comparison, "forged attestations", forged::run);
    let places = section(comparison, "each place of an attestation", places::run);
    let pairs = section(comparison, "pairs of attestations", extracting::run);
    at_least(comparison, "generated key lists", key_lists, KEY_LISTS);
    at_least(comparison, "verifications", issued + changed + forged + places, VERIFIED);
    at_least(comparison, "pairs of attestations", pairs, EXTRACTED);
}

/// The function and the program.
fn drills(comparison: &mut Comparison) {
    let numbers = Numbers::met();
    let codes = section(comparison, "drills", |comparison| drills::run(comparison, &numbers));
    let lists =
        section(comparison, "lists for the drill", |comparison| drill_lists::run(comparison, &numbers));
    let program =
        section(comparison, "the program drill", |comparison| drill_program::run(comparison, &numbers));
    at_least(comparison, "drills", codes, DRILLS);
    at_least(comparison, "lists for the drill", lists, DRILL_LISTS);
    at_least(comparison, "cases of the program drill", program, DRILL_PROGRAM);
}

/// Runs one section and answers how many cases it had.
fn section(comparison: &mut Comparison, name: &str, run: impl FnOnce(&mut Comparison)) -> u64 {
    let before = comparison.cases;
    run(comparison);
    let cases = comparison.cases - before;
    println!("{name}: {cases} cases");
    cases
}

fn at_least(comparison: &mut Comparison, name: &str, cases: u64, asked: u64) {
    if cases < asked {
        comparison.fail(&format!("only {cases} {name}"));
    }
}

/// The extractor passed each number of levels that paths of 32 keys allow.
fn judge_contradictions(comparison: &mut Comparison) {
    let (contradicted, levels) = comparison.tally.accepted(Function::Extract(DRILL));
    at_least(comparison, "contradictions", contradicted, CONTRADICTED);
    if levels != 32 {
        comparison.fail(&format!("{levels} numbers of levels passed, not 32"));
    }
}

/// Both lengths were met under each profile, and neither was exceeded.
fn judge_longest(comparison: &mut Comparison) {
    for profile in [FULL, DRILL] {
        let issued = comparison.tally.greatest(Function::Attest(profile));
        let taken = comparison.longest_taken[profile as usize];
        println!("profile {profile}: longest attestation issued {issued} octets, longest accepted {taken}");
        if issued != LONGEST_ISSUED || taken != LONGEST_TAKEN {
            comparison.fail("not the longest attestations of document 01");
        }
    }
}
