//! Extracting under the drill's profile, where attestations that contradict each other can be
//! made. Reference and ours are held against how these were made, and what ours writes against
//! what document 01 says of the records, each built anew from its attestation.

use super::comparison::{Comparison, Expected};
use super::contradictions::{pairs, Pair};
use super::face::{judged, Function};
use second::answer::{DIGEST_DIFFERS, SIZE};
use second::attestation::Attestation;
use second::list::Key;
use second::profile::{DRILL, FULL, SHORT};
use second::sha256::sha256;
use second::tree::{record, Record};

pub fn run(comparison: &mut Comparison) {
    for pair in pairs(SHORT, &mut comparison.random) {
        judge(comparison, &pair);
    }
}

/// Buffers of which one or both are not of 85 octets.
const ROOMS: [[usize; 2]; 7] = [[85, 84], [85, 86], [84, 85], [86, 85], [0, 0], [170, 0], [85, 341]];

fn judge(comparison: &mut Comparison, pair: &Pair) {
    let Pair { x, d, attestations: [first, second], verdicts, expected } = pair;
    let (first, second) = (first.octets(), second.octets());
    for (octets, verdict) in [&first, &second].into_iter().zip(verdicts) {
        let verdict = Expected::Accepted(judged(*verdict).value, Vec::new());
        comparison.example("one of two", Function::Verify(DRILL), &[x, d, octets], &[], &verdict);
    }
    let inputs: [&[u8]; 4] = [x, d, &first, &second];
    comparison.example("as it was made", Function::Extract(DRILL), &inputs, &[85, 85], expected);
    let (rooms, refused) = (comparison.random.pick(&ROOMS), Expected::Refused(SIZE, 0));
    comparison.example("another buffer", Function::Extract(DRILL), &inputs, &rooms, &refused);
    // No SHA-256 that anybody knows ends in 30 zeros.
    let refused = Expected::Refused(DIGEST_DIFFERS, 1);
    comparison.example("under the full profile", Function::Extract(FULL), &inputs, &[85, 85], &refused);
    if verdicts[0] != verdicts[1] {
        evidence(comparison, pair, &inputs);
    }
}

/// What ours answers and writes, judged by itself.
fn evidence(comparison: &mut Comparison, pair: &Pair, inputs: &[&[u8]]) {
    comparison.cases += 1;
    let (mut first, mut second) = ([0; 85], [0; 85]);
    let answer = Function::Extract(DRILL).ours(inputs, &mut [&mut first, &mut second]);
    // No attestation has so many levels as a refusal would say.
    let passed = answer.min(33) as usize;
    let faults = broken(pair, passed, first, second);
    if !faults.is_empty() {
        comparison.differs("evidence", "our extractor", inputs, &faults.join("; "));
    }
}

/// What document 01 says of the two records and is not so.
fn broken(pair: &Pair, passed: usize, first: Record, second: Record) -> Vec<&'static str> {
    let of_level = |level| [0, 1].map(|at| rebuilt(&pair.x, &pair.attestations[at], level));
    let alike = |level| of_level(level)[0] == of_level(level)[1];
    let rules = [
        (first != second, "the records do not differ"),
        (sha256(&first)[..2] == sha256(&second)[..2], "the records have two short labels"),
        (of_level(passed) == [Some(first), Some(second)], "a record is not the one of that level"),
        ((0..passed).all(alike), "a level before differs"),
    ];
    rules.iter().filter(|(kept, _)| !kept).map(|(_, rule)| *rule).collect()
}

/// The node record of a level, counted from the root, if the attestation goes so far down.
fn rebuilt(x: &Key, attestation: &Attestation, level: usize) -> Option<Record> {
    let Attestation { keys, foot_left, foot_right, siblings } = attestation;
    let j = keys.len().checked_sub(level + 1)?;
    let Some(below) = rebuilt(x, attestation, level + 1) else {
        return Some(record(*foot_left, &keys[0], *foot_right));
    };
    let (label, sibling) = (Some(SHORT(&below)), siblings[j - 1]);
    let (left, right) = if *x < keys[j] { (label, sibling) } else { (sibling, label) };
    Some(record(left, &keys[j], right))
}
