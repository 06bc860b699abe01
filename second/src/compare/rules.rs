//! The rules that the comparison must meet, by function and profile, each many times.

use second::answer::*;
use second::{attestation, drill, extractor, form, list, profile, sha256, tree, verdict};

/// Function, profile or nothing, number (0 if accepted), rule.
pub type Rule = (&'static str, &'static str, u16, &'static str);

pub const ACCEPTED: &str = "accepted";
pub const IS_PRESENT: &str = "Present";
pub const IS_ABSENT: &str = "Absent";
pub const FOUND: &str = "found";
pub const NONE_FOUND: &str = "none";

/// The programs; their rules are the numbers that they print, each met at least once.
pub const PROGRAM_DIGEST: &str = "program digest";
pub const PROGRAM_DRILL: &str = "program drill";
pub const PROGRAMS: [&str; 2] = [PROGRAM_DIGEST, PROGRAM_DRILL];

/// Those of functions that take a profile are to be met under each. No two attestations that
/// anybody knows contradict each other under the full one.
pub fn rules() -> Vec<Rule> {
    let unprofiled = UNPROFILED.iter().map(|(function, number, rule)| (*function, "", *number, *rule));
    let under =
        |profile| PROFILED.iter().map(move |(function, number, rule)| (*function, profile, *number, *rule));
    let unknown = ["digest", "attest", "verify", "extract"]
        .map(|function| (function, "unknown", UNKNOWN_PROFILE, profile::UNKNOWN));
    let contradictions = [("extract", "drill", 0, ACCEPTED)];
    unprofiled.chain(under("full")).chain(under("drill")).chain(unknown).chain(contradictions).collect()
}

pub fn program_rules() -> Vec<Rule> {
    let read =
        [0, SIZE, NO_KEYS, OVER_3000_KEYS, NOT_ASCENDING, FIRST_OR_SECOND_LINE, NOT_A_CODE, LINES_AND_COUNT];
    let drill = read.iter().chain(&[MORE_THAN_ONE_CODE]);
    let digest = read.iter().map(|number| (PROGRAM_DIGEST, "", *number, ""));
    digest.chain(drill.map(|number| (PROGRAM_DRILL, "", *number, ""))).collect()
}

const UNPROFILED: [(&str, u16, &str); 34] = [
    ("hash", 0, ACCEPTED),
    ("hash", SIZE, sha256::MESSAGE_TOO_LONG),
    ("hash", SIZE, sha256::OUTPUT_NOT_32),
    ("read_list", 0, ACCEPTED),
    ("read_list", SIZE, list::TEXT_TOO_LONG),
    ("read_list", FIRST_OR_SECOND_LINE, list::FIRST_MALFORMED),
    ("read_list", FIRST_OR_SECOND_LINE, list::FIRST_NO_LF),
    ("read_list", FIRST_OR_SECOND_LINE, list::SECOND_MALFORMED),
    ("read_list", FIRST_OR_SECOND_LINE, list::SECOND_NO_LF),
    ("read_list", NO_KEYS, list::COUNT_0),
    ("read_list", OVER_3000_KEYS, list::COUNT_OVER_3000),
    ("read_list", OUTPUT_TOO_SHORT, list::BUFFER_SHORT),
    ("read_list", LINES_AND_COUNT, list::NO_LF),
    ("read_list", LINES_AND_COUNT, list::NO_LINE),
    ("read_list", NOT_A_CODE, list::NO_CODE),
    ("read_list", NOT_ASCENDING, list::NOT_ABOVE),
    ("read_list", LINES_AND_COUNT, list::LEFT_OVER),
    ("drill", 0, FOUND),
    ("drill", 0, NONE_FOUND),
    ("drill", SIZE, extractor::FIRST_NOT_85),
    ("drill", SIZE, extractor::SECOND_NOT_85),
    ("drill", SIZE, list::TEXT_TOO_LONG),
    ("drill", FIRST_OR_SECOND_LINE, list::FIRST_MALFORMED),
    ("drill", FIRST_OR_SECOND_LINE, list::FIRST_NO_LF),
    ("drill", FIRST_OR_SECOND_LINE, list::SECOND_MALFORMED),
    ("drill", FIRST_OR_SECOND_LINE, list::SECOND_NO_LF),
    ("drill", NO_KEYS, list::COUNT_0),
    ("drill", OVER_3000_KEYS, list::COUNT_OVER_3000),
    ("drill", LINES_AND_COUNT, list::NO_LF),
    ("drill", LINES_AND_COUNT, list::NO_LINE),
    ("drill", NOT_A_CODE, list::NO_CODE),
    ("drill", NOT_ASCENDING, list::NOT_ABOVE),
    ("drill", LINES_AND_COUNT, list::LEFT_OVER),
    ("drill", MORE_THAN_ONE_CODE, drill::MORE_THAN_ONE),
];

const PROFILED: [(&str, u16, &str); 58] = [
    ("digest", 0, ACCEPTED),
    ("digest", SIZE, tree::OUTPUT_NOT_32),
    ("digest", NO_KEYS, tree::EMPTY),
    ("digest", NOT_A_MULTIPLE, tree::NOT_BY_20),
    ("digest", OVER_3000_KEYS, tree::OVER_3000),
    ("digest", NOT_ASCENDING, tree::NOT_STRICT),
    ("attest", 0, ACCEPTED),
    ("attest", SIZE, attestation::KEY_NOT_20),
    ("attest", NO_KEYS, tree::EMPTY),
    ("attest", NOT_A_MULTIPLE, tree::NOT_BY_20),
    ("attest", OVER_3000_KEYS, tree::OVER_3000),
    ("attest", NOT_ASCENDING, tree::NOT_STRICT),
    ("attest", OUTPUT_TOO_SHORT, attestation::EXCEEDS_BUFFER),
    ("verify", 0, IS_PRESENT),
    ("verify", 0, IS_ABSENT),
    ("verify", SIZE, verdict::KEY_NOT_20),
    ("verify", SIZE, verdict::DIGEST_NOT_32),
    ("verify", ATTESTATION_FORM, form::EMPTY),
    ("verify", ATTESTATION_FORM, form::COUNT_0),
    ("verify", ATTESTATION_FORM, form::COUNT_OVER_32),
    ("verify", ATTESTATION_FORM, form::KEYS_END),
    ("verify", ATTESTATION_FORM, form::FOOT_LEFT.no_count),
    ("verify", ATTESTATION_FORM, form::FOOT_LEFT.count),
    ("verify", ATTESTATION_FORM, form::FOOT_LEFT.label_ends),
    ("verify", ATTESTATION_FORM, form::FOOT_RIGHT.no_count),
    ("verify", ATTESTATION_FORM, form::FOOT_RIGHT.count),
    ("verify", ATTESTATION_FORM, form::FOOT_RIGHT.label_ends),
    ("verify", ATTESTATION_FORM, form::NO_SIBLINGS_COUNT),
    ("verify", ATTESTATION_FORM, form::SIBLINGS_COUNT_LOW),
    ("verify", ATTESTATION_FORM, form::SIBLINGS_COUNT_HIGH),
    ("verify", ATTESTATION_FORM, form::SIBLING.no_count),
    ("verify", ATTESTATION_FORM, form::SIBLING.count),
    ("verify", ATTESTATION_FORM, form::SIBLING.label_ends),
    ("verify", ATTESTATION_FORM, form::OCTETS_FOLLOW),
    ("verify", CHILD_AT_THE_FOOT, verdict::LEFT_LABEL),
    ("verify", CHILD_AT_THE_FOOT, verdict::RIGHT_LABEL),
    ("verify", ABOVE_THE_FOOT, verdict::X_ABOVE),
    ("verify", ABOVE_THE_FOOT, verdict::NEIGHBOURS_EQUAL),
    ("verify", ABOVE_THE_FOOT, verdict::X_AND_NEIGHBOURS),
    ("verify", DIGEST_DIFFERS, verdict::DIFFERS),
    ("extract", SIZE, verdict::KEY_NOT_20),
    ("extract", SIZE, verdict::DIGEST_NOT_32),
    ("extract", SIZE, extractor::FIRST_NOT_85),
    ("extract", SIZE, extractor::SECOND_NOT_85),
    ("extract", ATTESTATION_FORM, extractor::FIRST_REFUSED),
    ("extract", ATTESTATION_FORM, extractor::BOTH_REFUSED),
    ("extract", ATTESTATION_FORM, extractor::SECOND_REFUSED),
    ("extract", CHILD_AT_THE_FOOT, extractor::FIRST_REFUSED),
    ("extract", CHILD_AT_THE_FOOT, extractor::BOTH_REFUSED),
    ("extract", CHILD_AT_THE_FOOT, extractor::SECOND_REFUSED),
    ("extract", ABOVE_THE_FOOT, extractor::FIRST_REFUSED),
    ("extract", ABOVE_THE_FOOT, extractor::BOTH_REFUSED),
    ("extract", ABOVE_THE_FOOT, extractor::SECOND_REFUSED),
    ("extract", DIGEST_DIFFERS, extractor::FIRST_REFUSED),
    ("extract", DIGEST_DIFFERS, extractor::BOTH_REFUSED),
    ("extract", DIGEST_DIFFERS, extractor::SECOND_REFUSED),
    ("extract", NO_CONTRADICTION, extractor::BOTH_PRESENT),
    ("extract", NO_CONTRADICTION, extractor::BOTH_ABSENT),
];
