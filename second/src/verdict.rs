//! The verdict on an attestation, given key x and digest d: document 01, "Verdict", step
//! by step.

use crate::answer::*;
use crate::attestation::Attestation;
use crate::form;
use crate::list::Key;
use crate::sha256::Label;
use crate::tree::{record, LabelFunction, Record};

pub const KEY_NOT_20: &str = "x not 20 octets";
pub const DIGEST_NOT_32: &str = "d not 32 octets";
pub const LEFT_LABEL: &str = "x < k0 and a left label";
pub const RIGHT_LABEL: &str = "x > k0 and a right label";
pub const X_ABOVE: &str = "x = kj";
pub const NEIGHBOURS_EQUAL: &str = "k(j-1) = kj";
pub const X_AND_NEIGHBOURS: &str = "x = kj and k(j-1) = kj";
pub const DIFFERS: &str = "the last label is not d";

#[derive(Clone, Copy, Debug, PartialEq, Eq)]
pub enum Verdict {
    Present,
    Absent,
}

pub fn verify(hash: LabelFunction, x: &[u8], d: &[u8], octets: &[u8]) -> Result<Verdict, Refusal> {
    let Ok(x) = Key::try_from(x) else {
        return Err(refuse(SIZE, 0, KEY_NOT_20));
    };
    let Ok(d) = Label::try_from(d) else {
        return Err(refuse(SIZE, 0, DIGEST_NOT_32));
    };
    let attestation = form::read(octets)?;
    step_3(&x, &attestation)?;
    step_4(&x, &attestation.keys)?;
    if last_label(hash, &x, &attestation) != d {
        return Err(refuse(DIGEST_DIFFERS, 0, DIFFERS));
    }
    if attestation.keys[0] == x {
        Ok(Verdict::Present)
    } else {
        Ok(Verdict::Absent)
    }
}

/// If x < k0 the foot has no left label, if x > k0 no right label.
fn step_3(x: &Key, attestation: &Attestation) -> Result<(), Refusal> {
    let foot = &attestation.keys[0];
    if x < foot && attestation.foot_left.is_some() {
        return Err(refuse(CHILD_AT_THE_FOOT, 0, LEFT_LABEL));
    }
    if x > foot && attestation.foot_right.is_some() {
        return Err(refuse(CHILD_AT_THE_FOOT, 0, RIGHT_LABEL));
    }
    Ok(())
}

/// For no j > 0 is x = kj or k(j-1) = kj; the place is the smallest such j.
fn step_4(x: &Key, keys: &[Key]) -> Result<(), Refusal> {
    for j in 1..keys.len() {
        match (*x == keys[j], keys[j - 1] == keys[j]) {
            (true, true) => return Err(refuse(ABOVE_THE_FOOT, j, X_AND_NEIGHBOURS)),
            (true, false) => return Err(refuse(ABOVE_THE_FOOT, j, X_ABOVE)),
            (false, true) => return Err(refuse(ABOVE_THE_FOOT, j, NEIGHBOURS_EQUAL)),
            (false, false) => (),
        }
    }
    Ok(())
}

/// Step 5: the foot's record; then for each key above it its record, with the label so far
/// on the left if x < kj and on the right if x > kj.
pub fn records(hash: LabelFunction, x: &Key, attestation: &Attestation) -> Vec<Record> {
    let Attestation { keys, foot_left, foot_right, siblings } = attestation;
    let mut records = vec![record(*foot_left, &keys[0], *foot_right)];
    for (key, sibling) in keys[1..].iter().zip(siblings) {
        let label = records.last().map(hash);
        let (left, right) = if x < key { (label, *sibling) } else { (*sibling, label) };
        records.push(record(left, key, right));
    }
    records
}

/// The label of the last of these.
pub fn last_label(hash: LabelFunction, x: &Key, attestation: &Attestation) -> Label {
    let records = records(hash, x, attestation);
    hash(records.last().expect("there is a foot"))
}
