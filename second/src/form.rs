//! The attestation's form, read from the front: document 01, "Verdict", step 2. The place
//! is the offset of the first octet that can't stand there, or the length if it ends early.

use crate::answer::{refuse, Refusal, ATTESTATION_FORM};
use crate::attestation::Attestation;
use crate::list::Key;
use crate::sha256::Label;

pub const EMPTY: &str = "empty";
pub const COUNT_0: &str = "count of keys 0";
pub const COUNT_OVER_32: &str = "count of keys over 32";
pub const KEYS_END: &str = "ended among the keys";
pub const NO_SIBLINGS_COUNT: &str = "ended before the siblings' count";
pub const SIBLINGS_COUNT_LOW: &str = "siblings' count under K - 1";
pub const SIBLINGS_COUNT_HIGH: &str = "siblings' count over K - 1";
pub const OCTETS_FOLLOW: &str = "octets follow";

/// What can be wrong with an optional label, by where it stands.
pub struct Wrong {
    pub no_count: &'static str,
    pub count: &'static str,
    pub label_ends: &'static str,
}

pub const FOOT_LEFT: Wrong = Wrong {
    no_count: "foot, left: ended before its count",
    count: "foot, left: count over 1",
    label_ends: "foot, left: ended in its label",
};

pub const FOOT_RIGHT: Wrong = Wrong {
    no_count: "foot, right: ended before its count",
    count: "foot, right: count over 1",
    label_ends: "foot, right: ended in its label",
};

pub const SIBLING: Wrong = Wrong {
    no_count: "sibling: ended before its count",
    count: "sibling: count over 1",
    label_ends: "sibling: ended in its label",
};

pub fn read(octets: &[u8]) -> Result<Attestation, Refusal> {
    let mut reader = Reader { octets, place: 0 };
    let keys = keys(&mut reader)?;
    let foot_left = optional(&mut reader, &FOOT_LEFT)?;
    let foot_right = optional(&mut reader, &FOOT_RIGHT)?;
    let siblings = siblings(&mut reader, keys.len() - 1)?;
    if reader.place < octets.len() {
        return Err(reader.cannot_stand(0, OCTETS_FOLLOW));
    }
    Ok(Attestation { keys, foot_left, foot_right, siblings })
}

/// Count K, one octet, 1 to 32; then k0 to km, with m = K - 1.
fn keys(reader: &mut Reader) -> Result<Vec<Key>, Refusal> {
    let count = reader.octet(EMPTY)?;
    if count == 0 {
        return Err(reader.cannot_stand(1, COUNT_0));
    }
    if count > 32 {
        return Err(reader.cannot_stand(1, COUNT_OVER_32));
    }
    (0..count).map(|_| reader.array(KEYS_END)).collect()
}

/// Count, one octet, equal to K - 1; then for k1 to km the optional label of the child off
/// the path.
fn siblings(reader: &mut Reader, above: usize) -> Result<Vec<Option<Label>>, Refusal> {
    let count = usize::from(reader.octet(NO_SIBLINGS_COUNT)?);
    if count < above {
        return Err(reader.cannot_stand(1, SIBLINGS_COUNT_LOW));
    }
    if count > above {
        return Err(reader.cannot_stand(1, SIBLINGS_COUNT_HIGH));
    }
    (0..count).map(|_| optional(reader, &SIBLING)).collect()
}

fn optional(reader: &mut Reader, wrong: &Wrong) -> Result<Option<Label>, Refusal> {
    match reader.octet(wrong.no_count)? {
        0 => Ok(None),
        1 => Ok(Some(reader.array(wrong.label_ends)?)),
        _ => Err(reader.cannot_stand(1, wrong.count)),
    }
}

struct Reader<'a> {
    octets: &'a [u8],
    place: usize,
}

impl Reader<'_> {
    fn octet(&mut self, ends: &'static str) -> Result<u8, Refusal> {
        self.array::<1>(ends).map(|[octet]| octet)
    }

    /// The next N octets, all of them or the refusal of an attestation that ends early.
    fn array<const N: usize>(&mut self, ends: &'static str) -> Result<[u8; N], Refusal> {
        let Some(octets) = self.octets.get(self.place..self.place + N) else {
            return Err(refuse(ATTESTATION_FORM, self.octets.len(), ends));
        };
        self.place += N;
        Ok(octets.try_into().unwrap())
    }

    /// The octet that stands so many octets back can't stand there.
    fn cannot_stand(&self, back: usize, rule: &'static str) -> Refusal {
        refuse(ATTESTATION_FORM, self.place - back, rule)
    }
}
