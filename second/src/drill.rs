//! The drill, change request (vi): for a listed key another one whose one-node tree has the same
//! short label, and what the extractor makes of the two trees. All of it is under profile 1.

use crate::answer::*;
use crate::extractor::{FIRST_NOT_85, SECOND_NOT_85};
use crate::list::{read_list, Key};
use crate::profile::{attest, digest, extract, DRILL, SHORT};
use crate::sha256::Label;
use crate::tree::{record, Record};

pub const MORE_THAN_ONE: &str = "more than one code";

/// The program tries at most so many numbers; below it the bound is the caller's.
pub const PROGRAM_BOUND: u32 = 1_048_576;

/// Room for 3,000 keys, so that reading never finds it too short.
const ROOM: usize = 60_000;

/// The length of an attestation under a one-node tree: a key and four counts.
const ROOM_OF_ONE: usize = 24;

/// The number whose key was found, and the two records that the extractor writes.
#[derive(Clone, Debug, PartialEq, Eq)]
pub struct Drilled {
    pub number: u32,
    pub records: [Record; 2],
}

/// Takes a one-code list, the bound and two buffers, of which `rooms` are the lengths. No number
/// within the bound: none.
pub fn drill(text: &[u8], bound: u32, rooms: [usize; 2]) -> Result<Option<Drilled>, Refusal> {
    let listed = listed(text, rooms)?;
    Ok(found(&listed, bound).map(|number| drilled(&listed, number)))
}

/// The one listed key. A buffer not exactly 85 octets; the list's refusal; last, more than one
/// code.
pub fn listed(text: &[u8], rooms: [usize; 2]) -> Result<Key, Refusal> {
    if rooms[0] != 85 {
        return Err(refuse(SIZE, 0, FIRST_NOT_85));
    }
    if rooms[1] != 85 {
        return Err(refuse(SIZE, 0, SECOND_NOT_85));
    }
    let list = read_list(text, ROOM)?;
    Key::try_from(list.written).map_err(|_| refuse(MORE_THAN_ONE_CODE, 2, MORE_THAN_ONE))
}

/// Keys are tried as big-endian numbers upward from zero, the listed one skipped and not
/// counted, at most `bound` of them.
fn found(listed: &Key, bound: u32) -> Option<u32> {
    let numbers = (0..=u32::MAX).filter(|number| key_of_number(*number) != *listed);
    let label = one_node_label(listed);
    numbers.take(bound as usize).find(|number| one_node_label(&key_of_number(*number)) == label)
}

/// Hands the extractor the key's Absent under the first tree and its Present under the second.
fn drilled(listed: &Key, number: u32) -> Drilled {
    let x = key_of_number(number);
    let d = written(digest(DRILL, listed, 32));
    let absent = written(attest(DRILL, &x, listed, ROOM_OF_ONE));
    let present = written(attest(DRILL, &x, &x, ROOM_OF_ONE));
    let extracted = extract(DRILL, &x, &d, [&absent, &present], [85, 85]);
    Drilled { number, records: extracted.expect("they contradict each other").records }
}

fn written(outcome: Outcome) -> Vec<u8> {
    outcome.expect("a list of one key is accepted").written
}

/// A number as a key: 20 octets, big-endian.
pub fn key_of_number(number: u32) -> Key {
    let mut key = [0; 20];
    key[16..].copy_from_slice(&number.to_be_bytes());
    key
}

/// The digest of the list of this one key.
fn one_node_label(key: &Key) -> Label {
    SHORT(&record(None, key, None))
}
