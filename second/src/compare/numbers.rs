//! For each short label the first number whose one-node tree has it: what a drill finds, looked
//! up and not searched for each time anew.

use super::comparison::Comparison;
use super::face::drilled;
use second::answer::Outcome;
use second::drill::{key_of_number, listed, Drilled};
use second::list::Key;
use second::sha256::sha256;
use second::tree::{record, Record};
use std::collections::BTreeSet;

const LABELS: usize = 1 << 16;

/// The number by which every short label is met, as docs/DECISIONS.md has it.
pub const LAST: u32 = 696_108;

pub struct Numbers {
    /// By the label's two octets as a number.
    first: Vec<u32>,
    last: u32,
}

impl Numbers {
    /// Hashes numbers upward until every short label is met.
    pub fn met() -> Numbers {
        let mut first = vec![None; LABELS];
        let (mut missing, mut number) = (LABELS, 0);
        while missing > 0 {
            let label = two_octets(&one_node(&key_of_number(number)));
            missing -= usize::from(first[label].is_none());
            first[label].get_or_insert(number);
            number += 1;
        }
        Numbers { first: first.into_iter().flatten().collect(), last: number - 1 }
    }

    pub fn judge(&self, comparison: &mut Comparison) {
        comparison.cases += 1;
        if self.last != LAST {
            comparison.fail(&format!("every short label is met by number {}, not {LAST}", self.last));
        }
    }

    /// The number that a drill for this key finds if its bound permits. No code's key is among
    /// the numbers, so none is skipped.
    pub fn of(&self, listed: &Key) -> u32 {
        self.first[two_octets(&one_node(listed))]
    }

    /// The numbers below the limit that a drill for some key finds.
    pub fn found_below(&self, limit: u32) -> BTreeSet<u32> {
        self.first.iter().copied().filter(|number| *number < limit).collect()
    }

    /// What a drill answers. Its records are those of the two keys' one-node trees.
    pub fn outcome(&self, text: &[u8], bound: u32, rooms: [usize; 2]) -> Outcome {
        let listed = listed(text, rooms)?;
        let number = self.of(&listed);
        let records = [one_node(&listed), one_node(&key_of_number(number))];
        Ok(drilled((number < bound).then_some(Drilled { number, records })))
    }
}

/// The record of a tree of one node.
fn one_node(key: &Key) -> Record {
    record(None, key, None)
}

/// The first two octets of the SHA-256.
fn two_octets(record: &Record) -> usize {
    let label = sha256(record);
    256 * usize::from(label[0]) + usize::from(label[1])
}
