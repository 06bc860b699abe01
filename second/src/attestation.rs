//! The attestation, its octets, and issuing one: document 01, "The attestation".

use crate::answer::*;
use crate::list::Key;
use crate::sha256::Label;
use crate::tree::{admitted, label_of, LabelFunction, Node};
use std::cmp::Ordering;

pub const KEY_NOT_20: &str = "key not 20 octets";
pub const EXCEEDS_BUFFER: &str = "finished, it would exceed the buffer";

/// Keys k0, the foot, to km, the root. Of each key above the foot the siblings hold the
/// label of the child off the path, if there is one.
#[derive(Clone, Debug)]
pub struct Attestation {
    pub keys: Vec<Key>,
    pub foot_left: Option<Label>,
    pub foot_right: Option<Label>,
    pub siblings: Vec<Option<Label>>,
}

/// Attest answers the length; octets beyond it stay. `room` is the length of the lent
/// buffer.
pub fn attest(hash: LabelFunction, key: &[u8], list: &[u8], room: usize) -> Outcome {
    let Ok(key) = Key::try_from(key) else {
        return Err(refuse(SIZE, 0, KEY_NOT_20));
    };
    let keys = admitted(list)?;
    let root = Node::root(hash, &keys).expect("an admitted list has a key");
    let written = Attestation::issued(&root, &key).octets();
    if written.len() > room {
        return Err(refuse(OUTPUT_TOO_SHORT, 0, EXCEEDS_BUFFER));
    }
    Ok(Accepted { value: written.len() as u64, written })
}

impl Attestation {
    /// For a listed key the foot is that key's node. For any other it is the last node that
    /// the search meets.
    pub fn issued(node: &Node, key: &Key) -> Attestation {
        let (towards, off_the_path) = match key.cmp(&node.key) {
            Ordering::Equal => return Attestation::of_foot(node),
            Ordering::Less => (&node.left, &node.right),
            Ordering::Greater => (&node.right, &node.left),
        };
        let Some(child) = towards else {
            return Attestation::of_foot(node);
        };
        let mut attestation = Attestation::issued(child, key);
        attestation.keys.push(node.key);
        attestation.siblings.push(label_of(off_the_path));
        attestation
    }

    fn of_foot(node: &Node) -> Attestation {
        Attestation {
            keys: vec![node.key],
            foot_left: label_of(&node.left),
            foot_right: label_of(&node.right),
            siblings: Vec::new(),
        }
    }

    /// The four sections, each after its count.
    pub fn octets(&self) -> Vec<u8> {
        let mut octets = vec![self.keys.len() as u8];
        octets.extend(self.keys.concat());
        octets.extend(optional(self.foot_left));
        octets.extend(optional(self.foot_right));
        octets.push(self.siblings.len() as u8);
        for sibling in &self.siblings {
            octets.extend(optional(*sibling));
        }
        octets
    }
}

/// An optional label is its count, 0 or 1, then that many labels of 32 octets.
fn optional(label: Option<Label>) -> Vec<u8> {
    match label {
        None => vec![0],
        Some(label) => [&[1], &label[..]].concat(),
    }
}
