//! The tree, its node records and the digest: document 01, "Tree, node record, digest".

use crate::answer::*;
use crate::list::Key;
use crate::sha256::Label;

pub const OUTPUT_NOT_32: &str = "output not 32 octets";
pub const EMPTY: &str = "no keys";
pub const NOT_BY_20: &str = "key list not a multiple of 20 octets";
pub const OVER_3000: &str = "over 3,000 keys";
pub const NOT_STRICT: &str = "not strictly ascending";

/// A node record.
pub type Record = [u8; 85];

/// From a node's record to its label; which, the profile says.
pub type LabelFunction = fn(&Record) -> Label;

/// An accepted digest writes its 32 octets and answers the number of keys. `room` is the
/// length of the lent output.
pub fn digest(hash: LabelFunction, octets: &[u8], room: usize) -> Outcome {
    if room != 32 {
        return Err(refuse(SIZE, 0, OUTPUT_NOT_32));
    }
    let keys = admitted(octets)?;
    let tree = Node::root(hash, &keys).expect("an admitted list has a key");
    Ok(Accepted { value: keys.len() as u64, written: tree.label.to_vec() })
}

/// Accepted key lists hold 1 to 3,000 keys, strictly ascending.
pub fn admitted(octets: &[u8]) -> Result<Vec<Key>, Refusal> {
    if octets.is_empty() {
        return Err(refuse(NO_KEYS, 0, EMPTY));
    }
    if octets.len() % 20 != 0 {
        return Err(refuse(NOT_A_MULTIPLE, 0, NOT_BY_20));
    }
    let keys: Vec<Key> = octets.chunks(20).map(|key| key.try_into().unwrap()).collect();
    if keys.len() > 3_000 {
        return Err(refuse(OVER_3000_KEYS, 0, OVER_3000));
    }
    match (1..keys.len()).find(|index| keys[*index] <= keys[index - 1]) {
        Some(index) => Err(refuse(NOT_ASCENDING, index, NOT_STRICT)),
        None => Ok(keys),
    }
}

/// A node with its label, standing over its children.
pub struct Node {
    pub left: Option<Box<Node>>,
    pub key: Key,
    pub right: Option<Box<Node>>,
    pub label: Label,
}

impl Node {
    /// The root is the key at position floor(n/2), counted from 0. The keys before it form
    /// the left subtree by the same rule, those after it the right; no keys, no subtree.
    pub fn root(hash: LabelFunction, keys: &[Key]) -> Option<Box<Node>> {
        if keys.is_empty() {
            return None;
        }
        let position = keys.len() / 2;
        let left = Node::root(hash, &keys[..position]);
        let right = Node::root(hash, &keys[position + 1..]);
        let key = keys[position];
        let label = hash(&record(label_of(&left), &key, label_of(&right)));
        Some(Box::new(Node { left, key, right, label }))
    }
}

pub fn label_of(child: &Option<Box<Node>>) -> Option<Label> {
    child.as_ref().map(|node| node.label)
}

/// Octet 0 is 1 if there is a left child plus 2 if there is a right one; 1 to 32 the left
/// child's label, 33 to 52 the key, 53 to 84 the right child's label; an absent child's
/// label is 32 zeros.
pub fn record(left: Option<Label>, key: &Key, right: Option<Label>) -> Record {
    let mut record = [0; 85];
    record[0] = u8::from(left.is_some()) + 2 * u8::from(right.is_some());
    record[1..=32].copy_from_slice(&left.unwrap_or([0; 32]));
    record[33..=52].copy_from_slice(key);
    record[53..=84].copy_from_slice(&right.unwrap_or([0; 32]));
    record
}
