//! Pairs of attestations for one key under one digest, out of two lists whose trees have one
//! label: they contradict each other if only one list has the key. Such lists are found by
//! drawing, which asks for a label function of short labels.

use super::asked;
use super::comparison::Expected;
use super::draft::label;
use super::key_lists::keys;
use super::random::Random;
use second::answer::NO_CONTRADICTION;
use second::attestation::Attestation;
use second::list::Key;
use second::sha256::Label;
use second::tree::{label_of, record, LabelFunction, Node, Record};
use second::verdict::{last_label, records, Verdict};
use std::collections::BTreeMap;
use std::iter::repeat_with;

/// Two attestations, the first shown first, and what is known of them from how they were
/// made.
pub struct Pair {
    pub x: Key,
    pub d: Label,
    pub attestations: [Attestation; 2],
    pub verdicts: [Verdict; 2],
    /// What extract answers.
    pub expected: Expected,
}

const LISTS: [usize; 9] = [1, 2, 3, 5, 8, 13, 40, 300, 3_000];

/// The most levels that may stand above a foot.
const MOST_ABOVE: usize = 31;

pub fn pairs(hash: LabelFunction, random: &mut Random) -> Vec<Pair> {
    let mut alike = Vec::new();
    for how_many in LISTS {
        alike.extend((0..12).map(|_| one_key_apart(hash, random, how_many)));
    }
    for levels in 0..=MOST_ABOVE {
        alike.extend((0..6).map(|_| small(hash, random, levels)));
    }
    for lists in [zeros_left(hash, random), zeros_right(hash, random)] {
        for levels in [0, 1, MOST_ABOVE - 1] {
            alike.push(Alike { lists: lists.clone(), level: 0, above: above(random, levels) });
        }
    }
    alike.iter().flat_map(|alike| alike.pairs(hash, random)).collect()
}

/// A few, with small lists and with few levels above them and many.
pub fn some(hash: LabelFunction, random: &mut Random) -> Vec<Pair> {
    let alike = [0, 0, 1, 2, 11, 30, 31].map(|levels| small(hash, random, levels));
    alike.iter().flat_map(|alike| alike.pairs(hash, random)).collect()
}

/// Two lists whose trees have one label, the first level of the trees where they differ, and
/// levels of no list above both.
struct Alike {
    lists: [Vec<Key>; 2],
    level: usize,
    above: Vec<(Key, Option<Label>)>,
}

impl Alike {
    /// For a key of the first list only, one of the second only, any listed and any other;
    /// each in both orders.
    fn pairs(&self, hash: LabelFunction, random: &mut Random) -> Vec<Pair> {
        let [first, second] = &self.lists;
        let roots = [first, second].map(|keys| Node::root(hash, keys).expect("there is a key"));
        let only_first = first.iter().find(|key| !second.contains(key));
        let only_second = second.iter().find(|key| !first.contains(key));
        let listed = random.pick(first);
        let other = asked::one_bit_away(listed, random.below(160));
        let asked = only_first.into_iter().chain(only_second).chain([&listed, &other]);
        asked.flat_map(|x| [[0, 1], [1, 0]].map(|order| self.pair(hash, &roots, x, order))).collect()
    }

    fn pair(&self, hash: LabelFunction, roots: &[Box<Node>; 2], x: &Key, order: [usize; 2]) -> Pair {
        let attestations = order.map(|at| self.attestation(&roots[at], x));
        let listed = order.map(|at| self.lists[at].contains(x));
        let verdicts = listed.map(|listed| if listed { Verdict::Present } else { Verdict::Absent });
        let expected = if verdicts[0] == verdicts[1] {
            Expected::Refused(NO_CONTRADICTION, 0)
        } else {
            let passed = self.above.len() + self.level;
            let records = order.map(|at| met(&roots[at], x, self.level));
            Expected::Accepted(passed as u64, records.concat())
        };
        Pair { x: *x, d: last_label(hash, x, &attestations[0]), attestations, verdicts, expected }
    }

    fn attestation(&self, root: &Node, x: &Key) -> Attestation {
        let mut attestation = Attestation::issued(root, x);
        for (key, sibling) in &self.above {
            attestation.keys.push(*key);
            attestation.siblings.push(*sibling);
        }
        attestation
    }
}

/// The record of the node that the search for x meets at a level.
fn met(node: &Node, x: &Key, level: usize) -> Record {
    if level == 0 {
        return record(label_of(&node.left), &node.key, label_of(&node.right));
    }
    let child = if *x < node.key { &node.left } else { &node.right };
    met(child.as_ref().expect("the search goes on to that level"), x, level - 1)
}

/// Draws until two have one label, but not one record.
fn with_one_label<T>(
    hash: LabelFunction,
    random: &mut Random,
    draw: impl Fn(&mut Random) -> (Record, T),
) -> [T; 2] {
    let mut drawn_before: BTreeMap<Label, (Record, T)> = BTreeMap::new();
    loop {
        let (record, drawn) = draw(random);
        let label = hash(&record);
        match drawn_before.remove(&label) {
            Some((other, before)) if other != record => return [before, drawn],
            _ => drawn_before.insert(label, (record, drawn)),
        };
    }
}

/// Keys of a list that leave room: octets in common, the position, then any octets.
struct Spaced {
    common: Vec<u8>,
}

impl Spaced {
    fn drawn(random: &mut Random) -> Spaced {
        let len = random.below(15);
        Spaced { common: random.octets(len) }
    }

    fn key(&self, random: &mut Random, position: usize) -> Key {
        let mut key = [&self.common[..], &(position as u16).to_be_bytes()].concat();
        key.extend(random.octets(20 - key.len()));
        key.try_into().unwrap()
    }

    /// Draws keys until one is as it is asked for.
    fn found(&self, random: &mut Random, position: usize, asked: impl Fn(&Key) -> bool) -> Key {
        repeat_with(|| self.key(random, position)).find(asked).expect("they never end")
    }
}

/// Two lists that differ in one key; at a level from the root to that key's the node records
/// have one label.
fn one_key_apart(hash: LabelFunction, random: &mut Random, how_many: usize) -> Alike {
    let spaced = Spaced::drawn(random);
    let keys: Vec<Key> = (0..how_many).map(|position| spaced.key(random, position)).collect();
    let position = random.position(how_many);
    let root = Node::root(hash, &keys).expect("there is a key");
    let path = Attestation::issued(&root, &keys[position]);
    let up = random.below(path.keys.len());
    let two_keys = with_one_label(hash, random, |random| {
        let mut path = path.clone();
        path.keys[0] = spaced.key(random, position);
        (records(hash, &path.keys[0], &path)[up], path.keys[0])
    });
    let lists = two_keys.map(|key| {
        let mut keys = keys.clone();
        keys[position] = key;
        keys
    });
    Alike { lists, level: path.keys.len() - 1 - up, above: Vec::new() }
}

/// Two lists of few keys, below so many levels; 32 in all at most.
fn small(hash: LabelFunction, random: &mut Random, levels: usize) -> Alike {
    let most = [1, 3, 7][(MOST_ABOVE - levels).min(2)];
    let lists = with_one_label(hash, random, |random| {
        let how_many = random.between(1, most);
        let keys = keys(random, how_many);
        let root = Node::root(hash, &keys).expect("there is a key");
        (met(&root, &root.key, 0), keys)
    });
    Alike { lists, level: 0, above: above(random, levels) }
}

/// Levels of no list: any keys, and any labels or none.
fn above(random: &mut Random, levels: usize) -> Vec<(Key, Option<Label>)> {
    let mut level = || {
        let sibling = if random.one_in(3) { None } else { Some(label(random)) };
        (random.octets(20).try_into().unwrap(), sibling)
    };
    (0..levels).map(|_| level()).collect()
}

/// The roots' records differ in octet 0 only: a left child whose label is zeros, and none.
fn zeros_left(hash: LabelFunction, random: &mut Random) -> [Vec<Key>; 2] {
    let spaced = Spaced::drawn(random);
    let child = spaced.found(random, 0, |key| hash(&record(None, key, None)) == [0; 32]);
    let root =
        spaced.found(random, 1, |key| hash(&record(ZEROS, key, None)) == hash(&record(None, key, None)));
    [vec![child, root], vec![root]]
}

/// The same of a right child, a left one beside it.
fn zeros_right(hash: LabelFunction, random: &mut Random) -> [Vec<Key>; 2] {
    let spaced = Spaced::drawn(random);
    let left = spaced.key(random, 0);
    let beside = Some(hash(&record(None, &left, None)));
    let root =
        spaced.found(random, 1, |key| hash(&record(beside, key, ZEROS)) == hash(&record(beside, key, None)));
    let child = spaced.found(random, 2, |key| hash(&record(None, key, None)) == [0; 32]);
    [vec![left, root, child], vec![left, root]]
}

const ZEROS: Option<Label> = Some([0; 32]);
