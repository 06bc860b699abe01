//! An attestation still in its parts, with the key that it is shown for, so that each part
//! can be damaged by itself.

use super::key_lists::keys;
use super::random::Random;
use second::list::Key;
use second::sha256::Label;
use second::tree::LabelFunction;
use second::{form, verdict};
use std::cmp::Ordering;

/// A count, and the labels that follow it, as many or not.
#[derive(Clone)]
pub struct Optional {
    pub count: u8,
    pub labels: Vec<Label>,
}

impl Optional {
    pub const ABSENT: Optional = Optional { count: 0, labels: Vec::new() };

    pub fn there(label: Label) -> Optional {
        Optional { count: 1, labels: vec![label] }
    }

    fn octets(&self) -> Vec<u8> {
        [&[self.count], &self.labels.concat()[..]].concat()
    }
}

#[derive(Clone)]
pub struct Draft {
    /// The key x that it is shown for.
    pub x: Key,
    pub count: u8,
    pub keys: Vec<Key>,
    /// The foot's left, the foot's right, then the siblings.
    pub optionals: Vec<Optional>,
    pub siblings_count: u8,
    /// What follows the last section.
    pub after: Vec<u8>,
}

pub const LEFT: usize = 0;
pub const RIGHT: usize = 1;

/// Where x may stand beside the foot.
pub const SIDES: [Ordering; 3] = [Ordering::Less, Ordering::Equal, Ordering::Greater];

impl Draft {
    /// Passes steps 1 to 4; x is less than the foot, equal to it or greater. In four labels
    /// that may be there, `there` are.
    pub fn drawn(random: &mut Random, how_many: usize, side: Ordering, there: usize) -> Draft {
        let (mut x, keys) = drawn_keys(random, how_many, side);
        if side == Ordering::Equal {
            x = keys[0];
        }
        let mut optional = || {
            if random.below(4) < there {
                Optional::there(label(random))
            } else {
                Optional::ABSENT
            }
        };
        let mut optionals: Vec<Optional> = (0..how_many + 1).map(|_| optional()).collect();
        match side {
            Ordering::Less => optionals[LEFT] = Optional::ABSENT,
            Ordering::Equal => (),
            Ordering::Greater => optionals[RIGHT] = Optional::ABSENT,
        }
        let mut draft = Draft { x, count: 0, keys, optionals, siblings_count: 0, after: Vec::new() };
        draft.recount();
        draft
    }

    /// Any number of keys, more often few.
    pub fn any(random: &mut Random) -> Draft {
        let most = random.pick(&[1, 2, 4, 12, 32]);
        let (how_many, side, there) = (random.between(1, most), random.pick(&SIDES), random.below(5));
        Draft::drawn(random, how_many, side, there)
    }

    /// Sets both counts to what is there, as far as an octet holds it.
    pub fn recount(&mut self) {
        self.count = self.keys.len() as u8;
        self.siblings_count = self.optionals.len().wrapping_sub(2) as u8;
    }

    pub fn octets(&self) -> Vec<u8> {
        self.parts().concat()
    }

    /// Counts, keys and optional labels, each by itself.
    fn parts(&self) -> Vec<Vec<u8>> {
        let mut parts = vec![vec![self.count]];
        parts.extend(self.keys.iter().map(|key| key.to_vec()));
        parts.extend(self.optionals.iter().take(2).map(Optional::octets));
        parts.push(vec![self.siblings_count]);
        parts.extend(self.optionals.iter().skip(2).map(Optional::octets));
        parts.push(self.after.clone());
        parts
    }

    /// Where each part ends.
    pub fn ends(&self) -> Vec<usize> {
        let mut end = 0;
        let add = |part: &Vec<u8>| {
            end += part.len();
            end
        };
        self.parts().iter().map(add).collect()
    }

    /// The digest that it hashes to, if its form is sound.
    pub fn own_digest(&self, hash: LabelFunction) -> Option<Label> {
        let attestation = form::read(&self.octets()).ok()?;
        Some(verdict::last_label(hash, &self.x, &attestation))
    }
}

/// Different keys in no order, x on the side that is asked for; often with the least and the
/// greatest key there is.
fn drawn_keys(random: &mut Random, how_many: usize, side: Ordering) -> (Key, Vec<Key>) {
    let mut keys = keys(random, how_many + 1);
    if random.one_in(4) {
        keys[0] = [0x00; 20];
    }
    if random.one_in(4) {
        keys[how_many] = [0xff; 20];
    }
    for at in 0..=how_many {
        keys.swap(at, random.below(how_many + 1));
    }
    let mut x = keys.pop().expect("there is one key more");
    if x.cmp(&keys[0]) != side {
        std::mem::swap(&mut x, &mut keys[0]);
    }
    (x, keys)
}

/// Any label, at times one of 32 zeros, which is no absent one.
pub fn label(random: &mut Random) -> Label {
    match random.below(8) {
        0 => [0; 32],
        1 => [random.pick(&[0x01, 0xff]); 32],
        _ => random.octets(32).try_into().unwrap(),
    }
}
