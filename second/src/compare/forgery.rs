//! The ways in which a sound attestation is damaged, part by part.

use super::draft::{label, Draft, Optional, LEFT, RIGHT};
use super::random::Random;

pub type Forgery = (&'static str, fn(&mut Draft, &mut Random));

/// A draft handed to one of these has a key and both optional labels of the foot.
pub const FORGERIES: [Forgery; 32] = [
    ("sound", |_, _| ()),
    ("count of keys 0", |draft, _| draft.count = 0),
    ("count of keys over 32", |draft, random| draft.count = random.between(33, 255) as u8),
    ("count of keys one too high", |draft, _| draft.count = draft.count.wrapping_add(1)),
    ("count of keys one too low", |draft, _| draft.count = draft.count.wrapping_sub(1)),
    ("both counts one too high", |draft, _| both_counts(draft, 1)),
    ("both counts one too low", |draft, _| both_counts(draft, 255)),
    ("count of keys any", |draft, random| draft.count = random.octet()),
    ("33 keys or more", |draft, random| {
        let how_many = random.pick(&[33, 33, 34, 64, 65, 128, 255, 256, 257]);
        draft.keys = (0..how_many).map(|_| random.octets(20).try_into().unwrap()).collect();
        draft.optionals.resize(how_many + 1, Optional::ABSENT);
        draft.recount();
    }),
    ("a key left out", |draft, random| {
        draft.keys.remove(random.below(draft.keys.len()));
    }),
    ("a key more", |draft, random| draft.keys.push(random.octets(20).try_into().unwrap())),
    ("an optional label's count 2", |draft, random| any_optional(draft, random).count = 2),
    ("an optional label's count over 1", |draft, random| {
        let count = random.between(2, 255) as u8;
        any_optional(draft, random).count = count;
    }),
    ("two labels at one place", |draft, random| {
        let two = vec![label(random), label(random)];
        *any_optional(draft, random) = Optional { count: 2, labels: two };
    }),
    ("a label without its count", |draft, random| any_optional(draft, random).count = 0),
    ("a count without its label", |draft, random| any_optional(draft, random).count = 1),
    ("an optional label left out", |draft, random| {
        draft.optionals.remove(random.below(draft.optionals.len()));
    }),
    ("an optional label more", |draft, random| draft.optionals.push(Optional::there(label(random)))),
    ("siblings' count one too high", |draft, _| draft.siblings_count = draft.siblings_count.wrapping_add(1)),
    ("siblings' count one too low", |draft, _| draft.siblings_count = draft.siblings_count.wrapping_sub(1)),
    ("siblings' count any", |draft, random| draft.siblings_count = random.octet()),
    ("octets follow", |draft, random| {
        let how_many = random.pick(&[1, 1, 1, 2, 32, 33, 100]);
        draft.after = random.octets(how_many);
    }),
    ("a child at the foot on both sides", |draft, random| {
        draft.optionals[LEFT] = Optional::there(label(random));
        draft.optionals[RIGHT] = Optional::there(label(random));
    }),
    ("the foot's sides swapped", |draft, _| draft.optionals.swap(LEFT, RIGHT)),
    ("x above the foot", |draft, random| draft.x = draft.keys[random.position(draft.keys.len())]),
    ("x put in above the foot", |draft, random| {
        let at = random.position(draft.keys.len());
        draft.keys[at] = draft.x;
    }),
    ("equal neighbours", |draft, random| {
        let at = random.position(draft.keys.len());
        draft.keys[at] = draft.keys[at.saturating_sub(1)];
    }),
    ("two keys equal, two levels apart", |draft, random| {
        let at = random.position(draft.keys.len());
        draft.keys[at] = draft.keys[at.saturating_sub(2)];
    }),
    ("a label of zeros", |draft, random| *any_optional(draft, random) = Optional::there([0; 32])),
    ("a label taken away", |draft, random| *any_optional(draft, random) = Optional::ABSENT),
    ("keys from the root down", |draft, _| draft.keys.reverse()),
    ("x another key", |draft, random| draft.x = random.octets(20).try_into().unwrap()),
];

pub fn may_be_forged(draft: &Draft) -> bool {
    !draft.keys.is_empty() && draft.optionals.len() >= 2
}

fn both_counts(draft: &mut Draft, more: u8) {
    draft.count = draft.count.wrapping_add(more);
    draft.siblings_count = draft.siblings_count.wrapping_add(more);
}

fn any_optional<'a>(draft: &'a mut Draft, random: &mut Random) -> &'a mut Optional {
    let at = random.position(draft.optionals.len());
    &mut draft.optionals[at]
}
