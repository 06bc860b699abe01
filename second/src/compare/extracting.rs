//! Attestations shown to extract in pairs that were not made to contradict each other, so that
//! each answer, short of chance, is a refusal: compared is which, and its place.

use super::asked;
use super::comparison::Comparison;
use super::draft::{Draft, SIDES};
use super::face::Function;
use super::forgery::{may_be_forged, FORGERIES};
use super::key_lists::keys;
use super::lent::Input;
use super::random::Random;
use super::refused::{with_10, with_7, with_8, with_9};
use second::attestation::Attestation;
use second::list::Key;
use second::sha256::Label;
use second::tree::{LabelFunction, Node};

/// A key and a digest, and attestations to show for them.
struct Stage {
    x: Key,
    d: Label,
    shown: Vec<Vec<u8>>,
}

pub fn run(comparison: &mut Comparison) {
    for how_many in (1..=32).chain([1, 2, 3, 32].repeat(15)) {
        let stage = of_draft(comparison.label_function(), &mut comparison.random, how_many);
        each_pair(comparison, "refused for each number", &stage);
    }
    for how_many in (1..=16).chain([1, 2, 3, 5, 7, 8, 40, 300, 3_000]) {
        let keys = keys(&mut comparison.random, how_many);
        of_list(comparison, &keys);
    }
    for how_many in [1, 2, 12, 32] {
        every_size(comparison, how_many);
    }
    sizes_by_16_bits(comparison);
    every_cut(comparison);
    any(comparison);
    far_too_long(comparison);
}

/// One that is accepted, the empty one, those refused with each number, and damaged ones.
fn of_draft(hash: LabelFunction, random: &mut Random, how_many: usize) -> Stage {
    let (side, there) = (random.pick(&SIDES), random.below(5));
    let sound = Draft::drawn(random, how_many, side, there);
    let refused = [with_7, with_7, with_8, with_9, with_10].map(|refused| refused(random, &sound));
    let mut shown = vec![sound.octets(), Vec::new()];
    shown.extend(refused);
    for _ in 0..3 {
        let (mut damaged, (_, damage)) = (sound.clone(), random.pick(&FORGERIES));
        damage(&mut damaged, random);
        shown.push(damaged.octets());
    }
    Stage { x: sound.x, d: sound.own_digest(hash).expect("a drawn one has a sound form"), shown }
}

/// Each with each, two copies of each among them; and each with itself, lent once.
fn each_pair(comparison: &mut Comparison, name: &str, stage: &Stage) {
    for first in &stage.shown {
        for second in &stage.shown {
            comparison.extract(name, &stage.x, &stage.d, [first, second]);
        }
        let inputs = [&stage.x[..], &stage.d, first].map(Input::whole);
        comparison.call("one and itself", Function::Extract(comparison.profile), &inputs, &[85, 85]);
    }
}

/// Issued for the key, for its foot's key and for others, and under the other profile; shown
/// under the list's digest and any.
fn of_list(comparison: &mut Comparison, keys: &[Key]) {
    let root = Node::root(comparison.label_function(), keys).expect("there is a key");
    let other_root = Node::root(comparison.other_label_function(), keys).expect("there is a key");
    let asked = asked::some(&mut comparison.random, keys);
    for x in &asked {
        let issued = Attestation::issued(&root, x);
        let [other, another] = [comparison.random.pick(&asked), comparison.random.pick(keys)];
        let keys = [issued.keys[0], issued.keys[issued.keys.len() - 1], other, another];
        let mut shown = vec![issued.octets()];
        shown.push(Attestation::issued(&other_root, x).octets());
        shown.extend(keys.map(|key| Attestation::issued(&root, &key).octets()));
        let mut stage = Stage { x: *x, d: root.label, shown };
        each_pair(comparison, "issued", &stage);
        stage.d = comparison.random.octets(32).try_into().unwrap();
        stage.shown.truncate(2);
        each_pair(comparison, "issued, d any octets", &stage);
    }
}

const KEY_SIZES: [usize; 5] = [0, 19, 20, 21, 40];
const DIGEST_SIZES: [usize; 5] = [0, 31, 32, 33, 64];
const ROOMS: [usize; 5] = [0, 84, 85, 86, 170];

/// Each size with each, before each refusal and before none.
fn every_size(comparison: &mut Comparison, how_many: usize) {
    let stage = of_draft(comparison.label_function(), &mut comparison.random, how_many);
    let [sound, empty, with_7, _, with_8, with_9, with_10, ..] = &stage.shown[..] else {
        unreachable!("so many are shown");
    };
    let pairs = [(sound, sound), (empty, empty), (with_7, sound), (sound, with_8), (with_9, with_10)];
    for (first, second) in pairs {
        for x_len in KEY_SIZES {
            for d_len in DIGEST_SIZES {
                each_room(comparison, &stage, [x_len, d_len], [first, second]);
            }
        }
    }
}

fn each_room(comparison: &mut Comparison, stage: &Stage, [x_len, d_len]: [usize; 2], shown: [&Vec<u8>; 2]) {
    let (x, d) = (stage.x.repeat(2), stage.d.repeat(2));
    let [first, second] = shown.map(|octets| Input::whole(octets));
    for first_room in ROOMS {
        for second_room in ROOMS {
            let inputs = [Input::cut(&x, x_len), Input::cut(&d, d_len), first, second];
            comparison.call(
                "each size",
                Function::Extract(comparison.profile),
                &inputs,
                &[first_room, second_room],
            );
        }
    }
}

/// Sizes that counting in 8 or 16 bits would take for the right ones.
fn sizes_by_16_bits(comparison: &mut Comparison) {
    let stage = of_draft(comparison.label_function(), &mut comparison.random, 3);
    for more in [256, 65_536] {
        for [x, d, first_room, second_room] in [[1, 0, 0, 0], [0, 1, 0, 0], [0, 0, 1, 0], [0, 0, 0, 1]] {
            let mut longer_x = stage.x.to_vec();
            longer_x.resize(20 + x * more, 0);
            let mut longer_d = stage.d.to_vec();
            longer_d.resize(32 + d * more, 0);
            let rooms = [85 + first_room * more, 85 + second_room * more];
            for shown in &stage.shown {
                let inputs = [&longer_x, &longer_d, shown].map(|octets| Input::whole(octets));
                comparison.call(
                    "a size modulo 256 or 65,536",
                    Function::Extract(comparison.profile),
                    &inputs,
                    &rooms,
                );
            }
        }
    }
}

/// One cut, the other not, or both; what is cut off stands behind the end.
fn every_cut(comparison: &mut Comparison) {
    for how_many in [1, 2, 5] {
        let Stage { x, d, shown } = of_draft(comparison.label_function(), &mut comparison.random, how_many);
        let sound = &shown[0];
        for len in 0..sound.len() {
            let (whole, cut) = (Input::whole(sound), Input::cut(sound, len));
            for (first, second) in [(cut, whole), (whole, cut), (cut, cut)] {
                let inputs = [Input::whole(&x), Input::whole(&d), first, second];
                comparison.call("each cut", Function::Extract(comparison.profile), &inputs, &[85, 85]);
            }
        }
    }
}

/// Both damaged several times, at times with a wrong size.
fn any(comparison: &mut Comparison) {
    let hash = comparison.label_function();
    for _ in 0..6_000 {
        let random = &mut comparison.random;
        let sound = Draft::any(random);
        let d = sound.own_digest(hash).expect("a drawn one has a sound form");
        let shown = [0, 0].map(|_| damaged(random, &sound));
        let mut sizes = [20, 32, 85, 85];
        while random.one_in(6) {
            let at = random.below(4);
            sizes[at] = random.pick(&[0, 19, 20, 21, 31, 32, 33, 84, 85, 86]);
        }
        let [x_len, d_len, first_room, second_room] = sizes;
        let (x, d) = (sound.x.repeat(5), d.repeat(3));
        let [first, second] = [&shown[0], &shown[1]].map(|octets| Input::whole(octets));
        let inputs = [Input::cut(&x, x_len), Input::cut(&d, d_len), first, second];
        comparison.call("any", Function::Extract(comparison.profile), &inputs, &[first_room, second_room]);
    }
}

fn damaged(random: &mut Random, sound: &Draft) -> Vec<u8> {
    let mut draft = sound.clone();
    for _ in 0..random.below(4) {
        let (_, damage) = random.pick(&FORGERIES);
        if may_be_forged(&draft) {
            damage(&mut draft, random);
        }
    }
    draft.octets()
}

fn far_too_long(comparison: &mut Comparison) {
    for how_many in [1, 12, 32] {
        let mut stage = of_draft(comparison.label_function(), &mut comparison.random, how_many);
        let sound = stage.shown[0].clone();
        stage.shown.truncate(2);
        for more in [1, 65_536, 1 << 20] {
            stage.shown.push([&sound[..], &vec![0; more]].concat());
        }
        each_pair(comparison, "far too long", &stage);
    }
}
