//! NIST's SHA-256 vectors (CAVS response files): reference and ours against the files'
//! own digests.

use super::comparison::{octets_of_hex, Comparison, Expected};
use super::face::Function;

const SHORT: &str = include_str!("../../vectors/SHA256ShortMsg.rsp");
const LONG: &str = include_str!("../../vectors/SHA256LongMsg.rsp");
const MONTE: &str = include_str!("../../vectors/SHA256Monte.rsp");

pub fn run(comparison: &mut Comparison) {
    messages(comparison, "NIST Short", SHORT, 65);
    messages(comparison, "NIST Long", LONG, 64);
    monte_carlo(comparison);
}

/// The values of `NAME = value` lines, in order.
fn fields<'a>(file: &'a str, name: &str) -> Vec<&'a str> {
    let pairs = file.lines().filter_map(|line| line.trim().split_once(" = "));
    pairs.filter(|(key, _)| *key == name).map(|(_, value)| value).collect()
}

fn messages(comparison: &mut Comparison, name: &str, file: &str, how_many: usize) {
    let (lens, messages, digests) = (fields(file, "Len"), fields(file, "Msg"), fields(file, "MD"));
    if [lens.len(), messages.len(), digests.len()] != [how_many; 3] {
        comparison.fail(&format!("{name}: not {how_many} messages"));
    }
    for ((bits, message), digest) in lens.iter().zip(&messages).zip(&digests) {
        let len = bits.parse::<usize>().expect("a length") / 8;
        let message = &octets_of_hex(message)[..len];
        let expected = Expected::Accepted(len as u64, octets_of_hex(digest));
        comparison.example(&format!("{name}, {len} octets"), Function::Hash, &[message], &[32], &expected);
    }
}

/// SHAVS, 6.4: each of 100 counts hashes a thousand times the last three digests.
fn monte_carlo(comparison: &mut Comparison) {
    let digests = fields(MONTE, "MD");
    if digests.len() != 100 {
        comparison.fail("NIST Monte: not 100 counts");
    }
    let mut reference_seed = octets_of_hex(fields(MONTE, "Seed")[0]);
    let mut our_seed = reference_seed.clone();
    for (count, digest) in digests.iter().enumerate() {
        reference_seed = thousand(reference_seed, |message| second::sha256::sha256(message).to_vec());
        our_seed = thousand(our_seed, |message| {
            let mut label = vec![0; 32];
            let answer = Function::Hash.ours(&[message], &mut [&mut label]);
            if answer == 96 {
                label
            } else {
                vec![0; 32]
            }
        });
        let expected = octets_of_hex(digest);
        comparison.cases += 1;
        if reference_seed != expected {
            comparison.fail(&format!("NIST Monte {count}: the reference's digest differs"));
        }
        if our_seed != expected {
            comparison.fail(&format!("NIST Monte {count}: our digest differs"));
        }
    }
}

fn thousand(seed: Vec<u8>, hash: impl Fn(&[u8]) -> Vec<u8>) -> Vec<u8> {
    let mut last_three = [seed.clone(), seed.clone(), seed];
    for _ in 0..1000 {
        let digest = hash(&last_three.concat());
        last_three.rotate_left(1);
        last_three[2] = digest;
    }
    last_three[2].clone()
}
