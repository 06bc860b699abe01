//! SHA-256 as FIPS 180-4 sections 4 to 6 say it, and the hash as document 01 offers it.

use crate::answer::{refuse, Accepted, Outcome, SIZE};

pub type Label = [u8; 32];

pub const MESSAGE_TOO_LONG: &str = "a message over 65,535 octets";
pub const OUTPUT_NOT_32: &str = "an output not of 32 octets";

/// Document 01: the hash is also offered by itself, for messages of 0 to 65,535 octets.
/// `room` is the length of the lent output.
pub fn hash(message: &[u8], room: usize) -> Outcome {
    if message.len() > 65_535 {
        return Err(refuse(SIZE, 0, MESSAGE_TOO_LONG));
    }
    if room != 32 {
        return Err(refuse(SIZE, 0, OUTPUT_NOT_32));
    }
    let value = message.len() as u64;
    Ok(Accepted { value, written: sha256(message).to_vec() })
}

/// FIPS 180-4, 6.2: SHA-256 of a message of any length.
pub fn sha256(message: &[u8]) -> Label {
    let mut state = initial_hash_value();
    for block in padded(message).chunks(64) {
        state = compressed(state, block);
    }
    let mut label = [0; 32];
    for (octets, word) in label.chunks_mut(4).zip(state) {
        octets.copy_from_slice(&word.to_be_bytes());
    }
    label
}

/// 5.1.1: the message, a one bit, the least number of zero bits, the length in bits.
fn padded(message: &[u8]) -> Vec<u8> {
    let mut octets = message.to_vec();
    octets.push(0x80);
    while octets.len() % 64 != 56 {
        octets.push(0);
    }
    octets.extend((8 * message.len() as u64).to_be_bytes());
    octets
}

/// 6.2.2: one block changes the state.
fn compressed(state: [u32; 8], block: &[u8]) -> [u32; 8] {
    let schedule = message_schedule(block);
    let [mut a, mut b, mut c, mut d, mut e, mut f, mut g, mut h] = state;
    for t in 0..64 {
        let t1 = sum(&[h, big_sigma_1(e), ch(e, f, g), K[t], schedule[t]]);
        let t2 = sum(&[big_sigma_0(a), maj(a, b, c)]);
        (h, g, f, e) = (g, f, e, sum(&[d, t1]));
        (d, c, b, a) = (c, b, a, sum(&[t1, t2]));
    }
    let working = [a, b, c, d, e, f, g, h];
    std::array::from_fn(|i| sum(&[state[i], working[i]]))
}

/// 6.2.2, step 1.
fn message_schedule(block: &[u8]) -> [u32; 64] {
    let mut w = [0; 64];
    for t in 0..16 {
        let octets = [block[4 * t], block[4 * t + 1], block[4 * t + 2], block[4 * t + 3]];
        w[t] = u32::from_be_bytes(octets);
    }
    for t in 16..64 {
        w[t] = sum(&[small_sigma_1(w[t - 2]), w[t - 7], small_sigma_0(w[t - 15]), w[t - 16]]);
    }
    w
}

/// Additions inside SHA-256 are modulo 2^32.
fn sum(words: &[u32]) -> u32 {
    words.iter().fold(0, |total, word| total.wrapping_add(*word))
}

/// 3.2: rotation to the right.
fn rotr(n: u32, x: u32) -> u32 {
    (x >> n) | (x << (32 - n))
}

// 4.1.2: the six functions.

fn ch(x: u32, y: u32, z: u32) -> u32 {
    (x & y) ^ (!x & z)
}

fn maj(x: u32, y: u32, z: u32) -> u32 {
    (x & y) ^ (x & z) ^ (y & z)
}

fn big_sigma_0(x: u32) -> u32 {
    rotr(2, x) ^ rotr(13, x) ^ rotr(22, x)
}

fn big_sigma_1(x: u32) -> u32 {
    rotr(6, x) ^ rotr(11, x) ^ rotr(25, x)
}

fn small_sigma_0(x: u32) -> u32 {
    rotr(7, x) ^ rotr(18, x) ^ (x >> 3)
}

fn small_sigma_1(x: u32) -> u32 {
    rotr(17, x) ^ rotr(19, x) ^ (x >> 10)
}

/// 4.2.2: of the cube roots of the first sixty-four primes, the first 32 bits of the
/// fractions. Worked out, not copied, so that no table is shared with the code compared.
const K: [u32; 64] = fractions_of_roots(3);

/// 5.3.3: the same of the square roots of the first eight primes.
fn initial_hash_value() -> [u32; 8] {
    const FRACTIONS: [u32; 64] = fractions_of_roots(2);
    std::array::from_fn(|i| FRACTIONS[i])
}

const fn fractions_of_roots(degree: u32) -> [u32; 64] {
    let mut fractions = [0; 64];
    let (mut found, mut candidate) = (0, 2);
    while found < 64 {
        if is_prime(candidate) {
            // Cutting the whole part away is what the narrowing does.
            fractions[found] = root_times_2_to_32(candidate, degree) as u32;
            found += 1;
        }
        candidate += 1;
    }
    fractions
}

const fn is_prime(n: u128) -> bool {
    let mut divisor = 2;
    while divisor * divisor <= n {
        if n % divisor == 0 {
            return false;
        }
        divisor += 1;
    }
    true
}

/// The greatest x with x^degree at most n * 2^(32 * degree), found bit by bit.
const fn root_times_2_to_32(n: u128, degree: u32) -> u128 {
    let mut root = 0;
    let mut bit: u128 = 1 << 40;
    while bit > 0 {
        if (root + bit).pow(degree) <= n << (32 * degree) {
            root += bit;
        }
        bit >>= 1;
    }
    root
}
