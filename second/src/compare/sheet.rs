//! A list as text, still in its parts, so that each part can be damaged by itself.

use super::codes::{ascending, STYLES};
use super::random::Random;

#[derive(Clone)]
pub struct Sheet {
    pub first: Vec<u8>,
    pub second: Vec<u8>,
    pub codes: Vec<Vec<u8>>,
    /// What follows the last line's LF.
    pub after: Vec<u8>,
}

impl Sheet {
    pub fn of(codes: Vec<Vec<u8>>) -> Sheet {
        let second = codes.len().to_string().into_bytes();
        Sheet { first: b"codes".to_vec(), second, codes, after: Vec::new() }
    }

    pub fn drawn(random: &mut Random, how_many: usize) -> Sheet {
        let style = STYLES[random.below(STYLES.len())];
        Sheet::of(ascending(random, style, how_many))
    }

    pub fn text(&self) -> Vec<u8> {
        let lines = [&self.first, &self.second].into_iter().chain(&self.codes);
        let mut text: Vec<u8> = lines.flat_map(|line| [&line[..], b"\n"].concat()).collect();
        text.extend(&self.after);
        text
    }
}

/// The count that a text states, as far as one can be guessed, to draw buffers around it.
pub fn stated_count(text: &[u8]) -> usize {
    let second = text.split(|octet| *octet == b'\n').nth(1).unwrap_or(b"");
    let digits = String::from_utf8_lossy(second);
    digits.trim().parse().unwrap_or(1).min(3_001)
}
