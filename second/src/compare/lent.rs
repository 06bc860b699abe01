//! A lent slice with guard octets around it, so that a write or a read beyond it shows.

use super::random::Random;

/// An input, and the octets that were cut off from its end, if any.
#[derive(Clone, Copy)]
pub struct Input<'a> {
    pub octets: &'a [u8],
    cut_off: &'a [u8],
}

impl<'a> Input<'a> {
    pub fn whole(octets: &'a [u8]) -> Input<'a> {
        Input { octets, cut_off: &[] }
    }

    pub fn cut(octets: &'a [u8], len: usize) -> Input<'a> {
        let (octets, cut_off) = octets.split_at(len);
        Input { octets, cut_off }
    }
}

pub struct Lent {
    octets: Vec<u8>,
    start: usize,
    end: usize,
}

impl Lent {
    /// An output of random octets.
    pub fn output(random: &mut Random, len: usize) -> Lent {
        let inside = random.octets(len);
        let (before, after) = (random.between(16, 31), random.between(16, 31));
        let (before, after) = (random.octets(before), random.octets(after));
        Lent::joined(before, &inside, after)
    }

    /// An input. Its guards often look like more input: a reader that runs over the end
    /// would then find the octets cut off, or the LF, digit or code, the count or label
    /// that is missing.
    pub fn input(random: &mut Random, input: &Input) -> Lent {
        let before = random.between(16, 31);
        let before = random.octets(before);
        let after = match random.below(6) {
            0 => random.octets(16),
            1 => b"\nZ\nZZ\nZZZ\nZZZZ\nZZZZZ\n".to_vec(),
            2 => b"Z\nZZ\nZZZ\nZZZZ\nZZZZZ\n".to_vec(),
            3 => vec![0; 40],
            4 => [&[1], &random.octets(32)[..], &[0; 7]].concat(),
            _ => random.octets_from(b"\n0123456789AZ-", 24),
        };
        Lent::joined(before, input.octets, [input.cut_off, &after].concat())
    }

    fn joined(before: Vec<u8>, inside: &[u8], after: Vec<u8>) -> Lent {
        let (start, end) = (before.len(), before.len() + inside.len());
        let octets = [&before[..], inside, &after].concat();
        Lent { octets, start, end }
    }

    pub fn inside(&self) -> &[u8] {
        &self.octets[self.start..self.end]
    }

    pub fn inside_mut(&mut self) -> &mut [u8] {
        &mut self.octets[self.start..self.end]
    }

    /// What this ought to be after a call that writes these octets at the front.
    pub fn with(&self, written: &[u8]) -> Lent {
        let mut octets = self.octets.clone();
        octets[self.start..self.start + written.len()].copy_from_slice(written);
        Lent { octets, start: self.start, end: self.end }
    }

    /// Says where this first differs, guards included, if it does.
    pub fn difference(&self, expected: &Lent) -> Option<String> {
        let at = self.octets.iter().zip(&expected.octets).position(|(is, ought)| is != ought)?;
        let (is, ought) = (self.octets[at], expected.octets[at]);
        let part = match at {
            _ if at < self.start => format!("guard octet {} before it", self.start - at),
            _ if at < self.end => format!("octet {}", at - self.start),
            _ => format!("guard octet {} after it", at - self.end + 1),
        };
        Some(format!("{part} is {is:02x}, not {ought:02x}"))
    }
}
