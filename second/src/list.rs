//! Codes, their keys, and the list as text: document 01, "Keys and codes" and "The list as
//! text", its refusals in its order.

use crate::answer::*;

/// A key is any 20 octets. Rust's order on arrays of u8 is document 01's: octet by octet
/// from the first, as unsigned numbers.
pub type Key = [u8; 20];

pub const TEXT_TOO_LONG: &str = "text too long";
pub const FIRST_MALFORMED: &str = "first line malformed";
pub const FIRST_NO_LF: &str = "first line not ended by LF";
pub const SECOND_MALFORMED: &str = "second line malformed";
pub const SECOND_NO_LF: &str = "second line not ended by LF";
pub const COUNT_0: &str = "count 0";
pub const COUNT_OVER_3000: &str = "count over 3,000";
pub const BUFFER_SHORT: &str = "buffer shorter than 20 times the count";
pub const NO_LF: &str = "no LF before the end of the text";
pub const NO_LINE: &str = "no line at all";
pub const NO_CODE: &str = "not a code";
pub const NOT_ABOVE: &str = "not above the code before";
pub const LEFT_OVER: &str = "octets left over";

/// Reading answers the count and writes 20 octets per key. `room` is the length of the
/// lent buffer.
pub fn read_list(text: &[u8], room: usize) -> Outcome {
    let keys = keys_of_text(text, room)?;
    Ok(Accepted { value: keys.len() as u64, written: keys.concat() })
}

fn keys_of_text(text: &[u8], room: usize) -> Result<Vec<Key>, Refusal> {
    if text.len() > 65_535 {
        return Err(refuse(SIZE, 0, TEXT_TOO_LONG));
    }
    let mut lines = Lines { rest: text };
    let count = head(&mut lines)?;
    if count == 0 {
        return Err(refuse(NO_KEYS, 2, COUNT_0));
    }
    if count > 3_000 {
        return Err(refuse(OVER_3000_KEYS, 2, COUNT_OVER_3000));
    }
    if room < 20 * count {
        return Err(refuse(OUTPUT_TOO_SHORT, 0, BUFFER_SHORT));
    }
    let mut keys: Vec<Key> = Vec::new();
    for line in 3..count + 3 {
        let key = key_of_line(&mut lines, line)?;
        if keys.last().is_some_and(|before| key <= *before) {
            return Err(refuse(NOT_ASCENDING, line, NOT_ABOVE));
        }
        keys.push(key);
    }
    if !lines.rest.is_empty() {
        return Err(refuse(LINES_AND_COUNT, count + 3, LEFT_OVER));
    }
    Ok(keys)
}

/// The first line is exactly `codes`; the second is the count.
fn head(lines: &mut Lines) -> Result<usize, Refusal> {
    let Some(first) = lines.next() else {
        return Err(refuse(FIRST_OR_SECOND_LINE, 1, FIRST_NO_LF));
    };
    if first != b"codes" {
        return Err(refuse(FIRST_OR_SECOND_LINE, 1, FIRST_MALFORMED));
    }
    let Some(second) = lines.next() else {
        return Err(refuse(FIRST_OR_SECOND_LINE, 2, SECOND_NO_LF));
    };
    count(second).ok_or(refuse(FIRST_OR_SECOND_LINE, 2, SECOND_MALFORMED))
}

/// The count in decimal: 1 to 5 digits, no leading zero, except that `0` itself is well
/// formed.
fn count(line: &[u8]) -> Option<usize> {
    let digits = (1..=5).contains(&line.len()) && line.iter().all(u8::is_ascii_digit);
    let leading_zero = line.len() > 1 && line[0] == b'0';
    if !digits || leading_zero {
        return None;
    }
    Some(line.iter().fold(0, |number, digit| 10 * number + usize::from(digit - b'0')))
}

fn key_of_line(lines: &mut Lines, line: usize) -> Result<Key, Refusal> {
    if lines.rest.is_empty() {
        return Err(refuse(LINES_AND_COUNT, line, NO_LINE));
    }
    let Some(code) = lines.next() else {
        return Err(refuse(LINES_AND_COUNT, line, NO_LF));
    };
    key_of_code(code).ok_or(refuse(NOT_A_CODE, line, NO_CODE))
}

/// A code's key is its ASCII octets, then zeros up to 20.
pub fn key_of_code(code: &[u8]) -> Option<Key> {
    if !is_code(code) {
        return None;
    }
    let mut key = [0; 20];
    key[..code.len()].copy_from_slice(code);
    Some(key)
}

/// A code is 1 to 20 characters from 0-9, A-Z and hyphen; a hyphen is neither first nor
/// last, nor next to another.
fn is_code(line: &[u8]) -> bool {
    let permitted = |c: &u8| matches!(c, b'0'..=b'9' | b'A'..=b'Z' | b'-');
    (1..=20).contains(&line.len())
        && line.iter().all(permitted)
        && !line.starts_with(b"-")
        && !line.ends_with(b"-")
        && !line.windows(2).any(|two| two == b"--")
}

/// Each line ends in one LF; what stands after the last LF is no line.
struct Lines<'a> {
    rest: &'a [u8],
}

impl<'a> Lines<'a> {
    fn next(&mut self) -> Option<&'a [u8]> {
        let end = self.rest.iter().position(|octet| *octet == b'\n')?;
        let line = &self.rest[..end];
        self.rest = &self.rest[end + 1..];
        Some(line)
    }
}
