//! Drawn codes, and what a line may hold that is no code.

use super::random::Random;
use std::collections::BTreeSet;

const CHARACTERS: &[u8] = b"0123456789ABCDEFGHIJKLMNOPQRSTUVWXYZ";

/// How a list's codes look.
#[derive(Clone, Copy)]
pub enum Style {
    /// 12-7: the codes of households.
    House,
    /// Anything a code may be.
    Any,
    /// All of 20 characters.
    Full,
    /// All alike but for the last three characters, or one the beginning of another.
    Near,
}

pub const STYLES: [Style; 4] = [Style::House, Style::Any, Style::Full, Style::Near];

/// So many different codes, ascending: Rust's order on octet strings puts a beginning
/// before what it begins, as zeros up to 20 do.
pub fn ascending(random: &mut Random, style: Style, how_many: usize) -> Vec<Vec<u8>> {
    let mut codes = BTreeSet::new();
    while codes.len() < how_many {
        codes.insert(code(random, style));
    }
    codes.into_iter().collect()
}

pub fn code(random: &mut Random, style: Style) -> Vec<u8> {
    match style {
        Style::House => format!("{}-{}", random.between(1, 99), random.between(1, 99)).into_bytes(),
        Style::Any => {
            let len = random.between(1, 20);
            of_length(random, len)
        }
        Style::Full => of_length(random, 20),
        Style::Near => {
            let len = random.between(1, 3);
            [&b"ZZ-0000000000-999"[..], &of_length(random, len)].concat()
        }
    }
}

fn of_length(random: &mut Random, len: usize) -> Vec<u8> {
    let mut code = random.octets_from(CHARACTERS, len);
    for at in 1..len.max(1) - 1 {
        if code[at - 1] != b'-' && random.one_in(6) {
            code[at] = b'-';
        }
    }
    code
}

/// A line that is no code, made from one that is.
pub fn no_code(random: &mut Random, code: &[u8]) -> Vec<u8> {
    let at = random.below(code.len() + 1);
    let put = |middle: &[u8]| [&code[..at], middle, &code[at..]].concat();
    match random.below(13) {
        0 => Vec::new(),
        1 => put(b"--"),
        2 => [b"-", code].concat(),
        3 => [code, b"-"].concat(),
        4 => random.pick::<&[u8]>(&[b"-", b"--", b"3--4", b"-3", b"3-", b"3/4", b"04-Mar", b"-1-"]).to_vec(),
        5 => put(b"\r"),
        6 => [code, b"\r"].concat(),
        7 => put(random.pick::<&[u8]>(&[b" ", b"\t", b"/", b":", b"@", b"[", b"`", b"_", b".", b",", b"+"])),
        8 => put(&[random.pick(&[0x00, 0x7f, 0x80, 0xad, 0xb0, 0xc1, 0xff])]),
        9 => put(&[b'a' + random.below(26) as u8]),
        10 => {
            let len = random.between(21, 24);
            of_length(random, len)
        }
        // Lengths that an octet's worth of counting would take for 1 to 20.
        11 => {
            let len = random.between(250, 280);
            of_length(random, len)
        }
        _ => "3\u{2010}4 \u{0663}".as_bytes().to_vec(),
    }
}
