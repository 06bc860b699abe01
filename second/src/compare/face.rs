//! The C face of the library under comparison, and its packed result.

use second::answer::{Accepted, Outcome};
use second::drill::{drill, Drilled};
use second::extractor::Extracted;
use second::profile::{attest, digest, extract, verify, DRILL, FULL};
use second::verdict::Verdict;

/// A function with the number that it takes besides what is lent: the profile, or the bound of
/// a drill.
#[derive(Clone, Copy, Debug, PartialEq, Eq)]
pub enum Function {
    Hash,
    ReadList,
    Digest(u32),
    Attest(u32),
    Verify(u32),
    Extract(u32),
    Drill(u32),
}

// The header's uint32_t is declared as u64 here: `in_its_register` says why.
#[link(name = "sagebutton", kind = "static")]
extern "C" {
    fn sagebutton_hash(msg: *const u8, msg_len: usize, out: *mut u8, out_len: usize) -> u64;
    fn sagebutton_read_list(text: *const u8, text_len: usize, out: *mut u8, out_len: usize) -> u64;
    fn sagebutton_digest(profile: u64, keys: *const u8, keys_len: usize, out: *mut u8, out_len: usize)
        -> u64;
    fn sagebutton_attest(
        profile: u64,
        key: *const u8,
        key_len: usize,
        keys: *const u8,
        keys_len: usize,
        out: *mut u8,
        out_len: usize,
    ) -> u64;
    fn sagebutton_verify(
        profile: u64,
        key: *const u8,
        key_len: usize,
        digest: *const u8,
        digest_len: usize,
        att: *const u8,
        att_len: usize,
    ) -> u64;
    fn sagebutton_extract(
        profile: u64,
        key: *const u8,
        key_len: usize,
        digest: *const u8,
        digest_len: usize,
        first: *const u8,
        first_len: usize,
        second: *const u8,
        second_len: usize,
        out1: *mut u8,
        out1_len: usize,
        out2: *mut u8,
        out2_len: usize,
    ) -> u64;
    fn sagebutton_drill(
        text: *const u8,
        text_len: usize,
        bound: u64,
        out1: *mut u8,
        out1_len: usize,
        out2: *mut u8,
        out2_len: usize,
    ) -> u64;
}

/// A C caller may leave anything in the upper half of the register that hands over a uint32_t,
/// so this does.
fn in_its_register(number: u32) -> u64 {
    0x5a5a_0001 << 32 | u64::from(number)
}

impl Function {
    pub fn name(self) -> &'static str {
        match self {
            Function::Hash => "hash",
            Function::ReadList => "read_list",
            Function::Digest(_) => "digest",
            Function::Attest(_) => "attest",
            Function::Verify(_) => "verify",
            Function::Extract(_) => "extract",
            Function::Drill(_) => "drill",
        }
    }

    /// Which profile, for those that take one.
    pub fn profile(self) -> &'static str {
        match self {
            Function::Hash | Function::ReadList | Function::Drill(_) => "",
            Function::Digest(profile)
            | Function::Attest(profile)
            | Function::Verify(profile)
            | Function::Extract(profile) => match profile {
                FULL => "full",
                DRILL => "drill",
                _ => "unknown",
            },
        }
    }

    /// Our library's packed answer; it writes into the outputs itself. Inputs and outputs
    /// are in the header's order.
    pub fn ours(self, inputs: &[&[u8]], outputs: &mut [&mut [u8]]) -> u64 {
        let lent: Vec<(*const u8, usize)> =
            inputs.iter().map(|input| (input.as_ptr(), input.len())).collect();
        let lent_out: Vec<(*mut u8, usize)> =
            outputs.iter_mut().map(|output| (output.as_mut_ptr(), output.len())).collect();
        // Every pointer is valid for its length and no output overlaps another: they are slices.
        unsafe {
            match (self, &lent[..], &lent_out[..]) {
                (Function::Hash, &[(m, m_len)], &[(out, room)]) => sagebutton_hash(m, m_len, out, room),
                (Function::ReadList, &[(t, t_len)], &[(out, room)]) => {
                    sagebutton_read_list(t, t_len, out, room)
                }
                (Function::Digest(profile), &[(l, l_len)], &[(out, room)]) => {
                    sagebutton_digest(in_its_register(profile), l, l_len, out, room)
                }
                (Function::Attest(profile), &[(x, x_len), (l, l_len)], &[(out, room)]) => {
                    sagebutton_attest(in_its_register(profile), x, x_len, l, l_len, out, room)
                }
                (Function::Verify(profile), &[(x, x_len), (d, d_len), (a, a_len)], &[]) => {
                    sagebutton_verify(in_its_register(profile), x, x_len, d, d_len, a, a_len)
                }
                (
                    Function::Extract(profile),
                    &[(x, x_len), (d, d_len), ref shown @ ..],
                    &[(o, o_len), (p, p_len)],
                ) => {
                    let profile = in_its_register(profile);
                    let [(a, a_len), (b, b_len)] = first_and_second(shown);
                    sagebutton_extract(profile, x, x_len, d, d_len, a, a_len, b, b_len, o, o_len, p, p_len)
                }
                (Function::Drill(bound), &[(t, t_len)], &[(o, o_len), (p, p_len)]) => {
                    sagebutton_drill(t, t_len, in_its_register(bound), o, o_len, p, p_len)
                }
                _ => unreachable!("{} doesn't take so many", self.name()),
            }
        }
    }

    /// The reference's answer for lent outputs of so many octets.
    pub fn reference(self, inputs: &[&[u8]], rooms: &[usize]) -> Outcome {
        match (self, inputs, rooms) {
            (Function::Hash, [message], [room]) => second::sha256::hash(message, *room),
            (Function::ReadList, [text], [room]) => second::list::read_list(text, *room),
            (Function::Digest(profile), [keys], [room]) => digest(profile, keys, *room),
            (Function::Attest(profile), [key, keys], [room]) => attest(profile, key, keys, *room),
            (Function::Verify(profile), [key, digest, attestation], []) => {
                verify(profile, key, digest, attestation).map(judged)
            }
            (Function::Extract(profile), [key, digest, shown @ ..], [one, other]) => {
                extract(profile, key, digest, first_and_second(shown), [*one, *other]).map(extracted)
            }
            (Function::Drill(bound), [text], [one, other]) => drill(text, bound, [*one, *other]).map(drilled),
            _ => unreachable!("{} doesn't take so many", self.name()),
        }
    }
}

/// Of one attestation both: it is lent once and shown twice.
fn first_and_second<T: Copy>(shown: &[T]) -> [T; 2] {
    [shown[0], shown[shown.len() - 1]]
}

/// The header's numbers for a verdict; nothing is written.
pub fn judged(verdict: Verdict) -> Accepted {
    let value = match verdict {
        Verdict::Present => PRESENT,
        Verdict::Absent => ABSENT,
    };
    Accepted { value, written: Vec::new() }
}

/// Answers the levels passed; the first record is written to the first output, the second
/// to the second.
fn extracted(extracted: Extracted) -> Accepted {
    Accepted { value: u64::from(extracted.passed), written: extracted.records.concat() }
}

/// Answers the number, or none; the records are written as the extractor does.
pub fn drilled(drilled: Option<Drilled>) -> Accepted {
    match drilled {
        Some(Drilled { number, records }) => Accepted { value: u64::from(number), written: records.concat() },
        None => Accepted { value: NONE, written: Vec::new() },
    }
}

/// Above every place that a refused verdict can have.
pub const PRESENT: u64 = 65_537;
pub const ABSENT: u64 = 65_536;

/// The header's only answer that has bit 32.
pub const NONE: u64 = 1 << 32;

/// Bits 0 to 31 the value or the place, bits 32 to 47 zero but in a drill's none, bits 48 to 63
/// the number.
pub fn packed(outcome: &Outcome) -> u64 {
    match outcome {
        Ok(accepted) => accepted.value,
        Err(refusal) => u64::from(refusal.number) << 48 | u64::from(refusal.place),
    }
}

pub fn told(packed: u64) -> String {
    let (number, between, low) = (packed >> 48, (packed >> 32) & 0xffff, packed & 0xffff_ffff);
    match (number, between) {
        _ if packed == NONE => "none".to_string(),
        (0, 0) => format!("accepted {low}"),
        (_, 0) => format!("refused {number} {low}"),
        _ => format!("number {number}, value or place {low}, bits 32 to 47 hold {between}"),
    }
}
