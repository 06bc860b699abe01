//! The C face of our library, and its functions as safe ones that answer like the ordinary
//! ones. A job of several inputs takes them one after the other, those of fixed size first.

use super::ordinary::contradiction;

pub const FULL: u32 = 0;

/// Labels of 2 octets, under which there are contradictions.
pub const DRILL: u32 = 1;

/// The numbers of the two verdicts.
pub const PRESENT: usize = 65_537;
pub const ABSENT: usize = 65_536;

#[link(name = "sagebutton", kind = "static")]
extern "C" {
    pub fn sagebutton_hash(msg: *const u8, msg_len: usize, out: *mut u8, out_len: usize) -> u64;
    pub fn sagebutton_read_list(text: *const u8, text_len: usize, out: *mut u8, out_len: usize) -> u64;
    pub fn sagebutton_digest(
        profile: u32,
        keys: *const u8,
        keys_len: usize,
        out: *mut u8,
        out_len: usize,
    ) -> u64;
    pub fn sagebutton_attest(
        profile: u32,
        key: *const u8,
        key_len: usize,
        keys: *const u8,
        keys_len: usize,
        out: *mut u8,
        out_len: usize,
    ) -> u64;
    pub fn sagebutton_verify(
        profile: u32,
        key: *const u8,
        key_len: usize,
        digest: *const u8,
        digest_len: usize,
        att: *const u8,
        att_len: usize,
    ) -> u64;
    pub fn sagebutton_extract(
        profile: u32,
        key: *const u8,
        key_len: usize,
        digest: *const u8,
        digest_len: usize,
        first: *const u8,
        first_len: usize,
        second: *const u8,
        second_len: usize,
        out1: *mut u8,
        out1_len: usize,
        out2: *mut u8,
        out2_len: usize,
    ) -> u64;
    pub fn sagebutton_drill(
        text: *const u8,
        text_len: usize,
        bound: u32,
        out1: *mut u8,
        out1_len: usize,
        out2: *mut u8,
        out2_len: usize,
    ) -> u64;
}

pub fn hash(message: &[u8], output: &mut [u8]) -> Option<usize> {
    // Slices are valid for their lengths, and an exclusive one overlaps nothing.
    accepted(unsafe { sagebutton_hash(message.as_ptr(), message.len(), output.as_mut_ptr(), output.len()) })
}

pub fn digest(keys: &[u8], output: &mut [u8]) -> Option<usize> {
    // As above.
    accepted(unsafe { sagebutton_digest(FULL, keys.as_ptr(), keys.len(), output.as_mut_ptr(), output.len()) })
}

/// The input is a key and then the key list.
pub fn attest(input: &[u8], output: &mut [u8]) -> Option<usize> {
    let (key, keys) = input.split_at(20);
    let (out, room) = (output.as_mut_ptr(), output.len());
    // As above.
    accepted(unsafe {
        sagebutton_attest(FULL, key.as_ptr(), key.len(), keys.as_ptr(), keys.len(), out, room)
    })
}

/// The input is a key, a digest and then the attestation. Answers PRESENT or ABSENT.
pub fn verify(input: &[u8], _: &mut [u8]) -> Option<usize> {
    let (key, rest) = input.split_at(20);
    let (digest, att) = rest.split_at(32);
    let (d, d_len) = (digest.as_ptr(), digest.len());
    // As above.
    accepted(unsafe { sagebutton_verify(FULL, key.as_ptr(), key.len(), d, d_len, att.as_ptr(), att.len()) })
}

/// The input is a key, a digest, the first attestation's length in 2 octets, and the two
/// attestations, in the drill; the output is the two records.
pub fn extract(input: &[u8], output: &mut [u8]) -> Option<usize> {
    let (key, digest, first, second) = contradiction::parts(input);
    let (out1, out2) = output.split_at_mut(85);
    // As above.
    accepted(unsafe {
        sagebutton_extract(
            DRILL,
            key.as_ptr(),
            key.len(),
            digest.as_ptr(),
            digest.len(),
            first.as_ptr(),
            first.len(),
            second.as_ptr(),
            second.len(),
            out1.as_mut_ptr(),
            out1.len(),
            out2.as_mut_ptr(),
            out2.len(),
        )
    })
}

/// The input is a list's text; the output is the two records.
pub fn drill(text: &[u8], output: &mut [u8]) -> Option<usize> {
    let (out1, out2) = output.split_at_mut(85);
    let (first, second) = (out1.as_mut_ptr(), out2.as_mut_ptr());
    // As above.
    accepted(unsafe {
        sagebutton_drill(text.as_ptr(), text.len(), 1 << 20, first, out1.len(), second, out2.len())
    })
}

/// Bits 48 to 63 are the refusal number, 0 for accepted; bit 32 says that the drill found
/// none; bits 0 to 31 are the value.
fn accepted(packed: u64) -> Option<usize> {
    (packed >> 32 == 0).then_some(packed as u32 as usize)
}
