//! How much stack our functions take: the stack below a call is painted, and after the call
//! the deepest octet that is no longer paint is looked for.

use super::face::{
    sagebutton_attest, sagebutton_digest, sagebutton_drill, sagebutton_extract, sagebutton_hash,
    sagebutton_read_list, sagebutton_verify, DRILL, FULL,
};
use super::ordinary::{contradiction, verdict::last_label};
use std::arch::asm;
use std::process::ExitCode;
use std::thread;

/// A function of the C face and its arguments, with which it accepts. The first six are put
/// in registers, the next eight on the stack above the call.
type Call = (*const (), [usize; 14]);

const PAINTED: usize = 256 * 1024;

/// A stack of our own that the paint fits into.
const STACK: usize = 4 * PAINTED;

pub fn run(keys: &[u8]) -> ExitCode {
    thread::scope(|scope| {
        let measuring = thread::Builder::new().stack_size(STACK).spawn_scoped(scope, || table(keys));
        measuring.expect("a thread").join().expect("measuring doesn't panic")
    })
}

fn table(keys: &[u8]) -> ExitCode {
    // Only its return address: the paint begins where the call does.
    if taken(call(nothing as *const (), &[], &[])) != 8 {
        println!("the measure is off");
        return ExitCode::FAILURE;
    }
    println!("| call | stack, octets |");
    println!("|---|---|");
    println!("| hash of 65,535 octets | {} |", of_hash());
    println!("| reading of 3,000 codes | {} |", of_read_list());
    println!("| digest of 3,000 keys | {} |", of_digest(keys));
    println!("| attestation over 3,000 keys | {} |", of_attest(keys));
    println!("| verification of 32 levels, 1,731 octets | {} |", of_verify());
    println!("| extraction from 32 levels, at the foot | {} |", of_extract());
    println!("| drill with 3-4 | {} |", of_drill());
    ExitCode::SUCCESS
}

extern "C" fn nothing() -> u64 {
    0
}

fn of_hash() -> usize {
    let (message, mut output) = ([0x61; 65_535], [0; 32]);
    taken(call(sagebutton_hash as *const (), &[], &[lent(&message), lent_output(&mut output)]))
}

fn of_read_list() -> usize {
    let codes: String = (1_000..4_000).map(|number| format!("1-{number}\n")).collect();
    let (text, mut output) = (format!("codes\n3000\n{codes}"), [0; 60_000]);
    taken(call(sagebutton_read_list as *const (), &[], &[lent(text.as_bytes()), lent_output(&mut output)]))
}

fn of_digest(keys: &[u8]) -> usize {
    let mut output = [0; 32];
    taken(call(sagebutton_digest as *const (), &[FULL], &[lent(keys), lent_output(&mut output)]))
}

/// The most over keys of all levels, the deepest among them.
fn of_attest(keys: &[u8]) -> usize {
    let mut output = [0; 586];
    let out = lent_output(&mut output);
    let of_key =
        |key: &[u8]| taken(call(sagebutton_attest as *const (), &[FULL], &[lent(key), lent(keys), out]));
    keys.chunks_exact(20).step_by(100).chain([&keys[keys.len() - 20..]]).map(of_key).max().expect("a key")
}

/// An attestation with every label there, accepted.
fn of_verify() -> usize {
    let (x, digest, octets) = longest();
    taken(call(sagebutton_verify as *const (), &[FULL], &[lent(&x), lent(&digest), lent(&octets)]))
}

/// A contradiction in the drill, so that the walk goes down to the foot.
fn of_extract() -> usize {
    let input = contradiction::at_the_foot();
    let (x, digest, first, second) = contradiction::parts(&input);
    let [mut out1, mut out2] = [[0; 85]; 2];
    let outputs = [lent_output(&mut out1), lent_output(&mut out2)];
    let lent = [lent(x), lent(digest), lent(first), lent(second), outputs[0], outputs[1]];
    taken(call(sagebutton_extract as *const (), &[DRILL], &lent))
}

/// The bound stands between the text and the outputs.
fn of_drill() -> usize {
    let [mut out1, mut out2] = [[0; 85]; 2];
    let [text, len] = lent(b"codes\n1\n3-4\n");
    let outputs = [lent_output(&mut out1), lent_output(&mut out2)];
    let mut arguments = [0; 14];
    arguments[..3].copy_from_slice(&[text, len, 1 << 20]);
    arguments[3..7].copy_from_slice(&outputs.concat());
    taken((sagebutton_drill as *const (), arguments))
}

/// A key, a digest, and an attestation that is accepted for them.
fn longest() -> ([u8; 20], [u8; 32], Vec<u8>) {
    let keys: Vec<u8> = (1..=32).flat_map(|octet| [octet; 20]).collect();
    let labels: Vec<Vec<u8>> = (0..33).map(|octet| [&[1], &[octet; 32][..]].concat()).collect();
    let octets = [&[32][..], &keys, &labels[..2].concat(), &[31], &labels[2..].concat()].concat();
    let digest = last_label::<1, 32>(&keys[..20], &octets).expect("a sound form");
    assert_eq!(octets.len(), 1_731);
    ([1; 20], digest, octets)
}

/// A call with the profile first.
fn call(function: *const (), profile: &[u32], lent: &[[usize; 2]]) -> Call {
    let mut arguments = [0; 14];
    let given: Vec<usize> = profile.iter().map(|number| *number as usize).chain(lent.concat()).collect();
    arguments[..given.len()].copy_from_slice(&given);
    (function, arguments)
}

fn lent(octets: &[u8]) -> [usize; 2] {
    [octets.as_ptr() as usize, octets.len()]
}

fn lent_output(octets: &mut [u8]) -> [usize; 2] {
    [octets.as_mut_ptr() as usize, octets.len()]
}

/// With two paints, since a call may write an octet that is the same as one. The first call
/// goes unmeasured: it may be the one that makes ready what all later ones use.
fn taken(call: Call) -> usize {
    // The arguments are slices that outlive the call; the thread's stack is STACK long.
    unsafe {
        below(call, 0x00);
        below(call, 0xa5).max(below(call, 0x5a))
    }
}

/// Octets from the call's return address down to the deepest octet written.
#[inline(never)]
unsafe fn below((function, arguments): Call, paint: u8) -> usize {
    let [a, b, c, d, e, f, above @ ..] = arguments;
    let (top, answer): (*mut u8, u64);
    asm!("lea {}, [rsp - 64]", out(reg) top);
    for depth in 1..=PAINTED {
        top.sub(depth).write_volatile(paint);
    }
    asm!(
        "push qword ptr [{0} + 56]", "push qword ptr [{0} + 48]", "push qword ptr [{0} + 40]",
        "push qword ptr [{0} + 32]", "push qword ptr [{0} + 24]", "push qword ptr [{0} + 16]",
        "push qword ptr [{0} + 8]", "push qword ptr [{0}]", "call {1}", "add rsp, 64", in(reg) above.as_ptr(), in(reg) function, in("rdi") a, in("rsi") b, in("rdx") c,
        in("rcx") d, in("r8") e, in("r9") f, lateout("rax") answer, clobber_abi("C"),
    );
    let deepest = (1..=PAINTED).rev().find(|depth| top.sub(*depth).read_volatile() != paint);
    assert_eq!(answer >> 32, 0);
    deepest.unwrap_or(0)
}
