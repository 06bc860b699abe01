//! Our library against ordinary Rust. All sides do the same job on the same octets in
//! turns, in one process; a ratio is the median of the ratios of turns side by side.
//! `bench stack` measures instead how much stack ours takes.

mod face;
mod ordinary;
mod stack;

use ordinary::{attestation, contradiction, drill, sha256, tree, verdict};
use std::hint::black_box;
use std::process::ExitCode;
use std::time::Instant;

/// A job takes an input and an output and answers the value, or None where it refuses.
type Job = fn(&[u8], &mut [u8]) -> Option<usize>;

/// Ours; Rust with one round in the loop's body; Rust with eight.
type Sides<T> = [T; 3];

struct Case {
    name: &'static str,
    jobs: Sides<Job>,
    input: Vec<u8>,
    room: usize,
}

const HASH: Sides<Job> = [face::hash, sha256::hash::<1>, sha256::hash::<8>];
const DIGEST: Sides<Job> = [face::digest, tree::digest::<1>, tree::digest::<8>];
const ATTEST: Sides<Job> = [face::attest, attestation::attest::<1>, attestation::attest::<8>];
const VERIFY: Sides<Job> = [face::verify, verdict::verify::<1>, verdict::verify::<8>];
const EXTRACT: Sides<Job> = [face::extract, contradiction::extract::<1>, contradiction::extract::<8>];
const DRILL: Sides<Job> = [face::drill, drill::drill::<1>, drill::drill::<8>];

/// Odd, so that there is a middle one.
const LAPS: usize = 151;

/// A turn repeats the job until it has lasted about so long.
const TURN_NS: f64 = 2_000_000.0;

fn cases() -> Vec<Case> {
    let case = |name, jobs, input, room| Case { name, jobs, input, room };
    let keys = ascending_keys(3_000);
    let attested = [&keys[..20], &keys].concat();
    let verified = deepest(&keys);
    vec![
        case("hash of 85 octets", HASH, octets(85), 32),
        case("hash of 117 octets", HASH, octets(117), 32),
        case("hash of 65,535 octets", HASH, octets(65_535), 32),
        case("digest of 3,000 keys", DIGEST, keys, 32),
        case("attestation over 3,000 keys", ATTEST, attested, 586),
        case("verification of a 12-level attestation", VERIFY, verified, 0),
        case("extraction from 32 levels, at the foot", EXTRACT, contradiction::at_the_foot(), 170),
        case("drill with 3-4, 16,402 numbers", DRILL, b"codes\n1\n3-4\n".to_vec(), 170),
    ]
}

/// The first key, which has the most keys above it, the digest and the attestation.
fn deepest(keys: &[u8]) -> Vec<u8> {
    let (mut digest, mut octets) = (vec![0; 32], vec![0; 586]);
    tree::digest::<1>(keys, &mut digest).expect("the keys ascend");
    let len = attestation::attest::<1>(&[&keys[..20], keys].concat(), &mut octets).expect("586 suffice");
    assert_eq!(octets[0], 12, "the first of 3,000 keys is on level 12");
    [&keys[..20], &digest, &octets[..len]].concat()
}

fn main() -> ExitCode {
    match std::env::args().nth(1).as_deref() {
        None => speed(),
        Some("stack") => stack::run(&ascending_keys(3_000)),
        Some(_) => {
            eprintln!("usage: bench [stack]");
            ExitCode::FAILURE
        }
    }
}

fn speed() -> ExitCode {
    println!("| case | ours, ns | Rust, ns | ratio | Rust by 8 rounds, ns | ratio |");
    println!("|---|---|---|---|---|---|");
    for case in cases() {
        if !agree(&case) {
            println!("{}: the sides do not agree", case.name);
            return ExitCode::FAILURE;
        }
        let laps = laps(&case);
        let ns = |side: usize| median(laps.iter().map(|lap| lap[side]));
        let ratio = |side: usize| median(laps.iter().map(|lap| lap[0] / lap[side]));
        let (ours, rust, rust_by_8) = (ns(0), ns(1), ns(2));
        let (name, ratio, ratio_by_8) = (case.name, ratio(1), ratio(2));
        println!("| {name} | {ours:.0} | {rust:.0} | {ratio:.3} | {rust_by_8:.0} | {ratio_by_8:.3} |");
    }
    println!();
    println!("Times are medians of {LAPS} turns, ratios medians of {LAPS} ratios within a lap; a lap is one");
    println!("turn of each side. Buffers are set up before the clock starts and are cleared by no side.");
    ExitCode::SUCCESS
}

/// Octets without a pattern: the high octets of a linear congruential generator.
fn octets(len: usize) -> Vec<u8> {
    let mut state = 1_u64;
    let mut next = || {
        state = state.wrapping_mul(6_364_136_223_846_793_005).wrapping_add(1_442_695_040_888_963_407);
        (state >> 56) as u8
    };
    (0..len).map(|_| next()).collect()
}

fn ascending_keys(how_many: usize) -> Vec<u8> {
    let drawn = octets(20 * how_many);
    let mut keys: Vec<&[u8]> = drawn.chunks_exact(20).collect();
    keys.sort();
    keys.concat()
}

/// All sides accept, answer the same and write the same octets.
fn agree(case: &Case) -> bool {
    let results = case.jobs.map(|job| {
        let mut output = vec![0x55; case.room];
        (job(&case.input, &mut output), output)
    });
    results[0].0.is_some() && results.iter().all(|result| *result == results[0])
}

/// Nanoseconds of each side, lap by lap. Who goes first changes, lest the order favour one.
fn laps(case: &Case) -> Vec<Sides<f64>> {
    let repeats = (TURN_NS / turn(case.jobs[1], case, 3)).ceil() as usize;
    let lap = |number: usize| {
        let mut ns = [0.0; 3];
        for turns in 0..3 {
            let side = (number + turns) % 3;
            ns[side] = turn(case.jobs[side], case, repeats);
        }
        ns
    };
    (0..LAPS).map(lap).collect()
}

/// Nanoseconds per job over so many jobs in a row.
fn turn(job: Job, case: &Case, repeats: usize) -> f64 {
    let mut output = vec![0; case.room];
    let started = Instant::now();
    for _ in 0..repeats {
        black_box(job(black_box(&case.input), black_box(&mut output)));
    }
    started.elapsed().as_nanos() as f64 / repeats as f64
}

fn median(numbers: impl Iterator<Item = f64>) -> f64 {
    let mut numbers: Vec<f64> = numbers.collect();
    numbers.sort_by(f64::total_cmp);
    numbers[numbers.len() / 2]
}
