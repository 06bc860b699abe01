//! Ordinary Rust for the same jobs: plain scalar safe code, as one writes it for speed
//! without intrinsics.

pub mod attestation;
pub mod contradiction;
pub mod drill;
pub mod sha256;
pub mod tree;
pub mod verdict;
