//! The reference: document 01 with change request (vi) written a second time, in Rust, from the
//! documents alone. It is meant to be read beside them; it is neither fast nor sparing.

pub mod answer;
pub mod attestation;
pub mod drill;
pub mod extractor;
pub mod form;
pub mod list;
pub mod profile;
pub mod sha256;
pub mod tree;
pub mod verdict;
