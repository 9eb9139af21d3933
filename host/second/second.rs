//! The second program: documents 01 and 02 (A1, A2, A4, A5, A6, A7, A8) written down once more, from
//! their text alone. A3 changes nothing that is seen.
//!
//! It shares no code with the proved crates and follows another plan: it parses a proof into its
//! components before it looks at any, a van's log into its entries, and two stores that should agree
//! into their elements, keeps paths and messages in vectors, forms a trie level by level from the
//! leaves up, and answers with `Result`. The comparisons in `host/compare` hold every call of the
//! proved library to it.
//!
//! Words in quotation marks are sentences of document 01; in [`trie`], [`saved`], [`sealed`] and
//! [`copies`], and where a proof broke, of document 02; and in [`mac`] of RFC 2104. Where 01 prints
//! the limit or the number of rows, A7 has moved it. Every call that hashes is generic over the
//! hash, so that the stand-in can take the place of SHA-256.

pub mod copies;
pub mod dispute;
pub mod hash;
pub mod held;
pub mod mac;
pub mod message;
pub mod path;
pub mod program;
pub mod proof;
pub mod refusal;
pub mod saved;
pub mod sealed;
pub mod store;
pub mod trie;

#[cfg(test)]
mod copies_tests;
#[cfg(test)]
mod ends_tests;
#[cfg(test)]
mod place_tests;
#[cfg(test)]
mod saved_tests;
#[cfg(test)]
mod sealed_tests;
#[cfg(test)]
mod tests;
#[cfg(test)]
mod trie_tests;

/// "A digest is 32 bytes."
pub type Digest = [u8; 32];

/// "An entry is 0 to 4,096 bytes."
pub const ENTRY_MOST: usize = 4096;

/// 01's elements are "numbered from 1. Number 0 is the start." 02, A7: "Raise the element limit to
/// 4,294,967,295."
pub const LIMIT: u64 = 4_294_967_295;

/// The levels of hops, of links and of rows: those whose power of two is within the limit.
pub const LEVELS: u32 = 32;
