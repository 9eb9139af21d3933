//! Two copies of a log, document 02, A8: "Two stores that should agree."
//!
//! Words in quotation marks are A8's. Each store is taken apart first, into the elements that it
//! holds; what stands in open room, and how much of it there is, is gone by then. The first pair of
//! elements that are not alike decides; where there is none, the lengths do.

use std::cmp::Ordering;

use crate::refusal::{refuse, Answer, OTHER_LOG};
use crate::store::{Log, HEADER, RECORD, STATE};

/// The bytes of an element in a store, d and T: "its 64".
pub const ELEMENT: usize = STATE;

/// What two stores of one log number are to each other.
#[derive(Debug, Clone, Copy, PartialEq, Eq)]
pub enum Compared {
    /// "they are equal"
    Equal,
    /// "one is the start of the other": the first store is that of the second.
    FirstShorter,
    /// The same the other way round: "and which".
    SecondShorter,
    /// "the first element at which they differ, then the first byte within its 64", which counts
    /// "from 0".
    Differ { element: u64, byte: u64 },
}

/// The 64 bytes of each element of a log that was read from these bytes.
fn elements<'a>(store: &'a [u8], log: &Log) -> Vec<&'a [u8]> {
    let records = store[HEADER..].chunks_exact(RECORD);
    records.take(log.count as usize).map(|record| &record[..ELEMENT]).collect()
}

/// Where two lists first have something else at one place.
fn first_difference<T: PartialEq>(one: &[T], other: &[T]) -> Option<usize> {
    one.iter().zip(other).position(|(ours, theirs)| ours != theirs)
}

/// "Compare two stores of the same log number". "A different log number is refused with a new
/// number, store damage with 1", and the new number is "checked last".
pub fn compare(first: &[u8], second: &[u8]) -> Answer<Compared> {
    let [one, other] = [Log::read(first)?, Log::read(second)?];
    if one.number != other.number {
        return refuse(OTHER_LOG);
    }
    let (one, other) = (elements(first, &one), elements(second, &other));
    Ok(match first_difference(&one, &other) {
        Some(at) => {
            let byte = first_difference(one[at], other[at]).expect("elements that differ");
            Compared::Differ { element: at as u64 + 1, byte: byte as u64 }
        }
        None => match one.len().cmp(&other.len()) {
            Ordering::Less => Compared::FirstShorter,
            Ordering::Equal => Compared::Equal,
            Ordering::Greater => Compared::SecondShorter,
        },
    })
}
