//! The logs that the comparisons work on, made by the second program.

use lotlog::Held;
use second::hash::Sha256;
use second::held::held_of;
use second::store::{store_of, Log, HEADER, RECORD};

use crate::advance::Step;
use crate::member::Claim;
use crate::second_calls::held_bytes;

/// The number of the logs.
pub const LOG: u64 = 0x0102_0304_0506_0708;

/// The limit before A7 raised it.
pub const OLD_LIMIT: u64 = 1_048_575;

/// The elements of a large store: they go past the old limit, and a store of the new limit's records
/// would be too large for most machines.
pub const REAL: u64 = OLD_LIMIT + 40;

/// The entry of element j: 0 to 39 bytes, the empty one now and then.
pub fn entry(j: u64) -> Vec<u8> {
    vec![(j % 251) as u8; (j % 40) as usize]
}

/// A sound store of so many elements with room for others.
pub fn sound(elements: u64, room: u64) -> Vec<u8> {
    store_of::<Sha256>(LOG, elements + room, (1..=elements).map(entry))
}

/// The first so many records of a store.
pub fn first_records(store: &[u8], records: u64) -> &[u8] {
    &store[..HEADER + RECORD * records as usize]
}

/// The log of a store that is known to be in order.
pub fn read(store: &[u8]) -> Log<'_> {
    Log::read(store).expect("a store in order")
}

/// What a log can be asked for: a store's log, or one that is made up.
pub trait Source {
    /// The true claim that the entry of element i stands at i in the log of length n.
    fn claim(&self, i: u64, n: u64) -> Claim;

    /// The true step of the log's own held state from i to n.
    fn step(&self, i: u64, n: u64) -> Step;

    /// The log's own held state.
    fn held(&self, at: u64) -> Held;
}

impl Source for Log<'_> {
    fn claim(&self, i: u64, n: u64) -> Claim {
        Claim::honest(self, i, n)
    }

    fn step(&self, i: u64, n: u64) -> Step {
        Step::honest(self, i, n)
    }

    fn held(&self, at: u64) -> Held {
        held_bytes(&held_of::<Sha256>(self, at))
    }
}
