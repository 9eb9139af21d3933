//! The messages that a checker hashes, as it hashes them, and what they come to.

use std::cell::RefCell;
use std::collections::HashSet;
use std::ops::Range;

use checker::{Hash, Plain};
use lotlog::Digest;

/// The bytes of a block of SHA-256.
const BLOCK: usize = 64;

/// The least bytes of a message's padding: the byte behind it, and its length.
const PADDING: usize = 9;

/// The blocks of a message of so many bytes with its padding.
pub fn blocks(length: usize) -> usize {
    (length + PADDING + BLOCK - 1) / BLOCK
}

/// Messages one after the other, each whole in memory.
#[derive(Default)]
pub struct Messages {
    bytes: Vec<u8>,
    parts: Vec<Range<usize>>,
}

impl Messages {
    /// Those that some work hashes by `Recorded`, in its order.
    pub fn hashed_by(work: impl FnOnce()) -> Messages {
        HASHED.with(|hashed| hashed.take());
        work();
        HASHED.with(|hashed| hashed.take())
    }

    fn push(&mut self, message: &[u8]) {
        let begin = self.bytes.len();
        self.bytes.extend(message);
        self.parts.push(begin..self.bytes.len());
    }

    pub fn iter(&self) -> impl Iterator<Item = &[u8]> {
        self.parts.iter().map(move |part| &self.bytes[part.clone()])
    }

    pub fn count(&self) -> usize {
        self.parts.len()
    }

    /// How many there are if none is counted again.
    pub fn distinct(&self) -> usize {
        self.iter().collect::<HashSet<_>>().len()
    }

    pub fn blocks(&self) -> usize {
        self.iter().map(|message| blocks(message.len())).sum()
    }
}

thread_local! {
    /// What `Recorded` was given.
    static HASHED: RefCell<Messages> = RefCell::default();
}

/// The hash of the plain checker that keeps each message.
pub enum Recorded {}

impl Hash for Recorded {
    fn digest(message: &[u8]) -> Digest {
        HASHED.with(|hashed| hashed.borrow_mut().push(message));
        Plain::digest(message)
    }
}
