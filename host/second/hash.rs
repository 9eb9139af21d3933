//! The hash of the log, in one go and in pieces, and its stand-in.

use crate::refusal::{refuse, Answer, BAD_STATE, TOO_LONG};
use crate::Digest;

/// "up to 65,536 bytes in all"
pub const HASH_MOST: u64 = 65_536;

/// "any hash from byte strings to 32 bytes"
pub trait Hash {
    fn of(message: &[u8]) -> Digest;
}

/// "FIPS 180-4 decides the hash."
pub enum Sha256 {}

impl Hash for Sha256 {
    fn of(message: &[u8]) -> Digest {
        plain::digest(message)
    }
}

/// "a stand-in that XORs the message's 32-byte blocks, the last filled with zeros"
pub enum Xor {}

impl Hash for Xor {
    fn of(message: &[u8]) -> Digest {
        let mut digest = [0; 32];
        for (place, byte) in message.iter().enumerate() {
            digest[place % 32] ^= byte;
        }
        digest
    }
}

/// The hash of a message in one go.
pub fn hash<H: Hash>(message: &[u8]) -> Answer<Digest> {
    if message.len() as u64 > HASH_MOST {
        return refuse(TOO_LONG);
    }
    Ok(H::of(message))
}

/// "a begun state takes bytes, is handed back, and is finished at the end"
#[derive(Debug, Clone, Copy, PartialEq, Eq)]
pub struct HashState {
    pub words: plain::Words,
    pub block: [u8; 64],
    pub fill: u64,
    pub total: u64,
}

impl HashState {
    pub fn begin() -> HashState {
        HashState { words: plain::FIRST, block: [0; 64], fill: 0, total: 0 }
    }

    /// "A state whose fill is not its total modulo 64, or whose total is over 65,536, is refused
    /// with 2."
    fn in_order(&self) -> Answer<()> {
        if self.fill != self.total % 64 || self.total > HASH_MOST {
            return refuse(BAD_STATE);
        }
        Ok(())
    }

    /// The state with the bytes taken. "More than that is refused with 3, the state unchanged."
    pub fn take(self, bytes: &[u8]) -> Answer<HashState> {
        self.in_order()?;
        if self.total + bytes.len() as u64 > HASH_MOST {
            return refuse(TOO_LONG);
        }
        Ok(bytes.iter().fold(self, HashState::take_byte))
    }

    /// A byte goes to the place `fill`. A full block is compressed and all its 64 bytes become
    /// zeros; bytes past the fill stay otherwise. So no two cuttings end in different states.
    fn take_byte(mut self, byte: &u8) -> HashState {
        self.block[self.fill as usize] = *byte;
        self.fill += 1;
        self.total += 1;
        if self.fill == 64 {
            plain::compress(&mut self.words, &self.block);
            self.block = [0; 64];
            self.fill = 0;
        }
        self
    }

    /// The digest. "Any cutting gives the one-shot value."
    pub fn finish(self) -> Answer<Digest> {
        self.in_order()?;
        let mut words = self.words;
        plain::compress_last(&mut words, &self.block[..self.fill as usize], self.total);
        Ok(plain::bytes_of(&words))
    }
}
