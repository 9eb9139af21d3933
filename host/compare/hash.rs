//! The group `hash`: SHA-256 of messages of every length that could matter.

use second::hash::HASH_MOST;

use crate::both::Both;
use crate::calls::HashCalls;
use crate::random::Random;
use crate::Scale;

const SEED: u64 = 1;

pub fn run<C: HashCalls>(both: &mut Both<C>, scale: Scale) {
    every_short_length(both);
    every_bit(both);
    around_whole_blocks(both);
    around_the_limit(both);
    at_random(both, scale.pick(20_000, 100));
}

/// Every length up to five blocks, so that each place of the padding occurs.
fn every_short_length<C: HashCalls>(both: &mut Both<C>) {
    for length in 0..=320 {
        for byte in [0, 0x80, 0xFF] {
            both.hash(&vec![byte; length]);
        }
        both.hash(&Random::new(SEED).bytes(length));
    }
}

/// Two blocks, one of which has a single bit that is not like all others, so that each bit of a block is
/// seen to count.
fn every_bit<C: HashCalls>(both: &mut Both<C>) {
    for byte in [0, 0xFF] {
        for bit in 0..2 * 512 {
            let mut message = [byte; 128];
            message[bit / 8] ^= 0x80 >> (bit % 8);
            both.hash(&message);
        }
    }
}

/// The lengths next to a multiple of 64 bytes, and next to where the padding takes one more block.
fn around_whole_blocks<C: HashCalls>(both: &mut Both<C>) {
    let bytes = Random::new(SEED).bytes(HASH_MOST as usize);
    for blocks in [6, 10, 63, 64, 65, 127, 128, 255, 512, 1000, 1023] {
        for rest in [0, 1, 55, 56, 57, 63] {
            both.hash(&bytes[..64 * blocks + rest]);
        }
    }
}

/// The longest message, and those that are too long.
fn around_the_limit<C: HashCalls>(both: &mut Both<C>) {
    for (length, number) in [(65_535, 0), (65_536, 0), (65_537, 3), (65_600, 3), (131_072, 3)] {
        assert_eq!(both.hash(&vec![7; length]).0, number);
    }
}

fn at_random<C: HashCalls>(both: &mut Both<C>, times: usize) {
    let mut random = Random::new(SEED);
    for _ in 0..times {
        let length = random.of_any_size(HASH_MOST) as usize;
        let message = random.bytes(length);
        both.hash(&message);
    }
}
