//! Ways to spoil a run of bytes.

use crate::random::Random;

/// The bytes with one bit of one byte turned.
pub fn bit_turned(bytes: &[u8], bit: usize) -> Vec<u8> {
    let mut spoiled = bytes.to_vec();
    spoiled[bit / 8] ^= 1 << (bit % 8);
    spoiled
}

/// The bytes with two of their 32-byte parts swapped.
pub fn parts_swapped(bytes: &[u8], one: usize, other: usize) -> Vec<u8> {
    let mut parts: Vec<&[u8]> = bytes.chunks(32).collect();
    parts.swap(one, other);
    parts.concat()
}

/// The bytes spoiled in one of many ways: a bit turned, a byte set, cut short, made longer, two
/// parts swapped, a part cleared.
pub fn spoiled(bytes: &[u8], random: &mut Random) -> Vec<u8> {
    if bytes.is_empty() {
        return random.bytes(1);
    }
    let mut spoiled = bytes.to_vec();
    let at = random.place(bytes.len());
    let part = at / 32 * 32;
    match random.below(7) {
        0 | 1 => return bit_turned(bytes, random.place(8 * bytes.len())),
        2 => spoiled[at] = random.next() as u8,
        3 => spoiled.truncate(at),
        4 => spoiled.extend_from_slice(&bytes[part..]),
        5 => return parts_swapped(bytes, at / 32, random.place(bytes.chunks(32).len())),
        _ => spoiled[part..].iter_mut().take(32).for_each(|byte| *byte = 0),
    }
    spoiled
}
