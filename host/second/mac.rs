//! HMAC, by which document 02, A6, seals: "HMAC-SHA-256 (RFC 2104)".
//!
//! Words in quotation marks are the RFC's, unless another paper is named. Its B is 64, SHA-256's
//! blocks, and its L is 32; so they are over the stand-in too.

use crate::hash::{Hash, HASH_MOST};
use crate::refusal::{refuse, Answer, TOO_LONG};
use crate::Digest;

/// "B the byte-length of such blocks"
const BLOCK: usize = 64;

/// The key is hashed if it is long, so it obeys the limit of hashing.
pub const KEY_MOST: usize = HASH_MOST as usize;

/// The message is hashed behind a block, so it obeys the limit less that.
pub const MESSAGE_MOST: usize = HASH_MOST as usize - BLOCK;

/// The block of a key. "Applications that use keys longer than B bytes will first hash the key";
/// then "append zeros to the end of K to create a B byte string".
fn block_of<H: Hash>(key: &[u8]) -> Vec<u8> {
    let mut block = if key.len() > BLOCK { H::of(key).to_vec() } else { key.to_vec() };
    block.resize(BLOCK, 0);
    block
}

/// A key's block XORed with one byte throughout, and a text behind it.
fn padded(block: &[u8], pad: u8, text: &[u8]) -> Vec<u8> {
    block.iter().map(|byte| byte ^ pad).chain(text.iter().copied()).collect()
}

/// "H(K XOR opad, H(K XOR ipad, text))", where ipad is "the byte 0x36 repeated B times" and opad
/// "the byte 0x5C repeated B times". This is the value for any lengths.
pub fn hmac<H: Hash>(key: &[u8], text: &[u8]) -> Digest {
    let block = block_of::<H>(key);
    let inner = H::of(&padded(&block, 0x36, text));
    H::of(&padded(&block, 0x5C, &inner))
}

/// The same as a call, which hashes no more than document 01 allows: "hashing over 65,536" is
/// refused with 3.
pub fn mac<H: Hash>(key: &[u8], message: &[u8]) -> Answer<Digest> {
    if key.len() > KEY_MOST || message.len() > MESSAGE_MOST {
        return refuse(TOO_LONG);
    }
    Ok(hmac::<H>(key, message))
}

/// "HMAC is run against RFC 4231", says A6: its seven test cases, each with key, data and value.
/// The value is in hexadecimal digits, and cut to 128 bits in the fifth.
pub const RFC_4231: [(&[u8], &[u8], &str); 7] = [
    (&[0x0b; 20], b"Hi There", "b0344c61d8db38535ca8afceaf0bf12b881dc200c9833da726e9376c2e32cff7"),
    (
        b"Jefe",
        b"what do ya want for nothing?",
        "5bdcc146bf60754e6a042426089575c75a003f089d2739839dec58b964ec3843",
    ),
    (&[0xaa; 20], &[0xdd; 50], "773ea91e36800e46854db8ebd09181a72959098b3ef8c122d9635514ced565fe"),
    (
        &[
            0x01, 0x02, 0x03, 0x04, 0x05, 0x06, 0x07, 0x08, 0x09, 0x0a, 0x0b, 0x0c, 0x0d, 0x0e,
            0x0f, 0x10, 0x11, 0x12, 0x13, 0x14, 0x15, 0x16, 0x17, 0x18, 0x19,
        ],
        &[0xcd; 50],
        "82558a389a443c0ea4cc819899f2083a85f0faa3e578f8077a2e3ff46729665b",
    ),
    (&[0x0c; 20], b"Test With Truncation", "a3b6167473100ee06e0c796c2955552b"),
    (
        &[0xaa; 131],
        b"Test Using Larger Than Block-Size Key - Hash Key First",
        "60e431591ee0b67f0d8a26aacbf5b77f8e0bc6213728c5140546040f0ee37f54",
    ),
    (
        &[0xaa; 131],
        b"This is a test using a larger than block-size key and a larger than block-size data. \
          The key needs to be hashed before being used by the HMAC algorithm.",
        "9b09ffa71b942fcb27635fbcd5b0e944bfdc63644f0713938a7f51535c3a35e2",
    ),
];
