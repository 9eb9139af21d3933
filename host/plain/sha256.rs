//! SHA-256 in plain Rust, from FIPS 180-4: no intrinsics, no assembly, no unsafe code.
//!
//! It is what the proved hash is timed against, and the hash of the second program.

/// The hash of 32 bytes that FIPS 180-4 calls the message digest.
pub type Digest = [u8; 32];

/// The eight words H0 to H7 of a hash under way.
pub type Words = [u32; 8];

/// Section 5.3.3: the words that every hash begins with.
pub const FIRST: Words = [
    0x6a09e667, 0xbb67ae85, 0x3c6ef372, 0xa54ff53a, 0x510e527f, 0x9b05688c, 0x1f83d9ab, 0x5be0cd19,
];

/// Section 4.2.2: the constants of the 64 rounds.
const K: [u32; 64] = [
    0x428a2f98, 0x71374491, 0xb5c0fbcf, 0xe9b5dba5, 0x3956c25b, 0x59f111f1, 0x923f82a4, 0xab1c5ed5,
    0xd807aa98, 0x12835b01, 0x243185be, 0x550c7dc3, 0x72be5d74, 0x80deb1fe, 0x9bdc06a7, 0xc19bf174,
    0xe49b69c1, 0xefbe4786, 0x0fc19dc6, 0x240ca1cc, 0x2de92c6f, 0x4a7484aa, 0x5cb0a9dc, 0x76f988da,
    0x983e5152, 0xa831c66d, 0xb00327c8, 0xbf597fc7, 0xc6e00bf3, 0xd5a79147, 0x06ca6351, 0x14292967,
    0x27b70a85, 0x2e1b2138, 0x4d2c6dfc, 0x53380d13, 0x650a7354, 0x766a0abb, 0x81c2c92e, 0x92722c85,
    0xa2bfe8a1, 0xa81a664b, 0xc24b8b70, 0xc76c51a3, 0xd192e819, 0xd6990624, 0xf40e3585, 0x106aa070,
    0x19a4c116, 0x1e376c08, 0x2748774c, 0x34b0bcb5, 0x391c0cb3, 0x4ed8aa4a, 0x5b9cca4f, 0x682e6ff3,
    0x748f82ee, 0x78a5636f, 0x84c87814, 0x8cc70208, 0x90befffa, 0xa4506ceb, 0xbef9a3f7, 0xc67178f2,
];

/// Section 4.1.2: the upper-case sums.
fn big0(x: u32) -> u32 {
    x.rotate_right(2) ^ x.rotate_right(13) ^ x.rotate_right(22)
}

fn big1(x: u32) -> u32 {
    x.rotate_right(6) ^ x.rotate_right(11) ^ x.rotate_right(25)
}

/// Section 4.1.2: the lower-case sums.
fn small0(x: u32) -> u32 {
    x.rotate_right(7) ^ x.rotate_right(18) ^ (x >> 3)
}

fn small1(x: u32) -> u32 {
    x.rotate_right(17) ^ x.rotate_right(19) ^ (x >> 10)
}

/// Section 6.2.2, step 1: the 64 words of the message schedule.
fn schedule(block: &[u8; 64]) -> [u32; 64] {
    let mut w = [0; 64];
    for (word, four) in w.iter_mut().zip(block.chunks_exact(4)) {
        *word = u32::from_be_bytes([four[0], four[1], four[2], four[3]]);
    }
    for t in 16..64 {
        w[t] = small1(w[t - 2])
            .wrapping_add(w[t - 7])
            .wrapping_add(small0(w[t - 15]))
            .wrapping_add(w[t - 16]);
    }
    w
}

/// Section 6.2.2, steps 2 to 4: the words after one more block of 64 bytes.
pub fn compress(words: &mut Words, block: &[u8; 64]) {
    let w = schedule(block);
    let [mut a, mut b, mut c, mut d, mut e, mut f, mut g, mut h] = *words;
    for t in 0..64 {
        let ch = (e & f) ^ (!e & g);
        let maj = (a & b) ^ (a & c) ^ (b & c);
        let t1 = h.wrapping_add(big1(e)).wrapping_add(ch).wrapping_add(K[t]).wrapping_add(w[t]);
        let t2 = big0(a).wrapping_add(maj);
        h = g;
        g = f;
        f = e;
        e = d.wrapping_add(t1);
        d = c;
        c = b;
        b = a;
        a = t1.wrapping_add(t2);
    }
    for (word, add) in words.iter_mut().zip([a, b, c, d, e, f, g, h]) {
        *word = word.wrapping_add(add);
    }
}

/// Section 5.1.1: compresses the last, unfilled part of a message of `total` bytes and its padding.
pub fn compress_last(words: &mut Words, rest: &[u8], total: u64) {
    let mut block = [0; 64];
    block[..rest.len()].copy_from_slice(rest);
    block[rest.len()] = 0x80;
    if rest.len() >= 56 {
        compress(words, &block);
        block = [0; 64];
    }
    block[56..].copy_from_slice(&(8 * total).to_be_bytes());
    compress(words, &block);
}

/// The words as the 32 bytes of a digest.
pub fn bytes_of(words: &Words) -> Digest {
    let mut digest = [0; 32];
    for (four, word) in digest.chunks_exact_mut(4).zip(words) {
        four.copy_from_slice(&word.to_be_bytes());
    }
    digest
}

/// SHA-256 of the message.
pub fn digest(message: &[u8]) -> Digest {
    let mut words = FIRST;
    let mut blocks = message.chunks_exact(64);
    for block in &mut blocks {
        compress(&mut words, block.try_into().expect("64 bytes"));
    }
    compress_last(&mut words, blocks.remainder(), message.len() as u64);
    bytes_of(&words)
}
