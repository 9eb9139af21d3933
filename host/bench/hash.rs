//! Times the proved SHA-256 beside the plain one of `host/plain`, on the same messages in one run;
//! and beside OpenSSL's, with its processor extensions off and on, as the figure for how far the
//! limit is: bench-hash OFF ON, which are two copies of its library.
//!
//! The first two are compiled for release and for the same processor, the common x86-64 without
//! extensions (`host/env.sh`). No buffer is cleared: a digest goes into the start of the next
//! message, so that each call waits for the one before it and none can be left out.

mod openssl;
mod timing;

use lotlog::Digest;
use openssl::OpenSsl;
use timing::way;

/// An element with 0 and with 1 trailing zero bits, the longest element, and the longest entry.
const SIZES: [usize; 4] = [73, 105, 1065, 4097];

const ROUNDS: usize = 201;
const BYTES_IN_A_ROUND: usize = 1 << 17;

/// The ways that are timed: proved, plain, and OpenSSL's two.
const WAYS: usize = 4;

/// A message of so many bytes that changes with each digest.
struct Chain {
    message: Vec<u8>,
    digest: Digest,
}

impl Chain {
    fn of(size: usize) -> Chain {
        Chain { message: (0..size).map(|place| place as u8).collect(), digest: [0; 32] }
    }

    fn step(&mut self, hash: impl FnOnce(&[u8], &mut Digest)) {
        hash(&self.message, &mut self.digest);
        self.message[..32].copy_from_slice(&self.digest);
    }
}

fn proved(message: &[u8], digest: &mut Digest) {
    assert_eq!(lotlog::hash(message, digest), 0);
}

fn plain(message: &[u8], digest: &mut Digest) {
    *digest = plain::digest(message);
}

/// Times all ways on messages of a size and prints the line of the table; the ratios.
fn row(size: usize, off: &OpenSsl, on: &OpenSsl) -> [f64; WAYS] {
    let mut chains = [(); WAYS].map(|_| Chain::of(size));
    let [first, second, third, fourth] = &mut chains;
    let ways = [
        way(|| first.step(proved)),
        way(|| second.step(plain)),
        way(|| third.step(|message, digest| off.hash(message, digest))),
        way(|| fourth.step(|message, digest| on.hash(message, digest))),
    ];
    let times = timing::side_by_side(ROUNDS, BYTES_IN_A_ROUND / size, ways);
    for chain in &chains {
        assert_eq!(chain.digest, chains[0].digest, "the chains of {} bytes differ", size);
    }
    print!("{:>6} {:>12.0}", size, times[0].time);
    for other in &times[1..] {
        print!(" {:>12.0} {:>7.2}", other.time, other.ratio);
    }
    println!();
    times.map(|way| way.ratio)
}

fn main() {
    let [off, on] = openssl::off_and_on();
    println!("{}", on.words());
    println!(
        "{:>6} {:>12} {:>12} {:>7} {:>12} {:>7} {:>12} {:>7}",
        "bytes", "proved ns", "plain ns", "ratio", "off ns", "ratio", "on ns", "ratio"
    );
    let ratios = SIZES.map(|size| row(size, &off, &on));
    let most = |way: usize| ratios.iter().map(|row| row[way]).fold(0.0, f64::max);
    println!(
        "at most {:.2} of plain Rust's time, {:.2} of OpenSSL's with its extensions off, {:.2} on",
        most(1),
        most(2),
        most(3)
    );
}
