//! A first program: a log of two lots, and the proof that the first of them stands in it.
//! README.md has the line that links it; first.c is the same program in C.

use std::process;

use lotlog::{store_bytes, Answer, Digest, PROOF_MOST, WHOLE};

// A program without cargo takes the wrapper in as a module; it calls but some of its functions.
#[path = "../lotlog/lotlog.rs"]
#[allow(dead_code, unused_imports)]
mod lotlog;

/// Looks at a call's number: 0 is done, any other is a refusal, and lotlog.h says which.
fn done(call: &str, number: u64) {
    if number != 0 {
        eprintln!("{} is refused with {}", call, number);
        process::exit(1);
    }
}

/// The same for a call that answers with a number beside it, which it gives.
fn answered(call: &str, answer: Answer) -> u64 {
    done(call, answer.number);
    answer.beside[0]
}

fn main() {
    // The library does not keep entries, only their digests: keep the texts yourself.
    let first = b"articaine, lot 4711";
    let mut store = vec![0; store_bytes(3)];

    done("start", lotlog::start(&mut store, 7));
    answered("append", lotlog::append(&mut store, first, WHOLE));
    // an entry may have no bytes at all
    answered("append", lotlog::append(&mut store, b"", WHOLE));
    println!("count {}", answered("count", lotlog::count(&store)));

    // Positions count from 1, so the digest at 2 is that of the log with both lots.
    let mut digest: Digest = [0; 32];
    done("digest", lotlog::digest_at(&store, 2, &mut digest));
    let hex: String = digest.iter().map(|byte| format!("{:02x}", byte)).collect();
    println!("digest at 2 {}", hex);

    // Who holds the digest and the entry checks with the proof alone, without the store.
    let mut out = [0; PROOF_MOST];
    let length = answered("build", lotlog::build_membership(&store, 1, 2, &mut out)) as usize;
    answered("check", lotlog::check_membership(first, 1, 2, &digest, &out[..length]));
    println!("lot 1 of 2 proved by {} bytes", length);

    println!("audit sound {}", answered("audit", lotlog::audit(&store)));
}
