//! The calls of the library as traits, one for each group in which they are compared.

use lotlog::{Answer, Digest, Held, Side};

/// Hashing.
pub trait HashCalls {
    fn hash(message: &[u8], digest: &mut Digest) -> u64;
}

/// Keeping a store.
pub trait StoreCalls {
    fn start(store: &mut [u8], log: u64) -> u64;
    fn count(store: &[u8]) -> Answer;
    fn append(store: &mut [u8], entry: &[u8], stop: u64) -> Answer;
    fn digest_at(store: &[u8], at: u64, digest: &mut Digest) -> u64;
    fn audit(store: &[u8]) -> Answer;
}

/// Two stores that should agree.
pub trait CopyCalls {
    fn compare(first: &[u8], second: &[u8]) -> Answer;
}

/// Membership: building, checking, disputes.
pub trait MemberCalls {
    fn build_membership(store: &[u8], i: u64, n: u64, out: &mut [u8]) -> Answer;
    fn check_membership(entry: &[u8], i: u64, n: u64, digest: &Digest, proof: &[u8]) -> Answer;
    fn dispute(sides: [Side; 2], i: u64, n: u64, digest: &Digest, out: [&mut [u8]; 2]) -> Answer;
    fn differing(first: &[u8], second: &[u8], i: u64, n: u64) -> Answer;
}

/// Held states and advancement.
pub trait AdvanceCalls {
    fn held_at(store: &[u8], at: u64, held: &mut Held) -> u64;
    fn held_start(log: u64, held: &mut Held) -> u64;
    fn build_advancement(store: &[u8], i: u64, n: u64, out: &mut [u8]) -> Answer;
    fn check_advancement(held: &mut Held, n: u64, digest: &Digest, proof: &[u8]) -> Answer;
}

/// What a practice does with a proof, by the library or by another checker.
pub trait Checks {
    fn check_membership(entry: &[u8], i: u64, n: u64, digest: &Digest, proof: &[u8]) -> Answer;
    fn check_advancement(held: &mut Held, n: u64, digest: &Digest, proof: &[u8]) -> Answer;
}

/// Held states in files.
pub trait SavedCalls {
    fn held_write(held: &Held, out: &mut [u8]) -> Answer;
    fn held_read(file: &[u8], held: &mut Held) -> u64;
}

/// The dictionary: handles, root, both kinds of proof, clashes.
pub trait TrieCalls {
    fn handle(key: &[u8], handle: &mut Digest) -> u64;
    fn trie_root(handles: &[u8], root: &mut Digest) -> u64;
    fn prove_presence(handles: &[u8], key: &[u8], out: &mut [u8]) -> Answer;
    fn prove_absence(handles: &[u8], key: &[u8], out: &mut [u8]) -> Answer;
    fn check_presence(key: &[u8], root: &Digest, proof: &[u8]) -> u64;
    fn check_absence(key: &[u8], root: &Digest, proof: &[u8]) -> u64;
    fn trie_clash(
        key: &[u8],
        root: &Digest,
        presence: &[u8],
        absence: &[u8],
        out: [&mut [u8]; 2],
    ) -> Answer;
}

/// The vans' logs: HMAC, the van's adding, the office's check.
pub trait SealCalls {
    fn mac(key: &[u8], message: &[u8], mac: &mut Digest) -> u64;
    fn seal_add(
        key: &mut [u8],
        chain: &mut Digest,
        kind: u32,
        data: &[u8],
        out: &mut [u8],
    ) -> Answer;
    fn seal_check(first_key: &Digest, log: &[u8]) -> Answer;
}
