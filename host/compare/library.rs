//! The proved library behind the traits.
//!
//! The methods are `#[inline]` as those of `lotlog` are, so a program of one group links with a
//! library that has that group's calls alone.

use std::marker::PhantomData;

use lotlog::{Answer, Digest, Held, Side};

use crate::calls::{AdvanceCalls, Checks, CopyCalls, HashCalls, MemberCalls, SavedCalls};
use crate::calls::{SealCalls, StoreCalls, TrieCalls};

/// The proved library; or the same with the two checks of another checker in the place of its own.
pub struct Library<K = Proved>(PhantomData<K>);

/// The library's own checks.
pub enum Proved {}

impl Checks for Proved {
    #[inline]
    fn check_membership(entry: &[u8], i: u64, n: u64, digest: &Digest, proof: &[u8]) -> Answer {
        lotlog::check_membership(entry, i, n, digest, proof)
    }

    #[inline]
    fn check_advancement(held: &mut Held, n: u64, digest: &Digest, proof: &[u8]) -> Answer {
        lotlog::check_advancement(held, n, digest, proof)
    }
}

impl<K> HashCalls for Library<K> {
    #[inline]
    fn hash(message: &[u8], digest: &mut Digest) -> u64 {
        lotlog::hash(message, digest)
    }
}

impl<K> StoreCalls for Library<K> {
    #[inline]
    fn start(store: &mut [u8], log: u64) -> u64 {
        lotlog::start(store, log)
    }

    #[inline]
    fn count(store: &[u8]) -> Answer {
        lotlog::count(store)
    }

    #[inline]
    fn append(store: &mut [u8], entry: &[u8], stop: u64) -> Answer {
        lotlog::append(store, entry, stop)
    }

    #[inline]
    fn digest_at(store: &[u8], at: u64, digest: &mut Digest) -> u64 {
        lotlog::digest_at(store, at, digest)
    }

    #[inline]
    fn audit(store: &[u8]) -> Answer {
        lotlog::audit(store)
    }
}

impl<K> CopyCalls for Library<K> {
    #[inline]
    fn compare(first: &[u8], second: &[u8]) -> Answer {
        lotlog::compare(first, second)
    }
}

impl<K: Checks> MemberCalls for Library<K> {
    #[inline]
    fn build_membership(store: &[u8], i: u64, n: u64, out: &mut [u8]) -> Answer {
        lotlog::build_membership(store, i, n, out)
    }

    #[inline]
    fn check_membership(entry: &[u8], i: u64, n: u64, digest: &Digest, proof: &[u8]) -> Answer {
        K::check_membership(entry, i, n, digest, proof)
    }

    #[inline]
    fn dispute(sides: [Side; 2], i: u64, n: u64, digest: &Digest, out: [&mut [u8]; 2]) -> Answer {
        lotlog::dispute(sides, i, n, digest, out)
    }

    #[inline]
    fn differing(first: &[u8], second: &[u8], i: u64, n: u64) -> Answer {
        lotlog::differing(first, second, i, n)
    }
}

impl<K: Checks> AdvanceCalls for Library<K> {
    #[inline]
    fn held_at(store: &[u8], at: u64, held: &mut Held) -> u64 {
        lotlog::held_at(store, at, held)
    }

    #[inline]
    fn held_start(log: u64, held: &mut Held) -> u64 {
        lotlog::held_start(log, held)
    }

    #[inline]
    fn build_advancement(store: &[u8], i: u64, n: u64, out: &mut [u8]) -> Answer {
        lotlog::build_advancement(store, i, n, out)
    }

    #[inline]
    fn check_advancement(held: &mut Held, n: u64, digest: &Digest, proof: &[u8]) -> Answer {
        K::check_advancement(held, n, digest, proof)
    }
}

impl<K> SavedCalls for Library<K> {
    #[inline]
    fn held_write(held: &Held, out: &mut [u8]) -> Answer {
        lotlog::held_write(held, out)
    }

    #[inline]
    fn held_read(file: &[u8], held: &mut Held) -> u64 {
        lotlog::held_read(file, held)
    }
}

impl<K> TrieCalls for Library<K> {
    #[inline]
    fn handle(key: &[u8], handle: &mut Digest) -> u64 {
        lotlog::handle(key, handle)
    }

    #[inline]
    fn trie_root(handles: &[u8], root: &mut Digest) -> u64 {
        lotlog::trie_root(handles, root)
    }

    #[inline]
    fn prove_presence(handles: &[u8], key: &[u8], out: &mut [u8]) -> Answer {
        lotlog::prove_presence(handles, key, out)
    }

    #[inline]
    fn prove_absence(handles: &[u8], key: &[u8], out: &mut [u8]) -> Answer {
        lotlog::prove_absence(handles, key, out)
    }

    #[inline]
    fn check_presence(key: &[u8], root: &Digest, proof: &[u8]) -> u64 {
        lotlog::check_presence(key, root, proof)
    }

    #[inline]
    fn check_absence(key: &[u8], root: &Digest, proof: &[u8]) -> u64 {
        lotlog::check_absence(key, root, proof)
    }

    #[inline]
    fn trie_clash(
        key: &[u8],
        root: &Digest,
        presence: &[u8],
        absence: &[u8],
        out: [&mut [u8]; 2],
    ) -> Answer {
        lotlog::trie_clash(key, root, presence, absence, out)
    }
}

impl<K> SealCalls for Library<K> {
    #[inline]
    fn mac(key: &[u8], message: &[u8], mac: &mut Digest) -> u64 {
        lotlog::mac(key, message, mac)
    }

    #[inline]
    fn seal_add(
        key: &mut [u8],
        chain: &mut Digest,
        kind: u32,
        data: &[u8],
        out: &mut [u8],
    ) -> Answer {
        lotlog::seal_add(key, chain, kind, data, out)
    }

    #[inline]
    fn seal_check(first_key: &Digest, log: &[u8]) -> Answer {
        lotlog::seal_check(first_key, log)
    }
}
