//! The second program behind the traits: its results as numbers and lent memory.

use lotlog::{Answer, Digest, Held, Side};
use second::copies::{self, Compared};
use second::dispute::{self, Found};
use second::hash::{self, Sha256};
use second::refusal::{self, Refusal};
use second::trie::{self, Shown};
use second::{held, mac, proof, saved, sealed, store};

use crate::calls::{AdvanceCalls, CopyCalls, HashCalls, MemberCalls, SavedCalls};
use crate::calls::{SealCalls, StoreCalls, TrieCalls};

/// The second program.
pub enum Second {}

/// A refusal says its number beside it and then where a proof broke, or 0 and 0.
fn numbers(result: refusal::Answer<[u64; 3]>) -> Answer {
    match result {
        Ok(beside) => Answer { number: 0, beside },
        Err(Refusal { number, beside, place }) => {
            Answer { number, beside: [beside, place.element, place.level] }
        }
    }
}

fn one_number(result: refusal::Answer<u64>) -> Answer {
    numbers(result.map(|number| [number, 0, 0]))
}

/// A value goes to lent memory; a refusal leaves that as it was.
fn lent<T>(result: refusal::Answer<T>, place: &mut T) -> u64 {
    match result {
        Ok(value) => {
            *place = value;
            0
        }
        Err(refused) => refused.number,
    }
}

/// The bytes of a held state: log number, count (8 bytes each, big-endian), digest, and a row for
/// each level.
pub fn held_bytes(held: &held::Held) -> Held {
    let parts =
        [&held.log.to_be_bytes()[..], &held.count.to_be_bytes(), &held.digest, &held.rows.concat()];
    parts.concat().try_into().expect("the bytes of a state")
}

/// The held state of these bytes.
pub fn held_of_bytes(bytes: &Held) -> held::Held {
    let number = |at: usize| u64::from_be_bytes(bytes[at..at + 8].try_into().expect("8 bytes"));
    let digest = |at: usize| -> Digest { bytes[at..at + 32].try_into().expect("32 bytes") };
    let mut rows = [[0; 32]; held::ROWS];
    for (row, place) in rows.iter_mut().zip((48..).step_by(32)) {
        *row = digest(place);
    }
    held::Held { log: number(0), count: number(8), digest: digest(16), rows }
}

impl HashCalls for Second {
    fn hash(message: &[u8], digest: &mut Digest) -> u64 {
        lent(hash::hash::<Sha256>(message), digest)
    }
}

impl StoreCalls for Second {
    fn start(store: &mut [u8], log: u64) -> u64 {
        lent(store::start(store, log), &mut ())
    }

    fn count(store: &[u8]) -> Answer {
        one_number(store::count(store))
    }

    fn append(store: &mut [u8], entry: &[u8], stop: u64) -> Answer {
        one_number(store::append::<Sha256>(store, entry, stop))
    }

    fn digest_at(store: &[u8], at: u64, digest: &mut Digest) -> u64 {
        lent(store::digest_at::<Sha256>(store, at), digest)
    }

    fn audit(store: &[u8]) -> Answer {
        one_number(store::audit::<Sha256>(store))
    }
}

impl CopyCalls for Second {
    fn compare(first: &[u8], second: &[u8]) -> Answer {
        numbers(copies::compare(first, second).map(|compared| match compared {
            Compared::Equal => [0, 0, 0],
            Compared::FirstShorter => [1, 0, 0],
            Compared::SecondShorter => [2, 0, 0],
            Compared::Differ { element, byte } => [3, element, byte],
        }))
    }
}

impl MemberCalls for Second {
    fn build_membership(store: &[u8], i: u64, n: u64, out: &mut [u8]) -> Answer {
        one_number(proof::build_membership::<Sha256>(store, i, n, out))
    }

    fn check_membership(entry: &[u8], i: u64, n: u64, digest: &Digest, proof: &[u8]) -> Answer {
        one_number(proof::check_membership::<Sha256>(entry, i, n, digest, proof))
    }

    fn dispute(sides: [Side; 2], i: u64, n: u64, digest: &Digest, out: [&mut [u8]; 2]) -> Answer {
        let sides = sides.map(|side| dispute::Side { entry: side.entry, proof: side.proof });
        numbers(dispute::dispute::<Sha256>(sides, i, n, digest, out).map(|found| match found {
            Found::Same => [1, 0, 0],
            Found::Messages(first, second) => [0, first, second],
        }))
    }

    fn differing(first: &[u8], second: &[u8], i: u64, n: u64) -> Answer {
        let part = dispute::differing(first, second, i, n);
        numbers(Ok([part.start as u64, part.len() as u64, 0]))
    }
}

impl AdvanceCalls for Second {
    fn held_at(store: &[u8], at: u64, held: &mut Held) -> u64 {
        lent(held::held_at::<Sha256>(store, at).map(|state| held_bytes(&state)), held)
    }

    fn held_start(log: u64, held: &mut Held) -> u64 {
        lent(Ok(held_bytes(&held::held_start::<Sha256>(log))), held)
    }

    fn build_advancement(store: &[u8], i: u64, n: u64, out: &mut [u8]) -> Answer {
        one_number(proof::build_advancement::<Sha256>(store, i, n, out))
    }

    fn check_advancement(held: &mut Held, n: u64, digest: &Digest, proof: &[u8]) -> Answer {
        let before = held_of_bytes(held);
        one_number(held::check_advancement::<Sha256>(&before, n, digest, proof).map(
            |(hops, after)| {
                *held = held_bytes(&after);
                hops
            },
        ))
    }
}

impl SavedCalls for Second {
    fn held_write(held: &Held, out: &mut [u8]) -> Answer {
        one_number(saved::write::<Sha256>(&held_of_bytes(held), out))
    }

    fn held_read(file: &[u8], held: &mut Held) -> u64 {
        lent(saved::read::<Sha256>(file).map(|state| held_bytes(&state)), held)
    }
}

impl TrieCalls for Second {
    fn handle(key: &[u8], handle: &mut Digest) -> u64 {
        lent(trie::handle::<Sha256>(key), handle)
    }

    fn trie_root(handles: &[u8], root: &mut Digest) -> u64 {
        lent(trie::root::<Sha256>(handles), root)
    }

    fn prove_presence(handles: &[u8], key: &[u8], out: &mut [u8]) -> Answer {
        one_number(trie::prove_presence::<Sha256>(handles, key, out))
    }

    fn prove_absence(handles: &[u8], key: &[u8], out: &mut [u8]) -> Answer {
        one_number(trie::prove_absence::<Sha256>(handles, key, out))
    }

    fn check_presence(key: &[u8], root: &Digest, proof: &[u8]) -> u64 {
        lent(trie::check_presence::<Sha256>(key, root, proof), &mut ())
    }

    fn check_absence(key: &[u8], root: &Digest, proof: &[u8]) -> u64 {
        lent(trie::check_absence::<Sha256>(key, root, proof), &mut ())
    }

    fn trie_clash(
        key: &[u8],
        root: &Digest,
        presence: &[u8],
        absence: &[u8],
        out: [&mut [u8]; 2],
    ) -> Answer {
        let shown = trie::clash::<Sha256>(key, root, presence, absence, out);
        numbers(shown.map(|shown| match shown {
            Shown::Pair(first, second) => [0, first, second],
            Shown::Zeros(length) => [1, length, 0],
        }))
    }
}

impl SealCalls for Second {
    fn mac(key: &[u8], message: &[u8], mac: &mut Digest) -> u64 {
        lent(mac::mac::<Sha256>(key, message), mac)
    }

    fn seal_add(
        key: &mut [u8],
        chain: &mut Digest,
        kind: u32,
        data: &[u8],
        out: &mut [u8],
    ) -> Answer {
        one_number(sealed::add::<Sha256>(key, chain, kind, data, out))
    }

    fn seal_check(first_key: &Digest, log: &[u8]) -> Answer {
        one_number(sealed::check::<Sha256>(first_key, log))
    }
}
