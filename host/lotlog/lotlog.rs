//! Safe Rust over the proved library: one function for each call of `host/include/lotlog.h`.
//!
//! A slice passes as a pointer and a length, an array as a pointer; the borrow rules of Rust see to
//! what the header asks of a C caller. Every call returns a number of documents 01 and 02, 0 for
//! done, and where it answers with numbers they stand in [`Answer::beside`]. Positions count from
//! 1. A store holds the digests of entries and not the entries, which are the caller's to keep.
//!
//! [`file`] keeps a store in a file, safely, what a practice holds, and a van's log. A program links the archive
//! that `host/run library` makes (README has the line), which needs at most memcpy, memmove and memset,
//! as every Rust program has them.
//!
//! The functions are `#[inline]`, so a program refers only to the calls that it makes: it links
//! with a library that has these and not yet the others.

pub mod file;

/// The bytes of a store's header, and of each record behind it.
pub const HEADER_BYTES: usize = 16;
pub const RECORD_BYTES: usize = 65;

/// The levels of a log; the most elements, the most bytes of a proof and the bytes of a held state,
/// which has a row for each level, follow from it: 4,294,967,295, 34,784 and 1,072.
pub const LEVELS: usize = 32;
pub const ELEMENTS_MOST: usize = (1 << LEVELS) - 1;
pub const PROOF_MOST: usize = 32 * (LEVELS * LEVELS + 2 * LEVELS - 1);
pub const HELD_BYTES: usize = 48 + 32 * LEVELS;

/// The least bytes of a held file, and the most: 1,077, with a row for each level.
pub const HELD_FILE_LEAST: usize = 53;
pub const HELD_FILE_MOST: usize = HELD_FILE_LEAST + 32 * LEVELS;

/// The most handles of a list, the most bytes of a trie proof, and the least room of a clash's
/// buffer.
pub const HANDLES_MOST: usize = 1_000;
pub const TRIE_PROOF_MOST: usize = 8_192;
pub const CLASH_LEAST: usize = 65;

/// The most bytes of a key of HMAC, and of a message under it.
pub const MAC_KEY_MOST: usize = 65_536;
pub const MAC_MESSAGE_MOST: usize = 65_472;

/// The type of an entry that closes a van's log.
pub const CLOSING: u32 = 1;

/// The bytes of a van's entry beside its data: type, length and seal.
pub const SEALED_BESIDE: usize = 38;

/// The most bytes of stack that adding a van's entry takes; measured, not proved.
pub const SEAL_STACK_MOST: usize = 4_096;

/// The `stop` of a whole append: its last store, of the state byte, closes the record.
pub const WHOLE: u64 = 65;

/// The bytes of a store with room for so many elements.
#[inline]
pub const fn store_bytes(room: usize) -> usize {
    HEADER_BYTES + RECORD_BYTES * room
}

/// Words for a number of documents 01 and 02.
#[inline]
pub fn meaning(number: u64) -> &'static str {
    match number {
        0 => "done",
        1 => "store damaged",
        2 => "held state broken",
        3 => "entry, key or message too long",
        4 => "no such position or length",
        5 => "no open record",
        6 => "lent output too short",
        7 => "proof length not that of the path",
        8 => "first d is not the entry's",
        9 => "basis row differs",
        10 => "link differs",
        11 => "last digest differs",
        12 => "wrong T",
        13 => "proof not accepted",
        14 => "list of handles broken, not rising or too long",
        15 => "asked kind not true",
        16 => "trie proof length not that of its kind",
        17 => "root differs",
        18 => "held file under 53 bytes",
        19 => "held file mark wrong",
        20 => "held file version wrong",
        21 => "held file count over the limit",
        22 => "held file length not that of its count",
        23 => "van's log closed",
        24 => "entry of a van's log wrong",
        25 => "no closing entry",
        26 => "log numbers differ",
        _ => "no number of documents 01 and 02",
    }
}

/// A digest: 32 bytes.
pub type Digest = [u8; 32];

/// A held state: log number, count (8 bytes each, big-endian), digest, a row for each level.
pub type Held = [u8; HELD_BYTES];

/// The number of a call and the numbers beside it.
#[must_use]
#[derive(Debug, Clone, Copy, PartialEq, Eq)]
pub struct Answer {
    pub number: u64,
    pub beside: [u64; 3],
}

/// Where a proof broke: the element that the bad hop reaches, and with 9 the row that differs, the
/// lowest if several do, with 10 the level hopped.
#[derive(Debug, Clone, Copy, PartialEq, Eq)]
pub struct Place {
    pub element: u64,
    pub level: u64,
}

impl Answer {
    /// Where a proof broke, with 9 and 10; no other number has a place.
    #[inline]
    pub fn place(&self) -> Option<Place> {
        let [_, element, level] = self.beside;
        matches!(self.number, 9 | 10).then(|| Place { element, level })
    }

    /// Words for the number and for the place, if there is one.
    #[inline]
    pub fn meaning(&self) -> String {
        let words = meaning(self.number);
        let kind = if self.number == 9 { "row" } else { "level" };
        match self.place() {
            Some(at) => format!("{} at element {}, {} {}", words, at.element, kind, at.level),
            None => words.to_string(),
        }
    }
}

mod raw {
    extern "C" {
        pub fn lot_hash(message: *const u8, length: usize, digest: *mut u8) -> u64;
        pub fn lot_start(store: *mut u8, length: usize, log: u64) -> u64;
        pub fn lot_count(store: *const u8, length: usize, answer: *mut u64) -> u64;
        pub fn lot_append(
            store: *mut u8,
            length: usize,
            entry: *const u8,
            entry_length: usize,
            stop: u64,
            answer: *mut u64,
        ) -> u64;
        pub fn lot_digest_at(store: *const u8, length: usize, at: u64, digest: *mut u8) -> u64;
        pub fn lot_audit(store: *const u8, length: usize, answer: *mut u64) -> u64;
        pub fn lot_compare(
            first: *const u8,
            first_length: usize,
            second: *const u8,
            second_length: usize,
            answer: *mut u64,
        ) -> u64;
        pub fn lot_build_membership(
            store: *const u8,
            length: usize,
            i: u64,
            n: u64,
            out: *mut u8,
            out_length: usize,
            answer: *mut u64,
        ) -> u64;
        pub fn lot_check_membership(
            entry: *const u8,
            entry_length: usize,
            i: u64,
            n: u64,
            digest: *const u8,
            proof: *const u8,
            proof_length: usize,
            answer: *mut u64,
        ) -> u64;
        pub fn lot_dispute(
            first_entry: *const u8,
            first_entry_length: usize,
            first_proof: *const u8,
            first_proof_length: usize,
            second_entry: *const u8,
            second_entry_length: usize,
            second_proof: *const u8,
            second_proof_length: usize,
            i: u64,
            n: u64,
            digest: *const u8,
            first_out: *mut u8,
            first_out_length: usize,
            second_out: *mut u8,
            second_out_length: usize,
            answer: *mut u64,
        ) -> u64;
        pub fn lot_differing(
            first: *const u8,
            first_length: usize,
            second: *const u8,
            second_length: usize,
            i: u64,
            n: u64,
            answer: *mut u64,
        ) -> u64;
        pub fn lot_held_at(store: *const u8, length: usize, at: u64, held: *mut u8) -> u64;
        pub fn lot_held_start(log: u64, held: *mut u8) -> u64;
        pub fn lot_build_advancement(
            store: *const u8,
            length: usize,
            i: u64,
            n: u64,
            out: *mut u8,
            out_length: usize,
            answer: *mut u64,
        ) -> u64;
        pub fn lot_check_advancement(
            held: *mut u8,
            n: u64,
            digest: *const u8,
            proof: *const u8,
            proof_length: usize,
            answer: *mut u64,
        ) -> u64;
        pub fn lot_held_write(
            held: *const u8,
            out: *mut u8,
            out_length: usize,
            answer: *mut u64,
        ) -> u64;
        pub fn lot_held_read(file: *const u8, file_length: usize, held: *mut u8) -> u64;
        pub fn lot_handle(key: *const u8, key_length: usize, handle: *mut u8) -> u64;
        pub fn lot_trie_root(handles: *const u8, handles_length: usize, root: *mut u8) -> u64;
        pub fn lot_prove_presence(
            handles: *const u8,
            handles_length: usize,
            key: *const u8,
            key_length: usize,
            out: *mut u8,
            out_length: usize,
            answer: *mut u64,
        ) -> u64;
        pub fn lot_prove_absence(
            handles: *const u8,
            handles_length: usize,
            key: *const u8,
            key_length: usize,
            out: *mut u8,
            out_length: usize,
            answer: *mut u64,
        ) -> u64;
        pub fn lot_check_presence(
            key: *const u8,
            key_length: usize,
            root: *const u8,
            proof: *const u8,
            proof_length: usize,
        ) -> u64;
        pub fn lot_check_absence(
            key: *const u8,
            key_length: usize,
            root: *const u8,
            proof: *const u8,
            proof_length: usize,
        ) -> u64;
        pub fn lot_trie_clash(
            key: *const u8,
            key_length: usize,
            root: *const u8,
            presence: *const u8,
            presence_length: usize,
            absence: *const u8,
            absence_length: usize,
            first_out: *mut u8,
            first_out_length: usize,
            second_out: *mut u8,
            second_out_length: usize,
            answer: *mut u64,
        ) -> u64;
        pub fn lot_mac(
            key: *const u8,
            key_length: usize,
            message: *const u8,
            message_length: usize,
            mac: *mut u8,
        ) -> u64;
        pub fn lot_seal_add(
            key: *mut u8,
            key_length: usize,
            chain: *mut u8,
            kind: u32,
            data: *const u8,
            data_length: usize,
            out: *mut u8,
            out_length: usize,
            answer: *mut u64,
        ) -> u64;
        pub fn lot_seal_check(
            first_key: *const u8,
            log: *const u8,
            log_length: usize,
            answer: *mut u64,
        ) -> u64;
    }
}

/// Makes a call that answers with numbers. The library writes all three; one that it left would
/// show as `u64::MAX`.
#[inline]
fn answered(call: impl FnOnce(*mut u64) -> u64) -> Answer {
    let mut beside = [u64::MAX; 3];
    let number = call(beside.as_mut_ptr());
    Answer { number, beside }
}

/// SHA-256 of the message. Refusals: 3.
#[inline]
#[must_use]
pub fn hash(message: &[u8], digest: &mut Digest) -> u64 {
    unsafe { raw::lot_hash(message.as_ptr(), message.len(), digest.as_mut_ptr()) }
}

/// Starts a store for a log: the header, and 255 as the state byte of every record, which is open then.
/// Refusals: 6.
#[inline]
#[must_use]
pub fn start(store: &mut [u8], log: u64) -> u64 {
    unsafe { raw::lot_start(store.as_mut_ptr(), store.len(), log) }
}

/// The count. Refusals: 1.
#[inline]
pub fn count(store: &[u8]) -> Answer {
    answered(|answer| unsafe { raw::lot_count(store.as_ptr(), store.len(), answer) })
}

/// Appends an entry, stopping after `stop` stores of [`WHOLE`]; answers the count now held: with an
/// append that is cut, 0 and the old count. Refusals: 1, 3, 5.
#[inline]
pub fn append(store: &mut [u8], entry: &[u8], stop: u64) -> Answer {
    answered(|answer| unsafe {
        raw::lot_append(store.as_mut_ptr(), store.len(), entry.as_ptr(), entry.len(), stop, answer)
    })
}

/// Reads T(at). Refusals: 1, 4.
#[inline]
#[must_use]
pub fn digest_at(store: &[u8], at: u64, digest: &mut Digest) -> u64 {
    unsafe { raw::lot_digest_at(store.as_ptr(), store.len(), at, digest.as_mut_ptr()) }
}

/// Audits the store; answers the count, or with 12 the lowest wrong element. Refusals: 1, 12.
#[inline]
pub fn audit(store: &[u8]) -> Answer {
    answered(|answer| unsafe { raw::lot_audit(store.as_ptr(), store.len(), answer) })
}

/// Compares two stores of one log by the 64 bytes of each element, whatever stands in open room;
/// answers 0 if they are equal, 1 if the first is the start of the second, 2 if the second is the start
/// of the first, else 3, the first element at which they differ, and the first byte within its 64, from
/// 0. Refusals: 1, 26.
#[inline]
pub fn compare(first: &[u8], second: &[u8]) -> Answer {
    answered(|answer| unsafe {
        raw::lot_compare(first.as_ptr(), first.len(), second.as_ptr(), second.len(), answer)
    })
}

/// Builds the membership proof for (i, n); answers its length. Refusals: 1, 4, 6.
#[inline]
pub fn build_membership(store: &[u8], i: u64, n: u64, out: &mut [u8]) -> Answer {
    answered(|answer| unsafe {
        raw::lot_build_membership(
            store.as_ptr(),
            store.len(),
            i,
            n,
            out.as_mut_ptr(),
            out.len(),
            answer,
        )
    })
}

/// Checks a membership proof; answers the hops found good, and with 10 also where the proof broke:
/// [`Answer::place`]. Refusals: 3, 4, 7, 8, 10, 11.
#[inline]
pub fn check_membership(entry: &[u8], i: u64, n: u64, digest: &Digest, proof: &[u8]) -> Answer {
    answered(|answer| unsafe {
        raw::lot_check_membership(
            entry.as_ptr(),
            entry.len(),
            i,
            n,
            digest.as_ptr(),
            proof.as_ptr(),
            proof.len(),
            answer,
        )
    })
}

/// One side of a dispute.
#[derive(Clone, Copy)]
pub struct Side<'a> {
    pub entry: &'a [u8],
    pub proof: &'a [u8],
}

/// Settles a dispute; answers 1 if all is the same, else 0 and the two messages' lengths, and with
/// 13 the proof that is not accepted. Refusals: 6, 13.
#[inline]
pub fn dispute(sides: [Side; 2], i: u64, n: u64, digest: &Digest, out: [&mut [u8]; 2]) -> Answer {
    let [first, second] = sides;
    let [first_out, second_out] = out;
    answered(|answer| unsafe {
        raw::lot_dispute(
            first.entry.as_ptr(),
            first.entry.len(),
            first.proof.as_ptr(),
            first.proof.len(),
            second.entry.as_ptr(),
            second.entry.len(),
            second.proof.as_ptr(),
            second.proof.len(),
            i,
            n,
            digest.as_ptr(),
            first_out.as_mut_ptr(),
            first_out.len(),
            second_out.as_mut_ptr(),
            second_out.len(),
            answer,
        )
    })
}

/// Finds the differing component nearest n; answers where it begins in the second proof, and its
/// length. Never refuses.
#[inline]
pub fn differing(first: &[u8], second: &[u8], i: u64, n: u64) -> Answer {
    answered(|answer| unsafe {
        raw::lot_differing(first.as_ptr(), first.len(), second.as_ptr(), second.len(), i, n, answer)
    })
}

/// The held state that the store gives at a length. Refusals: 1, 4.
#[inline]
#[must_use]
pub fn held_at(store: &[u8], at: u64, held: &mut Held) -> u64 {
    unsafe { raw::lot_held_at(store.as_ptr(), store.len(), at, held.as_mut_ptr()) }
}

/// The held state at length 0 of a log. Never refuses.
#[inline]
#[must_use]
pub fn held_start(log: u64, held: &mut Held) -> u64 {
    unsafe { raw::lot_held_start(log, held.as_mut_ptr()) }
}

/// Builds the advancement proof from i to n; answers its length. Refusals: 1, 4, 6.
#[inline]
pub fn build_advancement(store: &[u8], i: u64, n: u64, out: &mut [u8]) -> Answer {
    answered(|answer| unsafe {
        raw::lot_build_advancement(
            store.as_ptr(),
            store.len(),
            i,
            n,
            out.as_mut_ptr(),
            out.len(),
            answer,
        )
    })
}

/// Advances a held state; answers the hops found good, and with 9 and 10 also where the proof broke:
/// [`Answer::place`]. Refusals: 2, 4, 7, 9, 10, 11.
#[inline]
pub fn check_advancement(held: &mut Held, n: u64, digest: &Digest, proof: &[u8]) -> Answer {
    answered(|answer| unsafe {
        raw::lot_check_advancement(
            held.as_mut_ptr(),
            n,
            digest.as_ptr(),
            proof.as_ptr(),
            proof.len(),
            answer,
        )
    })
}

/// Writes a held state as a held file; answers its length. Refusals: 2, 6.
#[inline]
pub fn held_write(held: &Held, out: &mut [u8]) -> Answer {
    answered(|answer| unsafe {
        raw::lot_held_write(held.as_ptr(), out.as_mut_ptr(), out.len(), answer)
    })
}

/// Reads a held file. Refusals: 18, 19, 20, 21, 22, 2, in this order.
#[inline]
#[must_use]
pub fn held_read(file: &[u8], held: &mut Held) -> u64 {
    unsafe { raw::lot_held_read(file.as_ptr(), file.len(), held.as_mut_ptr()) }
}

/// The handle of a key. Refusals: 3.
#[inline]
#[must_use]
pub fn handle(key: &[u8], handle: &mut Digest) -> u64 {
    unsafe { raw::lot_handle(key.as_ptr(), key.len(), handle.as_mut_ptr()) }
}

/// The root of the trie of these handles. Refusals: 14.
#[inline]
#[must_use]
pub fn trie_root(handles: &[u8], root: &mut Digest) -> u64 {
    unsafe { raw::lot_trie_root(handles.as_ptr(), handles.len(), root.as_mut_ptr()) }
}

/// Builds the proof that a key is present; answers its length. Refusals: 3, 14, 15, 6.
#[inline]
pub fn prove_presence(handles: &[u8], key: &[u8], out: &mut [u8]) -> Answer {
    answered(|answer| unsafe {
        raw::lot_prove_presence(
            handles.as_ptr(),
            handles.len(),
            key.as_ptr(),
            key.len(),
            out.as_mut_ptr(),
            out.len(),
            answer,
        )
    })
}

/// Builds the proof that a key is absent; answers its length. Refusals: 3, 14, 15, 6.
#[inline]
pub fn prove_absence(handles: &[u8], key: &[u8], out: &mut [u8]) -> Answer {
    answered(|answer| unsafe {
        raw::lot_prove_absence(
            handles.as_ptr(),
            handles.len(),
            key.as_ptr(),
            key.len(),
            out.as_mut_ptr(),
            out.len(),
            answer,
        )
    })
}

/// Checks that a key is present under a root. Refusals: 3, 16, 17.
#[inline]
#[must_use]
pub fn check_presence(key: &[u8], root: &Digest, proof: &[u8]) -> u64 {
    let (length, bytes) = (key.len(), proof.len());
    unsafe { raw::lot_check_presence(key.as_ptr(), length, root.as_ptr(), proof.as_ptr(), bytes) }
}

/// Checks that a key is absent under a root. Refusals: 3, 16, 17.
#[inline]
#[must_use]
pub fn check_absence(key: &[u8], root: &Digest, proof: &[u8]) -> u64 {
    let (length, bytes) = (key.len(), proof.len());
    unsafe { raw::lot_check_absence(key.as_ptr(), length, root.as_ptr(), proof.as_ptr(), bytes) }
}

/// Shows what an accepted presence and an accepted absence for one key and root lead to; answers 0
/// and the lengths of two different messages of equal hash, or 1 and the length of a message whose
/// hash is all zeros, and with 13 the proof that is not accepted. Refusals: 6, 13.
#[inline]
pub fn trie_clash(
    key: &[u8],
    root: &Digest,
    presence: &[u8],
    absence: &[u8],
    out: [&mut [u8]; 2],
) -> Answer {
    let [first_out, second_out] = out;
    answered(|answer| unsafe {
        raw::lot_trie_clash(
            key.as_ptr(),
            key.len(),
            root.as_ptr(),
            presence.as_ptr(),
            presence.len(),
            absence.as_ptr(),
            absence.len(),
            first_out.as_mut_ptr(),
            first_out.len(),
            second_out.as_mut_ptr(),
            second_out.len(),
            answer,
        )
    })
}

/// HMAC-SHA-256 of a message under a key, of any lengths up to [`MAC_KEY_MOST`] and
/// [`MAC_MESSAGE_MOST`]. Refusals: 3.
#[inline]
#[must_use]
pub fn mac(key: &[u8], message: &[u8], mac: &mut Digest) -> u64 {
    let (length, bytes) = (key.len(), message.len());
    unsafe { raw::lot_mac(key.as_ptr(), length, message.as_ptr(), bytes, mac.as_mut_ptr()) }
}

/// Adds an entry to a van's log: writes it to the start of `out` and answers its length. The key, of
/// 32 bytes, becomes the next one, or zeros behind an entry of type [`CLOSING`], and `chain`, 32 zero
/// bytes before the first entry, goes with it from call to call. Call [`clear_stack`] next: parts of
/// the old key are left on the stack. Refusals: 3, 6, 23.
#[inline]
pub fn seal_add(
    key: &mut [u8],
    chain: &mut Digest,
    kind: u32,
    data: &[u8],
    out: &mut [u8],
) -> Answer {
    answered(|answer| unsafe {
        raw::lot_seal_add(
            key.as_mut_ptr(),
            key.len(),
            chain.as_mut_ptr(),
            kind,
            data.as_ptr(),
            data.len(),
            out.as_mut_ptr(),
            out.len(),
            answer,
        )
    })
}

/// Overwrites [`SEAL_STACK_MOST`] bytes of the stack with zeros, from where the next call would begin: what
/// [`seal_add`] left there of the key that it was given. Call it where `seal_add` was called, and next.
#[inline(never)]
pub fn clear_stack() {
    let mut room = [1u8; SEAL_STACK_MOST];
    for byte in &mut room {
        // volatile, or the stores would be left out since nothing reads the room again
        unsafe { std::ptr::write_volatile(byte, 0) };
    }
}

/// Checks a van's whole log from its first key; answers the number of its entries, and with 24 the
/// first wrong one, counted from 0. Refusals: 24, 25.
#[inline]
pub fn seal_check(first_key: &Digest, log: &[u8]) -> Answer {
    answered(|answer| unsafe {
        raw::lot_seal_check(first_key.as_ptr(), log.as_ptr(), log.len(), answer)
    })
}
