//! Makes a call on both sides and compares all that can be seen of it.
//!
//! Each method returns what the two agreed on, so that a group can go on from there. The calls of a
//! group are a trait, whatever the sides are, and the group's functions take that: so they are
//! compiled once and not for every two sides.

use std::fmt::Debug;
use std::marker::PhantomData;
use std::ops::Range;

use lotlog::{Answer, Digest, Held, Side, HELD_BYTES};

use crate::calls::{AdvanceCalls, CopyCalls, HashCalls, MemberCalls, SavedCalls};
use crate::calls::{SealCalls, StoreCalls, TrieCalls};
use crate::second_calls::Second;

/// What lent memory holds before a call that is to write it.
pub const BEFORE: u8 = 0xEE;

const GUARD: usize = 64;
const GUARD_BYTE: u8 = 0xA5;

/// A copy of lent memory with guard bytes on both sides.
struct Lent(Vec<u8>);

impl Lent {
    fn of(bytes: &[u8]) -> Lent {
        let guard = [GUARD_BYTE; GUARD];
        Lent([&guard[..], bytes, &guard].concat())
    }

    fn lend(&mut self) -> &mut [u8] {
        let end = self.0.len() - GUARD;
        &mut self.0[GUARD..end]
    }

    /// Lends an array; the copy was made of one of that length.
    fn lend_array<const N: usize>(&mut self) -> &mut [u8; N] {
        self.lend().try_into().expect("the length of the array")
    }

    /// Panics unless the memory is what is wanted and the guard bytes are untouched.
    fn must_be(&self, wanted: &[u8], call: impl Fn() -> String) {
        let (before, rest) = self.0.split_at(GUARD);
        let (ours, after) = rest.split_at(rest.len() - GUARD);
        if ours != wanted {
            let at = ours.iter().zip(wanted).position(|(one, other)| one != other);
            panic!("{}: lent memory differs, first at byte {:?}", call(), at);
        }
        if before != [GUARD_BYTE; GUARD] || after != [GUARD_BYTE; GUARD] {
            panic!("{}: bytes beside lent memory were written", call());
        }
    }
}

/// A library beside the second program, the number of calls compared so far, and how many of these
/// answers were also told beforehand. The harness's own test puts something else in the second
/// program's place.
pub struct Both<C, S = Second> {
    pub calls: u64,
    pub told: u64,
    sides: PhantomData<(C, S)>,
}

impl<C, S> Default for Both<C, S> {
    fn default() -> Self {
        Both { calls: 0, told: 0, sides: PhantomData }
    }
}

impl<C, S> Both<C, S> {
    /// Counts the call and panics unless both sides answered alike.
    fn agree<T: PartialEq + Debug>(&mut self, ours: T, wanted: T, call: impl Fn() -> String) {
        self.calls += 1;
        if ours != wanted {
            panic!("{}: {:?}, where the second program has {:?}", call(), ours, wanted);
        }
    }
}

/// Answers that were also told beforehand are counted.
pub trait Counted {
    fn count_told(&mut self);
}

impl<C, S> Counted for Both<C, S> {
    fn count_told(&mut self) {
        self.told += 1;
    }
}

impl<C: HashCalls> Both<C> {
    pub fn hash(&mut self, message: &[u8]) -> (u64, Digest) {
        let mut wanted = [BEFORE; 32];
        let mut ours = Lent::of(&wanted);
        let number = C::hash(message, ours.lend_array());
        let wanted_number = Second::hash(message, &mut wanted);
        let call = || format!("hash of {} bytes", message.len());
        self.agree(number, wanted_number, call);
        ours.must_be(&wanted, call);
        (wanted_number, wanted)
    }
}

/// Keeping a store, on both sides.
pub trait BothStore: Counted {
    fn start(&mut self, store: &mut [u8], log: u64) -> u64;

    fn count(&mut self, store: &[u8]) -> Answer;

    fn append(&mut self, store: &mut [u8], entry: &[u8], stop: u64) -> Answer;

    fn digest_at(&mut self, store: &[u8], at: u64) -> (u64, Digest);

    fn audit(&mut self, store: &[u8]) -> Answer;
}

impl<C: StoreCalls, S: StoreCalls> BothStore for Both<C, S> {
    fn start(&mut self, store: &mut [u8], log: u64) -> u64 {
        let mut ours = Lent::of(store);
        let number = C::start(ours.lend(), log);
        let wanted = S::start(store, log);
        let call = || format!("start of {} bytes, log {}", store.len(), log);
        self.agree(number, wanted, call);
        ours.must_be(store, call);
        wanted
    }

    fn count(&mut self, store: &[u8]) -> Answer {
        let wanted = S::count(store);
        self.agree(C::count(store), wanted, || format!("count of {} bytes", store.len()));
        wanted
    }

    fn append(&mut self, store: &mut [u8], entry: &[u8], stop: u64) -> Answer {
        let mut ours = Lent::of(store);
        let answer = C::append(ours.lend(), entry, stop);
        let wanted = S::append(store, entry, stop);
        let call = || {
            let (room, length) = (store.len(), entry.len());
            format!("append to {} bytes, entry of {}, stop {}", room, length, stop)
        };
        self.agree(answer, wanted, call);
        ours.must_be(store, call);
        wanted
    }

    fn digest_at(&mut self, store: &[u8], at: u64) -> (u64, Digest) {
        let mut wanted = [BEFORE; 32];
        let mut ours = Lent::of(&wanted);
        let number = C::digest_at(store, at, ours.lend_array());
        let wanted_number = S::digest_at(store, at, &mut wanted);
        let call = || format!("digest at {} of {} bytes", at, store.len());
        self.agree(number, wanted_number, call);
        ours.must_be(&wanted, call);
        (wanted_number, wanted)
    }

    fn audit(&mut self, store: &[u8]) -> Answer {
        let wanted = S::audit(store);
        self.agree(C::audit(store), wanted, || format!("audit of {} bytes", store.len()));
        wanted
    }
}

/// Two stores that should agree, on both sides.
pub trait BothCopies: Counted {
    fn compare(&mut self, first: &[u8], second: &[u8]) -> Answer;

    /// Compares two parts of one piece of memory, which may overlap or be the same.
    fn compare_parts(&mut self, memory: &[u8], parts: [Range<usize>; 2]) -> Answer;
}

impl<C: CopyCalls, S: CopyCalls> BothCopies for Both<C, S> {
    fn compare(&mut self, first: &[u8], second: &[u8]) -> Answer {
        let (mut our_first, mut our_second) = (Lent::of(first), Lent::of(second));
        let answer = C::compare(our_first.lend(), our_second.lend());
        let wanted = S::compare(first, second);
        let call = || format!("comparison of stores of {} and {} bytes", first.len(), second.len());
        self.agree(answer, wanted, call);
        our_first.must_be(first, call);
        our_second.must_be(second, call);
        wanted
    }

    fn compare_parts(&mut self, memory: &[u8], parts: [Range<usize>; 2]) -> Answer {
        let mut ours = Lent::of(memory);
        let lent = &*ours.lend();
        let [first, second] = parts.clone();
        let answer = C::compare(&lent[first.clone()], &lent[second.clone()]);
        let wanted = S::compare(&memory[first], &memory[second]);
        let call = || format!("comparison of the parts {:?} of one store", parts);
        self.agree(answer, wanted, call);
        ours.must_be(memory, call);
        wanted
    }
}

/// Membership and disputes, on both sides.
pub trait BothMember: Counted {
    /// Builds into an output of `room` bytes.
    fn build_membership(&mut self, store: &[u8], i: u64, n: u64, room: usize) -> Answer;

    fn check_membership(
        &mut self,
        entry: &[u8],
        i: u64,
        n: u64,
        digest: &Digest,
        proof: &[u8],
    ) -> Answer;

    /// Settles a dispute with two buffers of these lengths.
    fn dispute(
        &mut self,
        sides: [Side; 2],
        i: u64,
        n: u64,
        digest: &Digest,
        rooms: [usize; 2],
    ) -> Answer;

    fn differing(&mut self, first: &[u8], second: &[u8], i: u64, n: u64) -> Answer;
}

impl<C: MemberCalls, S: MemberCalls> BothMember for Both<C, S> {
    fn build_membership(&mut self, store: &[u8], i: u64, n: u64, room: usize) -> Answer {
        let mut wanted = vec![BEFORE; room];
        let mut ours = Lent::of(&wanted);
        let answer = C::build_membership(store, i, n, ours.lend());
        let wanted_answer = S::build_membership(store, i, n, &mut wanted);
        let call = || format!("membership ({}, {}) from {} bytes", i, n, store.len());
        self.agree(answer, wanted_answer, call);
        ours.must_be(&wanted, call);
        wanted_answer
    }

    fn check_membership(
        &mut self,
        entry: &[u8],
        i: u64,
        n: u64,
        digest: &Digest,
        proof: &[u8],
    ) -> Answer {
        let answer = C::check_membership(entry, i, n, digest, proof);
        let wanted = S::check_membership(entry, i, n, digest, proof);
        self.agree(answer, wanted, || {
            let (length, bytes) = (entry.len(), proof.len());
            format!("check of ({}, {}), entry of {}, proof of {}", i, n, length, bytes)
        });
        wanted
    }

    fn dispute(
        &mut self,
        sides: [Side; 2],
        i: u64,
        n: u64,
        digest: &Digest,
        rooms: [usize; 2],
    ) -> Answer {
        let [mut first, mut second] = rooms.map(|room| vec![BEFORE; room]);
        let (mut our_first, mut our_second) = (Lent::of(&first), Lent::of(&second));
        let answer = C::dispute(sides, i, n, digest, [our_first.lend(), our_second.lend()]);
        let wanted = S::dispute(sides, i, n, digest, [&mut first, &mut second]);
        let call = || format!("dispute over ({}, {}), rooms of {:?}", i, n, rooms);
        self.agree(answer, wanted, call);
        our_first.must_be(&first, call);
        our_second.must_be(&second, call);
        wanted
    }

    fn differing(&mut self, first: &[u8], second: &[u8], i: u64, n: u64) -> Answer {
        let answer = C::differing(first, second, i, n);
        let wanted = S::differing(first, second, i, n);
        self.agree(answer, wanted, || {
            let lengths = (first.len(), second.len());
            format!("differing part for ({}, {}), proofs of {:?}", i, n, lengths)
        });
        wanted
    }
}

/// Held states and advancement, on both sides.
pub trait BothAdvance: Counted {
    fn held_at(&mut self, store: &[u8], at: u64) -> (u64, Held);

    fn held_start(&mut self, log: u64) -> Held;

    /// Builds into an output of `room` bytes.
    fn build_advancement(&mut self, store: &[u8], i: u64, n: u64, room: usize) -> Answer;

    /// Advances; returns the answer and the state handed back.
    fn check_advancement(
        &mut self,
        held: &Held,
        n: u64,
        digest: &Digest,
        proof: &[u8],
    ) -> (Answer, Held);
}

impl<C: AdvanceCalls, S: AdvanceCalls> BothAdvance for Both<C, S> {
    fn held_at(&mut self, store: &[u8], at: u64) -> (u64, Held) {
        let mut wanted = [BEFORE; HELD_BYTES];
        let mut ours = Lent::of(&wanted);
        let number = C::held_at(store, at, ours.lend_array());
        let wanted_number = S::held_at(store, at, &mut wanted);
        let call = || format!("held state at {} of {} bytes", at, store.len());
        self.agree(number, wanted_number, call);
        ours.must_be(&wanted, call);
        (wanted_number, wanted)
    }

    fn held_start(&mut self, log: u64) -> Held {
        let mut wanted = [BEFORE; HELD_BYTES];
        let mut ours = Lent::of(&wanted);
        let number = C::held_start(log, ours.lend_array());
        let wanted_number = S::held_start(log, &mut wanted);
        let call = || format!("held state at the start of log {}", log);
        self.agree(number, wanted_number, call);
        ours.must_be(&wanted, call);
        wanted
    }

    fn build_advancement(&mut self, store: &[u8], i: u64, n: u64, room: usize) -> Answer {
        let mut wanted = vec![BEFORE; room];
        let mut ours = Lent::of(&wanted);
        let answer = C::build_advancement(store, i, n, ours.lend());
        let wanted_answer = S::build_advancement(store, i, n, &mut wanted);
        let call = || format!("advancement {} to {} from {} bytes", i, n, store.len());
        self.agree(answer, wanted_answer, call);
        ours.must_be(&wanted, call);
        wanted_answer
    }

    fn check_advancement(
        &mut self,
        held: &Held,
        n: u64,
        digest: &Digest,
        proof: &[u8],
    ) -> (Answer, Held) {
        let mut wanted = *held;
        let mut ours = Lent::of(held);
        let answer = C::check_advancement(ours.lend_array(), n, digest, proof);
        let wanted_answer = S::check_advancement(&mut wanted, n, digest, proof);
        let call = || format!("advancing to {}, proof of {} bytes", n, proof.len());
        self.agree(answer, wanted_answer, call);
        ours.must_be(&wanted, call);
        (wanted_answer, wanted)
    }
}

/// Held states in files, on both sides.
pub trait BothSaved: Counted {
    /// Writes into an output of `room` bytes; returns the answer and the output.
    fn held_write(&mut self, held: &Held, room: usize) -> (Answer, Vec<u8>);

    /// Reads a file; returns the number and what the lent state holds then.
    fn held_read(&mut self, file: &[u8]) -> (u64, Held);
}

impl<C: SavedCalls, S: SavedCalls> BothSaved for Both<C, S> {
    fn held_write(&mut self, held: &Held, room: usize) -> (Answer, Vec<u8>) {
        let mut wanted = vec![BEFORE; room];
        let mut ours = Lent::of(&wanted);
        let answer = C::held_write(held, ours.lend());
        let wanted_answer = S::held_write(held, &mut wanted);
        let call = || {
            let count = u64::from_be_bytes(held[8..16].try_into().expect("8 bytes"));
            format!("file of a held state at {}, room of {}", count, room)
        };
        self.agree(answer, wanted_answer, call);
        ours.must_be(&wanted, call);
        (wanted_answer, wanted)
    }

    fn held_read(&mut self, file: &[u8]) -> (u64, Held) {
        let mut wanted = [BEFORE; HELD_BYTES];
        let mut ours = Lent::of(&wanted);
        let number = C::held_read(file, ours.lend_array());
        let wanted_number = S::held_read(file, &mut wanted);
        let call = || {
            let head = &file[..file.len().min(21)];
            format!("held state of a file of {} bytes with the head {:02x?}", file.len(), head)
        };
        self.agree(number, wanted_number, call);
        ours.must_be(&wanted, call);
        (wanted_number, wanted)
    }
}

impl<C: TrieCalls> Both<C> {
    pub fn handle(&mut self, key: &[u8]) -> (u64, Digest) {
        let mut wanted = [BEFORE; 32];
        let mut ours = Lent::of(&wanted);
        let number = C::handle(key, ours.lend_array());
        let wanted_number = Second::handle(key, &mut wanted);
        let call = || format!("handle of a key of {} bytes", key.len());
        self.agree(number, wanted_number, call);
        ours.must_be(&wanted, call);
        (wanted_number, wanted)
    }

    pub fn trie_root(&mut self, handles: &[u8]) -> (u64, Digest) {
        let mut wanted = [BEFORE; 32];
        let mut ours = Lent::of(&wanted);
        let number = C::trie_root(handles, ours.lend_array());
        let wanted_number = Second::trie_root(handles, &mut wanted);
        let call = || format!("root of {} bytes of handles", handles.len());
        self.agree(number, wanted_number, call);
        ours.must_be(&wanted, call);
        (wanted_number, wanted)
    }

    /// Builds into an output of `room` bytes; returns the answer and the output.
    pub fn prove_presence(&mut self, handles: &[u8], key: &[u8], room: usize) -> (Answer, Vec<u8>) {
        let mut wanted = vec![BEFORE; room];
        let mut ours = Lent::of(&wanted);
        let answer = C::prove_presence(handles, key, ours.lend());
        let wanted_answer = Second::prove_presence(handles, key, &mut wanted);
        let call = || proving("presence", handles, key, room);
        self.agree(answer, wanted_answer, call);
        ours.must_be(&wanted, call);
        (wanted_answer, wanted)
    }

    /// Builds into an output of `room` bytes; returns the answer and the output.
    pub fn prove_absence(&mut self, handles: &[u8], key: &[u8], room: usize) -> (Answer, Vec<u8>) {
        let mut wanted = vec![BEFORE; room];
        let mut ours = Lent::of(&wanted);
        let answer = C::prove_absence(handles, key, ours.lend());
        let wanted_answer = Second::prove_absence(handles, key, &mut wanted);
        let call = || proving("absence", handles, key, room);
        self.agree(answer, wanted_answer, call);
        ours.must_be(&wanted, call);
        (wanted_answer, wanted)
    }

    pub fn check_presence(&mut self, key: &[u8], root: &Digest, proof: &[u8]) -> u64 {
        let number = C::check_presence(key, root, proof);
        let wanted = Second::check_presence(key, root, proof);
        self.agree(number, wanted, || {
            format!("check of presence, key of {}, proof of {}", key.len(), proof.len())
        });
        wanted
    }

    pub fn check_absence(&mut self, key: &[u8], root: &Digest, proof: &[u8]) -> u64 {
        let number = C::check_absence(key, root, proof);
        let wanted = Second::check_absence(key, root, proof);
        self.agree(number, wanted, || {
            format!("check of absence, key of {}, proof of {}", key.len(), proof.len())
        });
        wanted
    }

    /// Looks for a clash with two buffers of these lengths.
    pub fn trie_clash(
        &mut self,
        key: &[u8],
        root: &Digest,
        presence: &[u8],
        absence: &[u8],
        rooms: [usize; 2],
    ) -> Answer {
        let [mut first, mut second] = rooms.map(|room| vec![BEFORE; room]);
        let (mut our_first, mut our_second) = (Lent::of(&first), Lent::of(&second));
        let out = [our_first.lend(), our_second.lend()];
        let answer = C::trie_clash(key, root, presence, absence, out);
        let wanted = Second::trie_clash(key, root, presence, absence, [&mut first, &mut second]);
        let call = || {
            let lengths = (presence.len(), absence.len());
            format!("clash of proofs of {:?}, key of {}, rooms of {:?}", lengths, key.len(), rooms)
        };
        self.agree(answer, wanted, call);
        our_first.must_be(&first, call);
        our_second.must_be(&second, call);
        wanted
    }
}

/// Held states, and their files, on both sides.
pub trait BothKept: BothAdvance + BothSaved {}

impl<C: AdvanceCalls + SavedCalls, S: AdvanceCalls + SavedCalls> BothKept for Both<C, S> {}

/// All that has to do with the limit, on both sides.
pub trait BothEnds: BothStore + BothMember + BothKept {}

impl<C, S> BothEnds for Both<C, S>
where
    C: StoreCalls + MemberCalls + AdvanceCalls + SavedCalls,
    S: StoreCalls + MemberCalls + AdvanceCalls + SavedCalls,
{
}

/// The vans' logs, on both sides.
pub trait BothSealed: Counted {
    fn mac(&mut self, key: &[u8], message: &[u8]) -> (u64, Digest);

    /// Adds into an output of `room` bytes; returns the answer and the output. Key and chain are
    /// lent, and hold then what the call left there.
    fn seal_add(
        &mut self,
        key: &mut [u8],
        chain: &mut Digest,
        kind: u32,
        data: &[u8],
        room: usize,
    ) -> (Answer, Vec<u8>);

    fn seal_check(&mut self, first_key: &Digest, log: &[u8]) -> Answer;
}

impl<C: SealCalls, S: SealCalls> BothSealed for Both<C, S> {
    fn mac(&mut self, key: &[u8], message: &[u8]) -> (u64, Digest) {
        let mut wanted = [BEFORE; 32];
        let mut ours = Lent::of(&wanted);
        let number = C::mac(key, message, ours.lend_array());
        let wanted_number = S::mac(key, message, &mut wanted);
        let call = || format!("HMAC, key of {}, message of {}", key.len(), message.len());
        self.agree(number, wanted_number, call);
        ours.must_be(&wanted, call);
        (wanted_number, wanted)
    }

    fn seal_add(
        &mut self,
        key: &mut [u8],
        chain: &mut Digest,
        kind: u32,
        data: &[u8],
        room: usize,
    ) -> (Answer, Vec<u8>) {
        let mut wanted = vec![BEFORE; room];
        let mut ours = Lent::of(&wanted);
        let (mut our_key, mut our_chain) = (Lent::of(key), Lent::of(chain));
        let answer = C::seal_add(our_key.lend(), our_chain.lend_array(), kind, data, ours.lend());
        let wanted_answer = S::seal_add(key, chain, kind, data, &mut wanted);
        let call = |of: &str| {
            let (bytes, length) = (data.len(), key.len());
            format!("adding {} of type {}, key of {}, room of {}{}", bytes, kind, length, room, of)
        };
        self.agree(answer, wanted_answer, || call(""));
        our_key.must_be(key, || call(", the key"));
        our_chain.must_be(&*chain, || call(", the chain"));
        ours.must_be(&wanted, || call(", the output"));
        (wanted_answer, wanted)
    }

    fn seal_check(&mut self, first_key: &Digest, log: &[u8]) -> Answer {
        let answer = C::seal_check(first_key, log);
        let wanted = S::seal_check(first_key, log);
        self.agree(answer, wanted, || format!("check of a van's log of {} bytes", log.len()));
        wanted
    }
}

fn proving(kind: &str, handles: &[u8], key: &[u8], room: usize) -> String {
    let (bytes, length) = (handles.len(), key.len());
    format!("{} among {} bytes of handles, key of {}, room of {}", kind, bytes, length, room)
}
