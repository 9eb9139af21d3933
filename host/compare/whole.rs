//! The group `whole`: every call, picked at random, on sound and damaged input of every length.

use lotlog::Side;
use second::dispute::BUFFER_LEAST;
use second::hash::{Sha256, HASH_MOST};
use second::held::held_of;
use second::path::{advancement, membership, proof_length};
use second::store::{place, Log, HEADER, RECORD, STATE};
use second::ENTRY_MOST;

use crate::advance::Step;
use crate::both::{Both, BothAdvance, BothCopies, BothKept, BothMember, BothStore};
use crate::calls::{AdvanceCalls, CopyCalls, HashCalls, MemberCalls, SavedCalls};
use crate::calls::{SealCalls, StoreCalls, TrieCalls};
use crate::damage::spoiled;
use crate::logs::{read, sound};
use crate::member::Claim;
use crate::random::Random;
use crate::{ends, saved, sealed, trie};

/// The seed that every run tries, and how many calls are made with a seed.
pub const SEED: u64 = 5;
pub const CALLS: u64 = 150_000;

/// The lengths of the logs that the calls work on. They leave room for elements, or do not.
const LOGS: [(u64, u64); 9] =
    [(0, 0), (0, 1), (1, 2), (7, 1), (8, 8), (40, 0), (100, 3), (1_000, 1), (4_500, 0)];

/// Every call there is.
pub trait AllCalls:
    HashCalls + StoreCalls + CopyCalls + MemberCalls + AdvanceCalls + SavedCalls + TrieCalls + SealCalls
{
}

impl<C> AllCalls for C where
    C: HashCalls
        + StoreCalls
        + CopyCalls
        + MemberCalls
        + AdvanceCalls
        + SavedCalls
        + TrieCalls
        + SealCalls
{
}

/// Makes so many random calls or a few more.
pub fn run<C: AllCalls>(both: &mut Both<C>, seed: u64, calls: u64) {
    LOGS.iter().for_each(|(elements, room)| old_store(both, *elements, *room));
    let stores = LOGS.map(|(elements, room)| sound(elements, room));
    let mut random = Random::new(seed);
    let claims = trie::claims(&mut random);
    let vans = sealed::vans(&mut random);
    let enough = both.calls + calls;
    while both.calls < enough {
        let store = &stores[random.place(stores.len())];
        match random.below(31) {
            0 => hash(both, &mut random),
            1 => start(both, store, &mut random),
            2 | 3 => look(both, store, &mut random),
            4 | 5 => append(both, store, &mut random),
            6 | 7 => build_membership(both, store, &mut random),
            8 | 9 => build_advancement(both, store, &mut random),
            10..=14 => check_membership(both, store, &mut random),
            15..=19 => check_advancement(both, store, &mut random),
            20 | 21 => save(both, store, &mut random),
            22 => trie::any_call(both, &claims, &mut random),
            23 | 24 => sealed::any_call(both, &vans, &mut random),
            25 | 26 => compare(both, &stores, &mut random),
            _ => dispute(both, store, &mut random),
        }
    }
}

/// A store whose open records are marked 0, as document 01 had it: every call that reads it refuses
/// it with 1, unless it is full.
fn old_store<C: AllCalls>(both: &mut Both<C>, elements: u64, room: u64) {
    let mut store = sound(elements, room);
    (elements + 1..=elements + room).for_each(|j| store[place(j) + STATE] = 0);
    let numbers = [
        both.count(&store).number,
        both.audit(&store).number,
        both.compare(&store, &store).number,
        both.digest_at(&store, 0).0,
        both.held_at(&store, 0).0,
        both.build_advancement(&store, 0, 0, 0).number,
        both.build_membership(&store, elements.min(1), elements, 20_000).number,
        both.append(&mut store, b"x", RECORD as u64).number,
    ];
    let full = [0, 0, 0, 0, 0, 0, if elements == 0 { 4 } else { 0 }, 5];
    assert_eq!(numbers, if room == 0 { full } else { [1; 8] });
}

/// The bytes as they are, or spoiled once in so many times.
fn maybe_spoiled(bytes: &[u8], once_in: u64, random: &mut Random) -> Vec<u8> {
    if random.once_in(once_in) {
        spoiled(bytes, random)
    } else {
        bytes.to_vec()
    }
}

/// An array as it is, or with one byte changed once in so many times.
fn maybe_changed<const N: usize>(bytes: [u8; N], once_in: u64, random: &mut Random) -> [u8; N] {
    let mut changed = bytes;
    if random.once_in(once_in) {
        changed[random.place(N)] ^= random.between(1, 255) as u8;
    }
    changed
}

/// A store as it is or damaged: in its header, in a state byte, in a record, or in its length.
fn maybe_damaged(store: &[u8], random: &mut Random) -> Vec<u8> {
    let mut store = store.to_vec();
    let records = (store.len() - HEADER) / RECORD;
    match random.below(12) {
        0 => store[random.place(HEADER)] ^= 1 << random.below(8),
        1 if records > 0 => {
            let state = HEADER + RECORD * random.place(records) + STATE;
            store[state] = [0, 1, 2, 254, 255][random.place(5)];
        }
        2 | 3 if records > 0 => {
            let at = HEADER + random.place(RECORD * records);
            store[at] ^= 1 << random.below(8);
        }
        4 => store.truncate(random.place(store.len() + 1)),
        5 => store.extend(random.bytes(RECORD)),
        _ => (),
    }
    store
}

/// A number that the log holds, if it holds any.
fn held_number(log: &Log, random: &mut Random) -> u64 {
    random.between(0, log.count)
}

/// An output's room: enough and more, or too little once in four times.
fn room(length: usize, random: &mut Random) -> usize {
    if random.once_in(4) {
        random.place(length + 1)
    } else {
        length + random.place(40)
    }
}

fn some_entry(random: &mut Random) -> Vec<u8> {
    let length = match random.below(16) {
        0 => 0,
        1 => ENTRY_MOST,
        2 => ENTRY_MOST + 1,
        _ => random.of_any_size(ENTRY_MOST as u64) as usize,
    };
    random.bytes(length)
}

fn hash<C: HashCalls>(both: &mut Both<C>, random: &mut Random) {
    let length = match random.below(40) {
        0 => random.between(HASH_MOST - 2, HASH_MOST + 2),
        1 => random.of_any_size(HASH_MOST),
        _ => random.below(2_000),
    };
    let message = random.bytes(length as usize);
    both.hash(&message);
}

fn start(both: &mut dyn BothStore, store: &[u8], random: &mut Random) {
    let mut store = maybe_damaged(store, random);
    let log = random.next();
    both.start(&mut store, random.number_near(log));
}

fn look<C: StoreCalls + AdvanceCalls>(both: &mut Both<C>, store: &[u8], random: &mut Random) {
    let at = held_number(&read(store), random);
    let at = random.number_near(at);
    let store = maybe_damaged(store, random);
    match random.below(8) {
        0 | 1 => {
            both.digest_at(&store, at);
        }
        2 | 3 => {
            both.held_at(&store, at);
        }
        4 | 5 => {
            both.count(&store);
        }
        6 => {
            both.audit(&store);
        }
        _ => {
            both.held_start(random.next());
        }
    }
}

/// Compares a store with itself or with another, whose entries are the same as far as both go: each as
/// it is or damaged.
fn compare(both: &mut dyn BothCopies, stores: &[Vec<u8>], random: &mut Random) {
    let one = &stores[random.place(stores.len())];
    let other = if random.once_in(2) { one } else { &stores[random.place(stores.len())] };
    both.compare(&maybe_damaged(one, random), &maybe_damaged(other, random));
}

fn append(both: &mut dyn BothStore, store: &[u8], random: &mut Random) {
    let mut store = maybe_damaged(store, random);
    for _ in 0..3 {
        let stop = random.between(0, 70);
        let stop = random.number_near(stop);
        let entry = some_entry(random);
        both.append(&mut store, &entry, stop);
    }
}

fn build_membership(both: &mut dyn BothMember, store: &[u8], random: &mut Random) {
    let n = held_number(&read(store), random);
    let (i, n) = (random.between(0, n), random.number_near(n));
    let i = random.number_near(i);
    let length = membership(i, n).map_or(100, |path| proof_length(&path));
    let room = room(length, random);
    both.build_membership(&maybe_damaged(store, random), i, n, room);
}

fn build_advancement(both: &mut dyn BothAdvance, store: &[u8], random: &mut Random) {
    let n = held_number(&read(store), random);
    let (i, n) = (random.between(0, n), random.number_near(n));
    let i = random.number_near(i);
    let length = advancement(i, n).map_or(100, |path| proof_length(&path));
    let room = room(length, random);
    both.build_advancement(&maybe_damaged(store, random), i, n, room);
}

/// An honest claim on a log that is not empty, or now and then on a made-up one.
fn some_claim(store: &[u8], random: &mut Random) -> Option<Claim> {
    if random.once_in(12) {
        return Some(ends::some_claim(random));
    }
    let log = read(store);
    if log.count == 0 {
        return None;
    }
    let n = random.between(1, log.count);
    Some(Claim::honest(&log, random.between(1, n), n))
}

fn check_membership(both: &mut dyn BothMember, store: &[u8], random: &mut Random) {
    let honest = match some_claim(store, random) {
        Some(claim) => claim,
        None => return,
    };
    honest.check(both);
    let entry = if random.once_in(6) {
        some_entry(random)
    } else {
        maybe_spoiled(&honest.entry, 6, random)
    };
    let other_numbers = random.once_in(4);
    let [i, n] =
        [honest.i, honest.n]
            .map(|number| if other_numbers { random.number_near(number) } else { number });
    let digest = maybe_changed(honest.digest, 6, random);
    let proof = maybe_spoiled(&honest.proof, 2, random);
    Claim { entry, i, n, digest, proof }.check(both);
}

/// An honest step of a log, or now and then of a made-up one.
fn some_step(store: &[u8], random: &mut Random) -> Step {
    if random.once_in(12) {
        return ends::some_step(random);
    }
    let log = read(store);
    let n = held_number(&log, random);
    Step::honest(&log, random.between(0, n), n)
}

fn check_advancement(both: &mut dyn BothAdvance, store: &[u8], random: &mut Random) {
    let honest = some_step(store, random);
    honest.check(both);
    let held = maybe_changed(honest.held, 3, random);
    let n = if random.once_in(4) { random.number_near(honest.n) } else { honest.n };
    let digest = maybe_changed(honest.digest, 6, random);
    let proof = maybe_spoiled(&honest.proof, 2, random);
    Step { held, n, digest, proof }.check(both);
}

fn save(both: &mut dyn BothKept, store: &[u8], random: &mut Random) {
    let log = read(store);
    let state = held_of::<Sha256>(&log, held_number(&log, random));
    saved::any_call(both, &state, random);
}

fn dispute(both: &mut dyn BothMember, store: &[u8], random: &mut Random) {
    let honest = match some_claim(store, random) {
        Some(claim) => claim,
        None => return,
    };
    let [first_entry, second_entry] = [(); 2].map(|_| maybe_spoiled(&honest.entry, 8, random));
    let [first_proof, second_proof] = [(); 2].map(|_| maybe_spoiled(&honest.proof, 4, random));
    let first = Side { entry: &first_entry, proof: &first_proof };
    let second = Side { entry: &second_entry, proof: &second_proof };
    let other_numbers = random.once_in(6);
    let [i, n] =
        [honest.i, honest.n]
            .map(|number| if other_numbers { random.number_near(number) } else { number });
    let digest = maybe_changed(honest.digest, 10, random);
    let rooms = [(); 2].map(|_| {
        if random.once_in(10) {
            random.place(BUFFER_LEAST)
        } else {
            BUFFER_LEAST + random.place(40)
        }
    });
    both.dispute([first, second], i, n, &digest, rooms);
    both.differing(&first_proof, &second_proof, i, n);
}
