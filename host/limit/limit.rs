//! The library at the limit of 4,294,967,295 elements, on a store that no disk holds (`large.rs`).
//!
//! The records that the longest proof is made of are all different. Those on its path have the T that
//! document 01 gives them, so that the proof is accepted; the others are made up, which no call but the
//! audit judges. What a call must give is read from the store, by plain arithmetic.
//!
//! Every call on a store looks at all its state bytes, four billion here, which takes some 15 seconds
//! under the emulator, and the first some 20 more. So few are made, and none for the record behind the
//! limit alone: that it is not read shows in the others, where it is closed, then open, then damaged.

mod large;

use std::time::Instant;

use large::{made_up, place, Large};
use lotlog::{Answer, Digest, Held, ELEMENTS_MOST, HELD_BYTES, HELD_FILE_MOST, LEVELS};
use lotlog::{PROOF_MOST, RECORD_BYTES, WHOLE};

const LIMIT: u64 = ELEMENTS_MOST as u64;
const BEHIND: u64 = LIMIT + 1;
const LOG: u64 = 0x0102_0304_0506_0708;

/// Where a record has its T, and its state byte.
const T: usize = 32;
const STATE: usize = 64;

const CLOSED: u8 = 1;
const OPEN: u8 = 255;
const DAMAGED: u8 = 0;

/// The entries of the first element and of the last.
const FIRST: &[u8] = b"the first lot";
const LAST: &[u8] = b"the last lot";

/// What a lent output holds before a call.
const BEFORE: u8 = 0xA5;

fn hash(parts: &[&[u8]]) -> Digest {
    plain::digest(&parts.concat())
}

/// The path from 1 to the limit: by powers of two, and then by those that are left.
fn path() -> impl Iterator<Item = u64> {
    let up = (0..LEVELS).map(|level| 1 << level);
    let on = (0..LEVELS - 1).rev().map(|level| BEHIND - (1 << level));
    up.chain(on)
}

/// The elements, or the start, whose T stand in the component of j.
fn links(j: u64) -> impl Iterator<Item = u64> {
    (0..=j.trailing_zeros()).map(move |level| j - (1 << level))
}

/// T(j) as it stands in a store; T(0) stands nowhere.
fn digest(store: &[u8], j: u64) -> Digest {
    match j {
        0 => hash(&[b"\x02LOT\x00\x01", &LOG.to_be_bytes()]),
        _ => store[place(j) + T..][..32].try_into().expect("32 bytes"),
    }
}

/// The links of j, as they stand in a store.
fn linked(store: &[u8], j: u64) -> Vec<u8> {
    links(j).flat_map(|link| digest(store, link)).collect()
}

/// The component of j, as it stands in a store.
fn component(store: &[u8], j: u64) -> Vec<u8> {
    [&store[place(j)..][..T], &linked(store, j)].concat()
}

/// The record that j has with that d.
fn record(store: &[u8], j: u64, d: &[u8]) -> Vec<u8> {
    let digest = hash(&[&[1], &j.to_be_bytes(), d, &linked(store, j)]);
    [d, &digest, &[CLOSED]].concat()
}

/// The store, with one closed record more than the limit allows.
fn store() -> Large {
    let mut header = *b"LOT\x00\x01\x00\x00\x00________";
    header[8..].copy_from_slice(&LOG.to_be_bytes());
    let mut large = Large::new(&header);
    for j in path().flat_map(links).filter(|&j| j > 0) {
        large.put(place(j), &made_up(j));
    }
    // in rising order, since each is linked with those before it
    for j in path() {
        let d = if j == 1 { hash(&[&[0], FIRST]).to_vec() } else { made_up(j)[..T].to_vec() };
        let record = record(large.bytes(), j, &d);
        large.put(place(j), &record);
    }
    large
}

/// The store, and how many things were looked at.
struct Tests {
    large: Large,
    looked_at: u64,
}

impl Tests {
    fn look(&mut self, what: &str, is_so: bool) {
        assert!(is_so, "{}", what);
        self.looked_at += 1;
    }

    /// Looks whether a call answered so, with nothing beside its first number.
    fn answers(&mut self, what: &str, answer: Answer, number: u64, first: u64) {
        self.look(what, answer == Answer { number, beside: [first, 0, 0] });
    }

    /// Makes a call on the store, and tells how long it took.
    fn call<R>(&mut self, what: &str, call: impl FnOnce(&mut [u8]) -> R) -> R {
        let began = Instant::now();
        let result = call(self.large.bytes_mut());
        println!("{:<32} {:>4} s", what, began.elapsed().as_secs());
        result
    }

    fn set_state(&mut self, j: u64, state: u8) {
        self.large.put(place(j) + STATE, &[state]);
    }
}

/// One closed record more than the limit.
fn counting(tests: &mut Tests) {
    let counted = tests.call("count", |store| lotlog::count(store));
    tests.answers("the one behind is not counted", counted, 0, LIMIT);
}

/// An open record behind the limit, and then the last one within it.
fn appending(tests: &mut Tests) {
    tests.set_state(BEHIND, OPEN);
    // the store can't be written: a byte stored there would end the program
    let full = tests.call("append over the limit", |store| lotlog::append(store, LAST, WHOLE));
    tests.answers("no open record within the limit", full, 5, 0);

    tests.set_state(LIMIT, OPEN);
    let before = place(LIMIT - 1);
    let mut expected = tests.large.bytes()[before..].to_vec();
    let new = record(tests.large.bytes(), LIMIT, &hash(&[&[0], LAST]));
    expected[RECORD_BYTES..2 * RECORD_BYTES].copy_from_slice(&new);
    tests.large.allow(place(LIMIT), RECORD_BYTES);
    let last = tests.call("append the last", |store| lotlog::append(store, LAST, WHOLE));
    tests.large.forbid(place(LIMIT), RECORD_BYTES);
    tests.answers("the last element", last, 0, LIMIT);
    tests.look("its record and no other", tests.large.bytes()[before..] == expected);
}

/// The longest proof, with a damaged record behind the limit; also without room for its last byte, and
/// one to a number over the limit.
fn building(tests: &mut Tests) -> Vec<u8> {
    tests.set_state(BEHIND, DAMAGED);
    let proof: Vec<u8> = path().flat_map(|j| component(tests.large.bytes(), j)).collect();
    tests.look("its length", proof.len() == PROOF_MOST && PROOF_MOST == 34_784);
    let mut out = vec![BEFORE; PROOF_MOST + 1];
    let mut build = |what, n, room| {
        out.fill(BEFORE);
        let lent = &mut out[..room];
        let answer = tests.call(what, |store| lotlog::build_membership(store, 1, n, lent));
        (answer, out.clone())
    };
    let unchanged = vec![BEFORE; PROOF_MOST + 1];
    let (long, written) = build("build the longest proof", LIMIT, PROOF_MOST + 1);
    let (short, short_left) = build("without room for its last byte", LIMIT, PROOF_MOST - 1);
    let (over, over_left) = build("build over the limit", BEHIND, PROOF_MOST + 1);
    tests.answers("the longest proof", long, 0, PROOF_MOST as u64);
    tests.look("its bytes and no other", written == [&proof[..], &[BEFORE]].concat());
    tests.answers("no room for it", short, 6, 0);
    tests.look("nothing is written", short_left == unchanged);
    tests.answers("over the limit", over, 4, 0);
    tests.look("nothing is written", over_left == unchanged);
    proof
}

/// The state at the limit has every row in use: row l holds T(the limit with bits 0 to l cleared).
fn expected_state(store: &[u8]) -> Held {
    let mut state = [LOG.to_be_bytes(), LIMIT.to_be_bytes()].concat();
    state.extend(digest(store, LIMIT));
    for row in 0..LEVELS {
        state.extend(digest(store, LIMIT >> (row + 1) << (row + 1)));
    }
    state.try_into().expect("a held state")
}

/// What a practice is to hold at the limit, and behind it.
fn holding(tests: &mut Tests) -> Held {
    let expected = expected_state(tests.large.bytes());
    let mut held = [BEFORE; HELD_BYTES];
    let number = tests.call("held state", |store| lotlog::held_at(store, LIMIT, &mut held));
    tests.look("a state", number == 0 && held == expected);
    let last = digest(tests.large.bytes(), LIMIT);
    let mut given = [BEFORE; 32];
    let number =
        tests.call("digest over the limit", |store| lotlog::digest_at(store, BEHIND, &mut given));
    tests.look("none over the limit", number == 4 && given == [BEFORE; 32]);
    let number = tests.call("digest", |store| lotlog::digest_at(store, LIMIT, &mut given));
    tests.look("a digest", number == 0 && given == last);
    held
}

/// A practice that was sent the longest proof, and advances by it from the start.
fn checking(tests: &mut Tests, proof: &[u8], held: &Held) {
    const HOPS: u64 = 2 * LEVELS as u64 - 2;
    let digest: Digest = held[16..48].try_into().expect("32 bytes");
    let check = |n, proof: &[u8]| lotlog::check_membership(FIRST, 1, n, &digest, proof);
    tests.answers("the proof is accepted", check(LIMIT, proof), 0, HOPS);
    tests.answers("over the limit", check(BEHIND, proof), 4, 0);
    let mut changed = proof.to_vec();
    *changed.last_mut().expect("a byte") ^= 1;
    let broken = Answer { number: 10, beside: [HOPS - 1, LIMIT, 0] };
    tests.look("where it broke", check(LIMIT, &changed) == broken);

    // the component of 1 leads from the start to 1, and the others on from there
    let (one, rest) = proof.split_at(64);
    let first = hash(&[&[1], &1u64.to_be_bytes(), one]);
    let mut state = [0; HELD_BYTES];
    tests.look("the start", lotlog::held_start(LOG, &mut state) == 0);
    let advanced = lotlog::check_advancement(&mut state, 1, &first, one);
    tests.answers("advance to 1", advanced, 0, 1);
    let advanced = lotlog::check_advancement(&mut state, LIMIT, &digest, rest);
    tests.answers("advance to the limit", advanced, 0, HOPS);
    tests.look("the state that the store gives", state == *held);
    let over = lotlog::check_advancement(&mut state, BEHIND, &digest, &[]);
    tests.answers("over the limit", over, 4, 0);
    tests.look("the state stays", state == *held);
}

/// The longest held file.
fn saving(tests: &mut Tests, held: &Held) {
    let mut file = [BEFORE; HELD_FILE_MOST];
    let written = lotlog::held_write(held, &mut file);
    tests.answers("the longest file", written, 0, HELD_FILE_MOST as u64);
    let mut read = [BEFORE; HELD_BYTES];
    tests.look("it reads", lotlog::held_read(&file, &mut read) == 0 && read == *held);
}

/// Damage in the last record within the limit.
fn damaging(tests: &mut Tests) {
    tests.set_state(LIMIT, DAMAGED);
    let counted = tests.call("count with the last one damaged", |store| lotlog::count(store));
    tests.answers("damage within the limit", counted, 1, 0);
}

fn main() {
    let mut tests = Tests { large: store(), looked_at: 0 };
    counting(&mut tests);
    appending(&mut tests);
    let proof = building(&mut tests);
    let held = holding(&mut tests);
    checking(&mut tests, &proof, &held);
    saving(&mut tests, &held);
    damaging(&mut tests);
    println!(
        "{} things at {} elements are as they should be, on a store of {} bytes",
        tests.looked_at,
        LIMIT,
        tests.large.bytes().len()
    );
}
