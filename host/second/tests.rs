//! Document 01's figures and printed examples, and the answers that its text spells out.

use crate::dispute::{differing, dispute, Found, Side, BUFFER_LEAST};
use crate::hash::{hash, Hash, HashState, Sha256, Xor, HASH_MOST};
use crate::held::{check_advancement, held_at, held_start, Held, ROWS};
use crate::message::{element_digest, entry_digest, start_digest};
use crate::path::{advancement, membership, proof_length, trailing_zeros};
use crate::program::{line, INPUT_MOST};
use crate::proof::{build_advancement, build_membership, check_membership};
use crate::refusal::{Place, Refusal, NOWHERE};
use crate::store::{
    append, audit, count, digest_at, place, start, store_of, HEADER, RECORD, STATE,
};
use crate::{Digest, ENTRY_MOST, LIMIT};

const WHOLE: u64 = RECORD as u64;

pub fn refused<T>(number: u64, beside: u64) -> Result<T, Refusal> {
    Err(Refusal { number, beside, place: NOWHERE })
}

/// A refusal with 9 or 10 after so many good hops, at an element, and a row of 9 or a level of 10.
pub fn broken<T>(number: u64, hops: u64, element: u64, level: u64) -> Result<T, Refusal> {
    Err(Refusal { number, beside: hops, place: Place { element, level } })
}

pub fn digest_of_hex(hex: &str) -> Digest {
    let mut digest = [0; 32];
    for (place, byte) in digest.iter_mut().enumerate() {
        *byte = u8::from_str_radix(&hex[2 * place..2 * place + 2], 16).expect("two hex digits");
    }
    digest
}

/// The entry of element j in the logs of these tests: some empty, all of them different.
pub fn entry(j: u64) -> Vec<u8> {
    vec![j as u8; j as usize % 50]
}

/// A full store of log 7.
pub fn log7<H: Hash>(elements: u64) -> Vec<u8> {
    store_of::<H>(7, elements, (1..=elements).map(entry))
}

pub fn membership_proof<H: Hash>(store: &[u8], i: u64, n: u64) -> Vec<u8> {
    let mut out = vec![0; 20_000];
    let length = build_membership::<H>(store, i, n, &mut out).expect("built");
    out.truncate(length as usize);
    out
}

pub fn advancement_proof<H: Hash>(store: &[u8], i: u64, n: u64) -> Vec<u8> {
    let mut out = vec![0; 20_000];
    let length = build_advancement::<H>(store, i, n, &mut out).expect("built");
    out.truncate(length as usize);
    out
}

// ---- the hash

#[test]
fn fips_vectors() {
    let cases: [(&[u8], &str); 3] = [
        (b"", "e3b0c44298fc1c149afbf4c8996fb92427ae41e4649b934ca495991b7852b855"),
        (b"abc", "ba7816bf8f01cfea414140de5dae2223b00361a396177a9cb410ff61f20015ad"),
        (
            b"abcdbcdecdefdefgefghfghighijhijkijkljklmklmnlmnomnopnopq",
            "248d6a61d20638b8e5c026930c3e6039a33ce45964ff2167f6ecedd419db06c1",
        ),
    ];
    for (message, hex) in cases {
        assert_eq!(hash::<Sha256>(message), Ok(digest_of_hex(hex)));
    }
}

#[test]
fn any_cutting_gives_the_one_shot_value() {
    let message: Vec<u8> = (0..200).collect();
    for first in 0..=200 {
        for second in (first..=200).step_by(7) {
            let state = HashState::begin().take(&message[..first]).unwrap();
            let state = state.take(&message[first..second]).unwrap();
            let state = state.take(&message[second..]).unwrap();
            assert_eq!(state.finish(), hash::<Sha256>(&message));
        }
    }
}

#[test]
fn hashing_stops_at_its_limit() {
    let most = vec![9; HASH_MOST as usize];
    let full = HashState::begin().take(&most).unwrap();
    assert_eq!(full.finish(), hash::<Sha256>(&most));
    assert_eq!(full.take(&[]), Ok(full));
    assert_eq!(full.take(&[1]), refused(3, 0));
    assert_eq!(hash::<Sha256>(&vec![9; HASH_MOST as usize + 1]), refused(3, 0));
}

#[test]
fn a_bad_hash_state_is_refused() {
    let good = HashState::begin();
    for (fill, total) in [(1, 0), (0, 1), (64, 64), (0, HASH_MOST + 64), (u64::MAX, u64::MAX)] {
        let bad = HashState { fill, total, ..good };
        assert_eq!(bad.take(&[0; 70_000]), refused(2, 0));
        assert_eq!(bad.finish(), refused(2, 0));
    }
}

#[test]
fn bytes_past_the_fill_stay_until_the_block_is_full() {
    let made_up = HashState { block: [7; 64], ..HashState::begin() };
    let taken = made_up.take(b"ab").unwrap();
    assert_eq!(taken.block[..3], *b"ab\x07");
    assert_eq!(taken.finish(), hash::<Sha256>(b"ab"));
    assert_eq!(taken.take(&[1; 63]).unwrap().block[1..], [0; 63]);
}

#[test]
fn the_stand_in_xors_blocks() {
    assert_eq!(Xor::of(b""), [0; 32]);
    assert_eq!(Xor::of(&[5; 64]), [0; 32]);
    let mut digest = [5; 32];
    digest[0] = 5 ^ 3;
    assert_eq!(Xor::of(&[&[5; 32][..], &[3]].concat()), digest);
}

// ---- figures from the bench

#[test]
fn figures_of_trailing_zeros() {
    assert_eq!([1, 8, 12].map(trailing_zeros), [0, 3, 2]);
}

#[test]
fn figures_of_membership_paths() {
    let figures: [(u64, u64, &[u64], usize); 5] = [
        (5, 12, &[5, 6, 8, 12], 448),
        (1, 7, &[1, 2, 4, 6, 7], 448),
        (7, 8, &[7, 8], 224),
        (8, 8, &[8], 160),
        (1, 1, &[1], 64),
    ];
    for (i, n, path, length) in figures {
        assert_eq!(membership(i, n).as_deref(), Ok(path));
        assert_eq!(proof_length(path), length);
    }
}

#[test]
fn figures_of_advancement_paths() {
    let figures: [(u64, u64, &[u64], usize); 3] =
        [(0, 13, &[8, 12, 13], 352), (5, 5, &[], 0), (6, 8, &[8], 160)];
    for (i, n, path, length) in figures {
        assert_eq!(advancement(i, n).as_deref(), Ok(path));
        assert_eq!(proof_length(path), length);
    }
}

#[test]
fn advance_from_6_to_8_keeps_row_3_alone() {
    let store = log7::<Sha256>(8);
    let t = |at| digest_at::<Sha256>(&store, at).unwrap();
    let six = held_at::<Sha256>(&store, 6).unwrap();
    assert_eq!((six.rows[1], six.rows[2]), (t(4), t(0)));
    let proof = advancement_proof::<Sha256>(&store, 6, 8);
    let (hops, eight) = check_advancement::<Sha256>(&six, 8, &t(8), &proof).unwrap();
    let mut rows = [[0; 32]; ROWS];
    rows[3] = t(0);
    assert_eq!((hops, eight), (1, Held { log: 7, count: 8, digest: t(8), rows }));
}

#[test]
fn store_sizes() {
    for (bytes, said, appended) in [
        (15, "refused 1\n", refused(1, 0)),
        (16, "sound 0\n", refused(5, 0)),
        (80, "sound 0\n", refused(5, 0)),
        (81, "sound 0\n", Ok(1)),
    ] {
        let mut store = vec![0; bytes];
        assert_eq!(start(&mut store, 7), if bytes < 16 { refused(6, 0) } else { Ok(()) });
        assert_eq!(line::<Sha256>(&store), said);
        assert_eq!(append::<Sha256>(&mut store, b"x", WHOLE), appended);
        assert!(append::<Sha256>(&mut store, b"x", WHOLE).is_err(), "no room for two");
    }
}

#[test]
fn entry_sizes() {
    for (bytes, answer) in [(0, Ok(1)), (ENTRY_MOST, Ok(1)), (ENTRY_MOST + 1, refused(3, 0))] {
        let mut store = vec![0; 81];
        start(&mut store, 7).unwrap();
        assert_eq!(append::<Sha256>(&mut store, &vec![1; bytes], WHOLE), answer);
    }
}

// ---- the store

#[test]
fn whole_example() {
    let mut store = vec![0xEE; 81];
    start(&mut store, 7).unwrap();
    assert_eq!(store[..16], *b"LOT\x00\x01\x00\x00\x00\x00\x00\x00\x00\x00\x00\x00\x07");
    assert_eq!(store[16..80], [0xEE; 64]);
    assert_eq!(store[80], 0xFF);
}

#[test]
fn digests_are_formed_as_written() {
    let store = log7::<Sha256>(2);
    let t0 = plain::digest(b"\x02LOT\x00\x01\x00\x00\x00\x00\x00\x00\x00\x07");
    let d2 = plain::digest(&[&[0][..], &entry(2)].concat());
    let t1 = digest_at::<Sha256>(&store, 1).unwrap();
    let t2 = plain::digest(&[&[1, 0, 0, 0, 0, 0, 0, 0, 2][..], &d2, &t1, &t0].concat());
    assert_eq!(start_digest::<Sha256>(7), t0);
    assert_eq!(entry_digest::<Sha256>(&entry(2)), d2);
    assert_eq!(digest_at::<Sha256>(&store, 0), Ok(t0));
    assert_eq!(digest_at::<Sha256>(&store, 2), Ok(t2));
    assert_eq!(digest_at::<Sha256>(&store, 3), refused(4, 0));
    assert_eq!(element_digest::<Sha256>(2, &[d2, t1, t0].concat()), t2);
}

#[test]
fn a_store_made_in_one_go_is_the_appended_one() {
    let mut store = vec![0; HEADER + 20 * RECORD];
    start(&mut store, 7).unwrap();
    for j in 1..=20 {
        assert_eq!(append::<Sha256>(&mut store, &entry(j), WHOLE), Ok(j));
    }
    assert!(store == log7::<Sha256>(20));
    assert_eq!(append::<Sha256>(&mut store, b"", WHOLE), refused(5, 0));
}

#[test]
fn an_append_can_be_cut_anywhere() {
    let whole = log7::<Sha256>(4);
    for stop in (0..=66).chain([u64::MAX]) {
        let mut store = whole.clone();
        store[place(4)..].fill(0xEE);
        store[place(4) + STATE] = 0xFF;
        let before = store.clone();
        let new = stop.min(WHOLE) as usize;
        let answer = append::<Sha256>(&mut store, &entry(4), stop);
        assert_eq!(answer, Ok(if new == RECORD { 4 } else { 3 }));
        assert_eq!(count(&store), answer);
        assert_eq!(store[..place(4) + new], whole[..place(4) + new]);
        assert_eq!(store[place(4) + new..], before[place(4) + new..]);
    }
}

#[test]
fn damaged_stores_are_refused() {
    let sound = log7::<Sha256>(3);
    for byte in 0..8 {
        let mut store = sound.clone();
        store[byte] ^= 1;
        assert_eq!(count(&store), refused(1, 0));
    }
    for (state, value) in [(1, 2), (2, 255), (1, 0), (3, 0)] {
        let mut store = sound.clone();
        store[place(state) + STATE] = value;
        assert_eq!(audit::<Sha256>(&store), refused(1, 0));
    }
}

#[test]
fn a_store_started_before_a2_is_refused() {
    let mut store = vec![0xEE; HEADER + 3 * RECORD];
    start(&mut store, 7).unwrap();
    assert_eq!(count(&store), Ok(0));
    for state in 1..=3 {
        store[place(state) + STATE] = 0;
        assert_eq!(count(&store), refused(1, 0));
        assert_eq!(line::<Sha256>(&store), "refused 1\n");
    }
}

#[test]
fn the_audit_names_the_lowest_wrong_element() {
    for wrong in 1..=9 {
        let mut store = log7::<Sha256>(9);
        assert_eq!(audit::<Sha256>(&store), Ok(9));
        store[place(wrong) + 40] ^= 1;
        assert_eq!(audit::<Sha256>(&store), refused(12, wrong));
        assert_eq!(line::<Sha256>(&store), format!("wrong {}\n", wrong));
    }
    assert_eq!(line::<Sha256>(&vec![0; INPUT_MOST]), "refused 1\n");
    assert_eq!(line::<Sha256>(&vec![0; INPUT_MOST + 1]), "too long\n");
}

// ---- proofs

#[test]
fn honest_membership_proofs_are_accepted() {
    let store = log7::<Sha256>(40);
    for n in 1..=40 {
        let digest = digest_at::<Sha256>(&store, n).unwrap();
        for i in 1..=n {
            let proof = membership_proof::<Sha256>(&store, i, n);
            let hops = membership(i, n).unwrap().len() as u64 - 1;
            assert_eq!(check_membership::<Sha256>(&entry(i), i, n, &digest, &proof), Ok(hops));
        }
    }
}

#[test]
fn membership_refusals() {
    let store = log7::<Sha256>(12);
    let digest = digest_at::<Sha256>(&store, 12).unwrap();
    let proof = membership_proof::<Sha256>(&store, 5, 12);
    let check = |entry: &[u8], i, n, digest: &Digest, proof: &[u8]| {
        check_membership::<Sha256>(entry, i, n, digest, proof)
    };
    let damaged = |at: usize| {
        let mut proof = proof.clone();
        proof[at] ^= 1;
        proof
    };
    assert_eq!(check(&entry(5), 5, 12, &digest, &proof), Ok(3));
    assert_eq!(check(&[0; 4097], 0, 12, &digest, &proof), refused(3, 0));
    assert_eq!(check(&entry(5), 0, 12, &digest, &proof), refused(4, 0));
    assert_eq!(check(&entry(5), 13, 12, &digest, &proof), refused(4, 0));
    assert_eq!(check(&entry(5), 5, u64::MAX, &digest, &proof), refused(4, 0));
    assert_eq!(check(&entry(5), 5, 12, &digest, &proof[1..]), refused(7, 0));
    assert_eq!(check(&entry(6), 5, 12, &digest, &proof), refused(8, 0));
    // The link of 8 to 6 has level 1: it follows the components of 5 and 6, d and the link of level
    // 0.
    assert_eq!(check(&entry(5), 5, 12, &digest, &damaged(64 + 96 + 64)), broken(10, 1, 8, 1));
    assert_eq!(check(&entry(5), 5, 12, &digest, &damaged(64 + 96)), broken(10, 2, 12, 2));
    assert_eq!(check(&entry(5), 5, 12, &[0; 32], &proof), refused(11, 3));
}

#[test]
fn building_refusals() {
    let store = log7::<Sha256>(8);
    let mut out = [0xEE; 160];
    assert_eq!(build_membership::<Sha256>(&store[..15], 0, 9, &mut out), refused(1, 0));
    assert_eq!(build_membership::<Sha256>(&store, 0, 8, &mut []), refused(4, 0));
    assert_eq!(build_membership::<Sha256>(&store, 9, 9, &mut out), refused(4, 0));
    assert_eq!(build_advancement::<Sha256>(&store, 9, 9, &mut out), refused(4, 0));
    assert_eq!(build_advancement::<Sha256>(&store, 7, 6, &mut out), refused(4, 0));
    assert_eq!(build_membership::<Sha256>(&store, 7, 8, &mut out), refused(6, 0));
    assert_eq!(out, [0xEE; 160]);
    assert_eq!(build_membership::<Sha256>(&store, 1, 1, &mut out), Ok(64));
    assert_eq!(out[64..], [0xEE; 96]);
    assert_eq!(build_advancement::<Sha256>(&store, 0, 0, &mut []), Ok(0));
}

#[test]
fn honest_advancement_ends_in_the_stores_own_state() {
    let store = log7::<Sha256>(40);
    for n in 0..=40 {
        let wanted = held_at::<Sha256>(&store, n).unwrap();
        for i in 0..=n {
            let held = held_at::<Sha256>(&store, i).unwrap();
            let proof = advancement_proof::<Sha256>(&store, i, n);
            let hops = advancement(i, n).unwrap().len() as u64;
            let answer = check_advancement::<Sha256>(&held, n, &wanted.digest, &proof);
            assert_eq!(answer, Ok((hops, wanted.clone())));
        }
    }
    assert_eq!(held_at::<Sha256>(&store, 0), Ok(held_start::<Sha256>(7)));
    assert_eq!(held_at::<Sha256>(&store, 41), refused(4, 0));
}

#[test]
fn advancement_refusals() {
    let store = log7::<Sha256>(12);
    let held = held_at::<Sha256>(&store, 7).unwrap();
    let digest = digest_at::<Sha256>(&store, 12).unwrap();
    let proof = advancement_proof::<Sha256>(&store, 7, 12);
    let check = |held: &Held, n, digest: &Digest, proof: &[u8]| {
        check_advancement::<Sha256>(held, n, digest, proof).map(|(hops, _)| hops)
    };
    let damaged = |at: usize| {
        let mut proof = proof.clone();
        proof[at] ^= 1;
        proof
    };
    assert_eq!(check(&held, 12, &digest, &proof), Ok(2));
    assert_eq!(check(&Held { count: LIMIT + 1, ..held.clone() }, 0, &digest, &[]), refused(2, 0));
    assert_eq!(check(&Held { count: 3, ..held.clone() }, 12, &digest, &proof), refused(2, 0));
    assert_eq!(check(&Held { log: 8, ..held_start::<Sha256>(7) }, 0, &digest, &[]), refused(2, 0));
    assert_eq!(check(&held, 6, &digest, &proof), refused(4, 0));
    assert_eq!(check(&held, LIMIT + 1, &digest, &proof), refused(4, 0));
    assert_eq!(check(&held, 12, &digest, &proof[32..]), refused(7, 0));
    // Of the component of 8, the link of level 0 is the one hopped and those of level 1 to 3 are
    // rows.
    assert_eq!(check(&held, 12, &digest, &damaged(32)), broken(10, 0, 8, 0));
    assert_eq!(check(&held, 12, &digest, &damaged(64)), broken(9, 0, 8, 0));
    assert_eq!(check(&held, 12, &digest, &damaged(128)), broken(9, 0, 8, 2));
    assert_eq!(check(&held, 12, &digest, &damaged(0)), broken(10, 1, 12, 2));
    assert_eq!(check(&held, 12, &[0; 32], &proof), refused(11, 2));
    assert_eq!(check(&held, 7, &held.digest, &[]), Ok(0));
    assert_eq!(check(&held, 7, &digest, &[]), refused(11, 0));
}

// ---- disputes, which only the stand-in lets us set up

#[test]
fn a_dispute_shows_two_messages_of_one_hash() {
    let store = log7::<Xor>(12);
    let digest = digest_at::<Xor>(&store, 12).unwrap();
    let proof = membership_proof::<Xor>(&store, 5, 12);
    let mut other = proof.clone();
    // Two blocks of the last message change alike, so their XOR stays: neither is the link hopped.
    other[448 - 128] ^= 4;
    other[448 - 96] ^= 4;
    let sides = [&proof, &other].map(|proof| Side { entry: &[5; 5], proof });
    let (mut first, mut second) = ([0xEE; BUFFER_LEAST], [0xEE; BUFFER_LEAST]);
    let found = dispute::<Xor>(sides, 5, 12, &digest, [&mut first, &mut second]);
    assert_eq!(found, Ok(Found::Messages(137, 137)));
    assert!(first[..137] != second[..137]);
    assert_eq!(Xor::of(&first[..137]), Xor::of(&second[..137]));
    assert_eq!((first[137], second[137]), (0xEE, 0xEE));
    assert_eq!(differing(&proof, &other, 5, 12), 448 - 128..448);
}

#[test]
fn a_dispute_over_entries() {
    let store = log7::<Xor>(12);
    let digest = digest_at::<Xor>(&store, 12).unwrap();
    let proof = membership_proof::<Xor>(&store, 5, 12);
    let entries: [&[u8]; 2] = [&[5; 5], &[5, 5, 5, 5, 5, 0]];
    let sides = entries.map(|entry| Side { entry, proof: &proof });
    let (mut first, mut second) = ([0xEE; BUFFER_LEAST], [0xEE; BUFFER_LEAST]);
    let found = dispute::<Xor>(sides, 5, 12, &digest, [&mut first, &mut second]);
    assert_eq!(found, Ok(Found::Messages(6, 7)));
    assert_eq!(first[..7], *b"\x00\x05\x05\x05\x05\x05\xEE");
    assert_eq!(second[..8], *b"\x00\x05\x05\x05\x05\x05\x00\xEE");
    assert_eq!(differing(&proof, &proof, 5, 12), 0..0);
}

#[test]
fn dispute_refusals() {
    let store = log7::<Sha256>(12);
    let digest = digest_at::<Sha256>(&store, 12).unwrap();
    let proof = membership_proof::<Sha256>(&store, 5, 12);
    let good = Side { entry: &[5; 5], proof: &proof };
    let bad = Side { entry: &[5; 6], proof: &proof };
    let ask = |sides, i, room: usize| {
        let (mut first, mut second) = (vec![0xEE; BUFFER_LEAST], vec![0xEE; room]);
        let found = dispute::<Sha256>(sides, i, 12, &digest, [&mut first, &mut second]);
        assert!(first.iter().chain(&second).all(|&byte| byte == 0xEE));
        found
    };
    assert_eq!(ask([good, good], 5, BUFFER_LEAST), Ok(Found::Same));
    assert_eq!(ask([bad, bad], 5, BUFFER_LEAST - 1), refused(6, 0));
    assert_eq!(ask([good, bad], 5, BUFFER_LEAST), refused(13, 2));
    assert_eq!(ask([bad, good], 5, BUFFER_LEAST), refused(13, 1));
    assert_eq!(ask([bad, bad], 5, BUFFER_LEAST), refused(13, 1));
    assert_eq!(ask([good, good], 0, BUFFER_LEAST), refused(13, 1));
    assert_eq!(differing(&proof, &proof[1..], 5, 12), 0..0);
    assert_eq!(differing(&proof, &[0; 448], 0, 12), 0..0);
    assert_eq!(differing(&proof, &[0; 448], 5, 12), 320..448);
}
