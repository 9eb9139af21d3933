//! The ends that document 02, A7, moves: "01's figures for 1,048,575 and 1,048,576 move to the new
//! ends."
//!
//! No store of 4,294,967,295 records is made. A proof for that length is: its digests are made up,
//! but for those that a checker compares.

use crate::dispute::{differing, dispute, Found, Side, BUFFER_LEAST};
use crate::hash::Sha256;
use crate::held::{check_advancement, held_at, held_start, in_use, Held, ROWS};
use crate::message::{element, element_digest, entry_digest};
use crate::path::{advancement, component_length, hop_level, membership};
use crate::path::{proof_length, trailing_zeros};
use crate::proof::{build_advancement, build_membership, check_membership};
use crate::refusal::Answer;
use crate::store::digest_at;
use crate::tests::{broken, log7, refused};
use crate::{Digest, LEVELS, LIMIT};

/// The limit before A7.
const OLD: u64 = 1_048_575;

/// A made-up digest.
fn made_up(number: u64) -> Digest {
    plain::digest(&number.to_be_bytes())
}

/// The component of j with made-up parts, but for its link of a level and for those of the levels
/// above that pass a row in use.
fn component(j: u64, level: u32, held: &Held) -> Vec<u8> {
    let mut parts: Vec<Digest> =
        (0..component_length(j) / 32).map(|at| made_up(at as u64)).collect();
    parts[level as usize + 1] = held.digest;
    for row in (level as usize..ROWS).take_while(|row| in_use(held.count, *row)) {
        parts[row + 2] = held.rows[row];
    }
    parts.concat()
}

/// A step from a held state to n: the claimed digest and the proof.
fn step(held: &Held, n: u64) -> (Digest, Vec<u8>) {
    let mut at = held.clone();
    let mut proof = Vec::new();
    while at.count < n {
        let level = hop_level(at.count, n);
        let count = at.count + (1 << level);
        let component = component(count, level, &at);
        let digest = element_digest::<Sha256>(count, &component);
        at = check_advancement::<Sha256>(&at, count, &digest, &component).expect("one hop").1;
        proof.extend(component);
    }
    (at.digest, proof)
}

/// A state in order with made-up rows and digest.
fn held(count: u64) -> Held {
    let mut held = Held { count, digest: made_up(count), ..held_start::<Sha256>(7) };
    (0..ROWS)
        .filter(|row| in_use(count, *row))
        .for_each(|row| held.rows[row] = made_up(row as u64));
    held
}

/// A claim that the entry "lot" stands at i in a log of length n: the digest and the proof.
fn claim(i: u64, n: u64) -> (Digest, Vec<u8>) {
    let links = (0..=trailing_zeros(i)).map(|level| made_up(level.into()));
    let first = [vec![entry_digest::<Sha256>(b"lot")], links.collect()].concat().concat();
    let digest = element_digest::<Sha256>(i, &first);
    // membership compares no rows: they may be anything
    let (last, others) = step(&Held { digest, ..held(i) }, n);
    (last, [first, others].concat())
}

// ---- figures

#[test]
fn the_limit_is_that_of_its_levels() {
    assert_eq!(LIMIT, 2u64.pow(LEVELS) - 1);
    assert_eq!(LIMIT, u32::MAX.into());
    assert_eq!(ROWS, 32);
}

/// "paths have at most 62 hops, the longest proof is 34,784 bytes, and the longest element message
/// 1,065"
#[test]
fn the_longest_proof() {
    let longest = membership(1, LIMIT).unwrap();
    assert_eq!((longest.len() - 1, longest.len(), proof_length(&longest)), (62, 63, 34_784));
    let powers = (0..32).map(|level| 1 << level);
    let below = (0..31).rev().map(|level| LIMIT - (1 << level) + 1);
    assert_eq!(longest, powers.chain(below).collect::<Vec<u64>>());
    assert_eq!(element(1 << 31, &vec![0; component_length(1 << 31)]).len(), 1_065);
}

/// Membership from i to n: hops and bytes.
#[test]
fn figures_of_membership_at_the_ends() {
    let figures = [
        (1, LIMIT - 1, 61, 34_720),
        (2, LIMIT, 61, 34_720),
        (1 << 31, LIMIT, 31, 17_920),
        ((1 << 31) - 1, LIMIT, 32, 17_984),
        (1, 1 << 31, 31, 17_920),
        (1 << 31, 1 << 31, 0, 1_056),
        (LIMIT - 1, LIMIT, 1, 160),
        (LIMIT, LIMIT, 0, 64),
        (1, OLD, 38, 14_048),
        (1, OLD + 1, 20, 8_064),
        (OLD, OLD + 1, 1, 768),
    ];
    for (i, n, hops, bytes) in figures {
        let path = membership(i, n).unwrap();
        assert_eq!((path.len() - 1, proof_length(&path)), (hops, bytes), "{} to {}", i, n);
    }
}

/// Advancement from i to n: hops and bytes.
#[test]
fn figures_of_advancement_at_the_ends() {
    let figures = [
        (1, LIMIT, 62, 34_720),
        (0, LIMIT, 32, 17_920),
        (0, 1 << 31, 1, 1_056),
        (LIMIT - 1, LIMIT, 1, 64),
        (LIMIT, LIMIT, 0, 0),
        (1, OLD, 38, 13_984),
        (0, OLD, 20, 7_360),
        (OLD, OLD + 1, 1, 704),
    ];
    for (i, n, hops, bytes) in figures {
        let path = advancement(i, n).unwrap();
        assert_eq!((path.len(), proof_length(&path)), (hops, bytes), "{} to {}", i, n);
    }
}

/// No path of powers of two and their neighbours is longer.
#[test]
fn no_path_is_longer() {
    let near = |level: u32| [1u64 << level, (1 << level) - 1, (1 << level) + 1, LIMIT >> level];
    let numbers: Vec<u64> = (0..32).flat_map(near).chain([0xAAAA_AAAA, 0x5555_5555]).collect();
    for (&i, &n) in numbers.iter().flat_map(|i| numbers.iter().map(move |n| (i, n))) {
        if let Ok(path) = membership(i, n) {
            assert!(path.len() <= 63 && proof_length(&path) <= 34_784, "{} to {}", i, n);
        }
        if let Ok(path) = advancement(i, n) {
            assert!(path.len() <= 62 && proof_length(&path) <= 34_720, "{} to {}", i, n);
        }
    }
}

#[test]
fn length_4_294_967_296_is_refused_with_4() {
    let over = 4_294_967_296;
    let store = log7::<Sha256>(12);
    let (digest, proof) = claim(1, LIMIT);
    for i in [1, 12, LIMIT, over] {
        assert_eq!(membership(i, over), refused(4, 0));
        assert_eq!(advancement(i, over), refused(4, 0));
        assert_eq!(check_membership::<Sha256>(b"lot", i, over, &digest, &proof), refused(4, 0));
        assert_eq!(build_membership::<Sha256>(&store, i, over, &mut [0; 99]), refused(4, 0));
        assert_eq!(build_advancement::<Sha256>(&store, i, over, &mut [0; 99]), refused(4, 0));
        assert_eq!(differing(&proof, &vec![0; proof.len()], i, over), 0..0);
    }
    for count in [0, 1, 12, LIMIT - 1, LIMIT] {
        let held = if count == 0 { held_start::<Sha256>(7) } else { held(count) };
        assert_eq!(check_advancement::<Sha256>(&held, over, &digest, &proof), refused(4, 0));
    }
    for at in [13, LIMIT, over, u64::MAX] {
        assert_eq!(digest_at::<Sha256>(&store, at), refused(4, 0));
        assert_eq!(held_at::<Sha256>(&store, at), refused(4, 0));
    }
}

// ---- claims

#[test]
fn claims_at_the_ends_are_accepted() {
    let ends = [1, 2, OLD, OLD + 1, (1 << 31) - 1, 1 << 31, (1 << 31) + 1, LIMIT - 1, LIMIT];
    for (i, n) in ends.iter().flat_map(|i| ends.iter().map(move |n| (*i, *n))) {
        if i <= n {
            let (digest, proof) = claim(i, n);
            let hops = membership(i, n).unwrap().len() as u64 - 1;
            assert_eq!(check_membership::<Sha256>(b"lot", i, n, &digest, &proof), Ok(hops));
        }
    }
}

#[test]
fn the_longest_claim_spoiled() {
    let (digest, proof) = claim(1, LIMIT);
    let check = |proof: &[u8]| check_membership::<Sha256>(b"lot", 1, LIMIT, &digest, proof);
    let turned = |at: usize| {
        let mut proof = proof.clone();
        proof[at] ^= 1;
        proof
    };
    assert_eq!(check(&proof), Ok(62));
    assert_eq!(check(&proof[1..]), refused(7, 0));
    assert_eq!(check(&turned(0)), refused(8, 0));
    // behind the components of 1 to 2^30: the component of 2^31, whose link of level 30 is hopped
    let top = proof_length(&membership(1, 1 << 30).unwrap());
    assert_eq!(check(&turned(top + 32 * 31)), broken(10, 30, 1 << 31, 30));
    // any other part of it is found by the hop to 3 * 2^30
    for part in (0..33).filter(|part| *part != 31) {
        assert_eq!(check(&turned(top + 32 * part)), broken(10, 31, 3 << 30, 30));
    }
    // the last component has d and the link to 4,294,967,294
    assert_eq!(check(&turned(proof.len() - 32)), broken(10, 61, LIMIT, 0));
    assert_eq!(check(&turned(proof.len() - 64)), refused(11, 62));
}

#[test]
fn a_dispute_at_the_ends() {
    let (digest, proof) = claim(1, LIMIT);
    let mut other = proof.clone();
    let top = proof_length(&membership(1, 1 << 30).unwrap());
    other[top + 1_055] ^= 1;
    let [good, bad] = [&proof, &other].map(|proof| Side { entry: b"lot", proof });
    let ask = |sides| -> Answer<Found> {
        let (mut first, mut second) = ([0; BUFFER_LEAST], [0; BUFFER_LEAST]);
        dispute::<Sha256>(sides, 1, LIMIT, &digest, [&mut first, &mut second])
    };
    assert_eq!(ask([good, good]), Ok(Found::Same));
    assert_eq!(ask([bad, good]), refused(13, 1));
    assert_eq!(ask([good, bad]), refused(13, 2));
    assert_eq!(differing(&proof, &other, 1, LIMIT), top..top + 1_056);
}

// ---- held states

/// From the start to the limit by way of the old one, going on from the state handed back.
#[test]
fn a_walk_to_the_limit() {
    let mut held = held_start::<Sha256>(7);
    let stops = [1, OLD - 1, OLD, OLD + 1, (1 << 31) - 1, 1 << 31, LIMIT - 1, LIMIT];
    for n in stops {
        let (digest, proof) = step(&held, n);
        let hops = advancement(held.count, n).unwrap().len() as u64;
        let (answer, after) = check_advancement::<Sha256>(&held, n, &digest, &proof).unwrap();
        assert_eq!((answer, after.count, after.digest), (hops, n, digest));
        // T(0) stands in the highest row in use, of which 2^level is the lowest count
        let top = 63 - n.leading_zeros() as usize;
        assert_eq!(after.rows[top], held_start::<Sha256>(7).digest);
        assert!((0..ROWS).all(|row| in_use(n, row) == (after.rows[row] != [0; 32])));
        held = after;
    }
    assert!(held.rows.iter().all(|row| *row != [0; 32]));
    assert_eq!(check_advancement::<Sha256>(&held, LIMIT, &held.digest, &[]), Ok((0, held.clone())));
}

/// The hop from 2^31 - 1 passes all rows below 31, and the last of them moves there.
#[test]
fn a_hop_over_31_rows() {
    let before = held((1 << 31) - 1);
    let (digest, proof) = step(&before, 1 << 31);
    let (hops, after) = check_advancement::<Sha256>(&before, 1 << 31, &digest, &proof).unwrap();
    let mut rows = [[0; 32]; ROWS];
    rows[31] = before.rows[30];
    assert_eq!((hops, after), (1, Held { count: 1 << 31, digest, rows, ..before.clone() }));
    for row in 0..31 {
        let mut spoiled = proof.clone();
        spoiled[32 * (row + 2)] ^= 1;
        let answer = check_advancement::<Sha256>(&before, 1 << 31, &digest, &spoiled);
        assert_eq!(answer, broken(9, 0, 1 << 31, row as u64));
    }
}

#[test]
fn counts_up_to_the_limit_are_in_order() {
    for count in [OLD, OLD + 1, 1 << 31, LIMIT - 1, LIMIT] {
        let held = held(count);
        let same = check_advancement::<Sha256>(&held, count, &held.digest, &[]);
        assert_eq!(same, Ok((0, held.clone())));
        for row in (0..ROWS).filter(|row| !in_use(count, *row)) {
            let mut held = held.clone();
            held.rows[row][31] = 1;
            let answer = check_advancement::<Sha256>(&held, count, &held.digest, &[]);
            assert_eq!(answer, refused(2, 0));
        }
    }
}

/// A count over the limit is refused whatever its rows are: none of its bits from 32 on has one.
#[test]
fn counts_over_the_limit_are_refused() {
    for bit in 32..64 {
        for low in [0, 1, OLD, LIMIT] {
            let over = Held { count: low | 1 << bit, ..held(low) };
            for n in [0, low, LIMIT, over.count, u64::MAX] {
                let answer = check_advancement::<Sha256>(&over, n, &over.digest, &[]);
                assert_eq!(answer, refused(2, 0));
            }
        }
    }
}
