//! Where a broken proof is said to have broken: document 02, A5, on proofs of log 7.
//!
//! A proof is damaged by parts of 32 bytes: the d of a component, or one of its links.

use crate::dispute::{dispute, Side, BUFFER_LEAST};
use crate::hash::Sha256;
use crate::held::{check_advancement, held_at, Held};
use crate::proof::check_membership;
use crate::refusal::{Answer, Refusal};
use crate::store::digest_at;
use crate::tests::{advancement_proof, broken, entry, log7, membership_proof, refused};
use crate::Digest;

/// The proof with a bit turned in each of these parts.
fn damaged(proof: &[u8], parts: &[usize]) -> Vec<u8> {
    let mut proof = proof.to_vec();
    parts.iter().for_each(|part| proof[32 * part + 7] ^= 0x10);
    proof
}

/// Checks membership of the entry at i in the log of length n, with these parts of the proof
/// damaged.
fn member(i: u64, n: u64, parts: &[usize]) -> Answer<u64> {
    let store = log7::<Sha256>(n);
    let digest = digest_at::<Sha256>(&store, n)?;
    let proof = damaged(&membership_proof::<Sha256>(&store, i, n), parts);
    check_membership::<Sha256>(&entry(i), i, n, &digest, &proof)
}

/// Advances from i to n with these parts of the proof damaged; the answer is the hops.
fn advance(i: u64, n: u64, parts: &[usize]) -> Answer<u64> {
    advance_held(i, n, |_| (), parts).map(|(hops, _)| hops)
}

/// The same with a change to the held state.
fn advance_held(
    i: u64,
    n: u64,
    change: impl Fn(&mut Held),
    parts: &[usize],
) -> Answer<(u64, Held)> {
    let store = log7::<Sha256>(n);
    let mut held = held_at::<Sha256>(&store, i)?;
    change(&mut held);
    let proof = damaged(&advancement_proof::<Sha256>(&store, i, n), parts);
    check_advancement::<Sha256>(&held, n, &digest_at::<Sha256>(&store, n)?, &proof)
}

/// Each part of a proof that is damaged alone has its answer.
fn each_part(check: impl Fn(&[usize]) -> Answer<u64>, answers: &[Result<u64, Refusal>]) {
    for (part, answer) in answers.iter().enumerate() {
        assert_eq!(check(&[part]), *answer, "part {}", part);
    }
}

#[test]
fn a_membership_proof_from_7_to_8() {
    assert_eq!(member(7, 8, &[]), Ok(1));
    // 7 has d and one link, 8 has d and four. The hop has level 0.
    let (at_8, at_the_end) = (broken(10, 0, 8, 0), refused(11, 1));
    let of_8 = [at_the_end, at_8, at_the_end, at_the_end, at_the_end];
    each_part(|parts| member(7, 8, parts), &[&[refused(8, 0), at_8][..], &of_8].concat());
}

#[test]
fn a_membership_proof_from_5_to_12() {
    assert_eq!(member(5, 12, &[]), Ok(3));
    // The hops are to 6 by level 0, to 8 by level 1, to 12 by level 2.
    let (at_6, at_8, at_12) = (broken(10, 0, 6, 0), broken(10, 1, 8, 1), broken(10, 2, 12, 2));
    let at_the_end = refused(11, 3);
    let of_5 = [refused(8, 0), at_6];
    let of_6 = [at_8, at_6, at_8];
    let of_8 = [at_12, at_12, at_8, at_12, at_12];
    let of_12 = [at_the_end, at_the_end, at_the_end, at_12];
    let all = [&of_5[..], &of_6, &of_8, &of_12].concat();
    each_part(|parts| member(5, 12, parts), &all);
}

#[test]
fn the_rows_from_7_to_8() {
    assert_eq!(advance(7, 8, &[]), Ok(1));
    // Of 8 come d, then the links of level 0, which is the one hopped, and of levels 1 to 3, which
    // are compared with rows 0 to 2.
    let rows = [0, 1, 2].map(|row| broken(9, 0, 8, row));
    let link = broken(10, 0, 8, 0);
    each_part(|parts| advance(7, 8, parts), &[&[refused(11, 1), link][..], &rows].concat());
}

#[test]
fn the_lowest_row_is_told() {
    assert_eq!(advance(7, 8, &[3, 4]), broken(9, 0, 8, 1));
    assert_eq!(advance(7, 8, &[2, 4]), broken(9, 0, 8, 0));
    assert_eq!(advance(7, 8, &[2, 3, 4]), broken(9, 0, 8, 0));
}

#[test]
fn rows_come_before_the_link() {
    assert_eq!(advance(7, 8, &[1, 4]), broken(9, 0, 8, 2));
    assert_eq!(advance(7, 8, &[0, 1, 2, 3, 4]), broken(9, 0, 8, 0));
    assert_eq!(advance(7, 8, &[0, 1]), broken(10, 0, 8, 0));
}

#[test]
fn an_advancement_proof_from_5_to_12() {
    assert_eq!(advance(5, 12, &[]), Ok(3));
    // Row 0 is passed on the way to 6, rows 1 and 2 on the way to 8, and none on the way to 12.
    let (at_8, at_12, at_the_end) = (broken(10, 1, 8, 1), broken(10, 2, 12, 2), refused(11, 3));
    let of_6 = [at_8, broken(10, 0, 6, 0), broken(9, 0, 6, 0)];
    let of_8 = [at_12, at_12, at_8, broken(9, 1, 8, 1), broken(9, 1, 8, 2)];
    let of_12 = [at_the_end, at_the_end, at_the_end, at_12];
    each_part(|parts| advance(5, 12, parts), &[&of_6[..], &of_8, &of_12].concat());
}

#[test]
fn the_first_bad_hop_is_told() {
    // parts 3 and 7 are the links hopped to 6 and to 8, and part 13 the one to 12
    assert_eq!(member(5, 12, &[3, 7, 13]), broken(10, 0, 6, 0));
    assert_eq!(member(5, 12, &[7, 13]), broken(10, 1, 8, 1));
    // without the component of 5: parts 1 and 5 are these links, part 2 is row 0 and part 7 row 2
    assert_eq!(advance(5, 12, &[1, 7]), broken(10, 0, 6, 0));
    assert_eq!(advance(5, 12, &[2, 5]), broken(9, 0, 6, 0));
    assert_eq!(advance(5, 12, &[7, 11]), broken(9, 1, 8, 2));
}

#[test]
fn a_held_row_is_told_by_the_hop_that_passes_it() {
    let turned = |row: usize| move |held: &mut Held| held.rows[row][31] ^= 1;
    assert_eq!(advance_held(5, 12, turned(0), &[]), broken(9, 0, 6, 0));
    assert_eq!(advance_held(5, 12, turned(2), &[]), broken(9, 1, 8, 2));
    assert_eq!(advance_held(5, 12, |held| held.digest[0] ^= 1, &[]), broken(10, 0, 6, 0));
    // no hop to 7 passes row 2: the state is accepted and keeps the row as it was held
    let (hops, after) = advance_held(5, 7, turned(2), &[]).unwrap();
    let mut wanted = held_at::<Sha256>(&log7::<Sha256>(7), 7).unwrap();
    turned(2)(&mut wanted);
    assert_eq!((hops, after), (2, wanted));
}

#[test]
fn a_dispute_shows_no_place() {
    let store = log7::<Sha256>(12);
    let digest: Digest = digest_at::<Sha256>(&store, 12).unwrap();
    let proof = membership_proof::<Sha256>(&store, 5, 12);
    let other = damaged(&proof, &[7]);
    let entry = entry(5);
    let [good, bad] = [&proof, &other].map(|proof| Side { entry: &entry, proof });
    let ask = |sides| {
        let (mut first, mut second) = ([0; BUFFER_LEAST], [0; BUFFER_LEAST]);
        dispute::<Sha256>(sides, 5, 12, &digest, [&mut first, &mut second])
    };
    assert_eq!(member(5, 12, &[7]), broken(10, 1, 8, 1));
    assert_eq!(ask([bad, good]), refused(13, 1));
    assert_eq!(ask([good, bad]), refused(13, 2));
}
