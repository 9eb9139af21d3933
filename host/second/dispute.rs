//! "The dispute routine" and the part of the second proof in which two proofs differ.

use std::ops::Range;

use crate::hash::Hash;
use crate::message;
use crate::path::{self, component_length};
use crate::proof::{check_membership, components};
use crate::refusal::{refuse, refuse_with, Answer, NOT_ACCEPTED, OUTPUT_SHORT};
use crate::Digest;

/// "two lent buffers of at least 4,097 bytes"
pub const BUFFER_LEAST: usize = 4097;

/// One side of a dispute: what it says stands at position i.
#[derive(Clone, Copy)]
pub struct Side<'a> {
    pub entry: &'a [u8],
    pub proof: &'a [u8],
}

/// What the dispute finds: nothing that differs, or the lengths of the two messages that it wrote.
#[derive(Debug, Clone, Copy, PartialEq, Eq)]
pub enum Found {
    Same,
    Messages(u64, u64),
}

/// "Given two entries and two proofs for one (i, n, digest), and two lent buffers". "A dispute
/// checks 6, then 13 stands for all the checker's refusals."
pub fn dispute<H: Hash>(
    sides: [Side; 2],
    i: u64,
    n: u64,
    digest: &Digest,
    buffers: [&mut [u8]; 2],
) -> Answer<Found> {
    if buffers.iter().any(|buffer| buffer.len() < BUFFER_LEAST) {
        return refuse(OUTPUT_SHORT);
    }
    for (which, side) in (1..).zip(&sides) {
        if check_membership::<H>(side.entry, i, n, digest, side.proof).is_err() {
            return refuse_with(NOT_ACCEPTED, which);
        }
    }
    match messages(sides, i, n) {
        None => Ok(Found::Same),
        Some([ours, theirs]) => {
            let [first, second] = buffers;
            first[..ours.len()].copy_from_slice(&ours);
            second[..theirs.len()].copy_from_slice(&theirs);
            Ok(Found::Messages(ours.len() as u64, theirs.len() as u64))
        }
    }
}

/// "Walking back from n, the first differing component gives the two element messages; if no
/// component differs, differing entries give the two entry messages." "If nothing differs the
/// answer is "same"".
fn messages(sides: [Side; 2], i: u64, n: u64) -> Option<[Vec<u8>; 2]> {
    if let Some((j, place)) = last_difference(sides[0].proof, sides[1].proof, i, n) {
        return Some(sides.map(|side| message::element(j, &side.proof[place.clone()])));
    }
    if sides[0].entry != sides[1].entry {
        return Some(sides.map(|side| message::entry(side.entry)));
    }
    None
}

/// The element nearest n whose components differ, and where its component lies in a proof. There is
/// none where a length is wrong or the positions are refused.
fn last_difference(first: &[u8], second: &[u8], i: u64, n: u64) -> Option<(u64, Range<usize>)> {
    let elements = path::membership(i, n).ok()?;
    let ours = components(&elements, first).ok()?;
    let theirs = components(&elements, second).ok()?;
    let at = (0..elements.len()).rev().find(|&at| ours[at] != theirs[at])?;
    let begin = path::proof_length(&elements[..at]);
    let j = elements[at];
    Some((j, begin..begin + component_length(j)))
}

/// "A second call, on two proofs for (i, n), hands back the differing component nearest n as a part
/// of the second proof, without copying. It is the empty part if none differs, a length is wrong or
/// the positions are refused." The part is given by its place; the empty part begins at 0.
pub fn differing(first: &[u8], second: &[u8], i: u64, n: u64) -> Range<usize> {
    last_difference(first, second, i, n).map_or(0..0, |(_, place)| place)
}
