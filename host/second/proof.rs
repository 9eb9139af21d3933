//! Building both kinds of proof, and checking membership.

use crate::hash::Hash;
use crate::message::{element_digest, entry_digest};
use crate::path::{self, component_length, proof_length};
use crate::refusal::{refuse, refuse_at, refuse_with, Answer, Place, FIRST_D, LAST_DIGEST, LINK};
use crate::refusal::{OUTPUT_SHORT, PROOF_LENGTH, TOO_LONG};
use crate::store::Log;
use crate::{Digest, ENTRY_MOST};

/// The components of the elements, one after the other.
pub fn proof_of<H: Hash>(log: &Log, elements: &[u64]) -> Vec<u8> {
    elements.iter().flat_map(|&j| log.component::<H>(j)).collect()
}

/// "Building writes the proof from the start of the lent output and returns its length; the bytes
/// after it stay."
fn build<H: Hash>(log: &Log, elements: &[u64], out: &mut [u8]) -> Answer<u64> {
    let length = proof_length(elements);
    if out.len() < length {
        return refuse(OUTPUT_SHORT);
    }
    out[..length].copy_from_slice(&proof_of::<H>(log, elements));
    Ok(length as u64)
}

/// Builds the membership proof for (i, n).
pub fn build_membership<H: Hash>(store: &[u8], i: u64, n: u64, out: &mut [u8]) -> Answer<u64> {
    let log = Log::read(store)?;
    let elements = path::membership(i, n)?;
    log.holds(n)?;
    build::<H>(&log, &elements, out)
}

/// Builds the advancement proof from i to n.
pub fn build_advancement<H: Hash>(store: &[u8], i: u64, n: u64, out: &mut [u8]) -> Answer<u64> {
    let log = Log::read(store)?;
    let elements = path::advancement(i, n)?;
    log.holds(n)?;
    build::<H>(&log, &elements, out)
}

/// The proof cut into the components of these elements: "proof length not that of the path" is
/// refused with 7.
pub fn components<'a>(elements: &[u64], proof: &'a [u8]) -> Answer<Vec<&'a [u8]>> {
    if proof.len() != proof_length(elements) {
        return refuse(PROOF_LENGTH);
    }
    let mut rest = proof;
    let mut parts = Vec::new();
    for &j in elements {
        let (part, after) = rest.split_at(component_length(j));
        parts.push(part);
        rest = after;
    }
    Ok(parts)
}

/// A component's link of a level: its T(j - 2^level).
pub fn link(component: &[u8], level: u32) -> &[u8] {
    &component[32 * (level as usize + 1)..][..32]
}

/// "Checking membership takes entry, i, n, digest and proof. The first d must be the entry's, each
/// next component's link of the level hopped must equal the digest computed before it, and the last
/// computed must be the one given." Acceptance gives the number of hops. A link that differs is told
/// with "the element reached" and "the level hopped".
pub fn check_membership<H: Hash>(
    entry: &[u8],
    i: u64,
    n: u64,
    digest: &Digest,
    proof: &[u8],
) -> Answer<u64> {
    if entry.len() > ENTRY_MOST {
        return refuse(TOO_LONG);
    }
    let elements = path::membership(i, n)?;
    let parts = components(&elements, proof)?;
    if parts[0][..32] != entry_digest::<H>(entry) {
        return refuse(FIRST_D);
    }
    let mut computed = element_digest::<H>(i, parts[0]);
    for hop in 1..elements.len() {
        let level = path::hop_level(elements[hop - 1], n);
        if link(parts[hop], level) != computed {
            let place = Place { element: elements[hop], level: level.into() };
            return refuse_at(LINK, hop as u64 - 1, place);
        }
        computed = element_digest::<H>(elements[hop], parts[hop]);
    }
    let hops = elements.len() as u64 - 1;
    if computed != *digest {
        return refuse_with(LAST_DIGEST, hops);
    }
    Ok(hops)
}
