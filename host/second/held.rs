//! "What a practice holds": the held state, from a store and by advancing.

use crate::hash::Hash;
use crate::message::{element_digest, start_digest};
use crate::path::{self, hop_level};
use crate::proof::{components, link};
use crate::refusal::{refuse, refuse_at, refuse_with, Answer, Place, BAD_STATE};
use crate::refusal::{LAST_DIGEST, LINK, ROW};
use crate::store::Log;
use crate::{Digest, LEVELS, LIMIT};

/// A basis has rows "of 32 bytes, one for each level". 02, A7: "Held states get thirty-two rows".
pub const ROWS: usize = LEVELS as usize;

/// "Log number, count n, T(n), and a basis".
#[derive(Debug, Clone, PartialEq, Eq)]
pub struct Held {
    pub log: u64,
    pub count: u64,
    pub digest: Digest,
    pub rows: [Digest; ROWS],
}

/// "Row l is in use exactly if bit l of n is 1".
pub fn in_use(n: u64, row: usize) -> bool {
    (n >> row) & 1 == 1
}

/// The state with which a practice begins: "A state at n = 0 holds T(0) of its log."
pub fn held_start<H: Hash>(log: u64) -> Held {
    Held { log, count: 0, digest: start_digest::<H>(log), rows: [[0; 32]; ROWS] }
}

/// "The state that a store gives at any i up to its count is made of these, from its log number and
/// stored digests."
pub fn held_at<H: Hash>(store: &[u8], at: u64) -> Answer<Held> {
    let log = Log::read(store)?;
    log.holds(at)?;
    Ok(held_of::<H>(&log, at))
}

/// The state of a log at a number that it holds. A row in use "holds T(n with bits 0 to l cleared).
/// Other rows are zero."
pub fn held_of<H: Hash>(log: &Log, at: u64) -> Held {
    let mut rows = [[0; 32]; ROWS];
    for row in (0..ROWS).filter(|&row| in_use(at, row)) {
        rows[row] = log.digest::<H>(at - at % (2 << row));
    }
    Held { log: log.number, count: at, digest: log.digest::<H>(at), rows }
}

/// Refuses with 2: "held state over the limit, a free row not zero, or count 0 with a digest that
/// is not T(0) of its log".
pub fn in_order<H: Hash>(held: &Held) -> Answer<()> {
    let over = held.count > LIMIT;
    let free_not_zero = (0..ROWS).any(|row| !in_use(held.count, row) && held.rows[row] != [0; 32]);
    let wrong_start = held.count == 0 && held.digest != start_digest::<H>(held.log);
    if over || free_not_zero || wrong_start {
        return refuse(BAD_STATE);
    }
    Ok(())
}

/// How a component was found bad, and where: "Reading one component must answer which element and
/// which level failed, for basis and link alike".
struct Broken {
    number: u64,
    place: Place,
}

/// One hop of the held state: "A hop of level l from j reads the component of j + 2^l." The place of
/// a refusal is "the element reached, and the row for 9 or the level hopped for 10".
fn hop<H: Hash>(held: &Held, level: u32, component: &[u8]) -> Result<Held, Broken> {
    let count = held.count + (1 << level);
    let broken = |number, level| Broken { number, place: Place { element: count, level } };
    let rows = carried(held, level, component).map_err(|row| broken(ROW, row as u64))?;
    if link(component, level) != held.digest {
        return Err(broken(LINK, level.into()));
    }
    let digest = element_digest::<H>(count, component);
    Ok(Held { log: held.log, count, digest, rows })
}

/// The basis after a hop. "If row l is free it takes T(j). Otherwise, from c = l upward while row c
/// is in use, row c must equal the component's link of level c + 1; the last such value moves to
/// the first free row and the others become zero." The error is the first row c that differs, which
/// is the lowest.
fn carried(held: &Held, level: u32, component: &[u8]) -> Result<[Digest; ROWS], usize> {
    let mut rows = held.rows;
    let mut moving = held.digest;
    let mut row = level as usize;
    while in_use(held.count, row) {
        if link(component, row as u32 + 1) != rows[row] {
            return Err(row);
        }
        moving = rows[row];
        rows[row] = [0; 32];
        row += 1;
    }
    rows[row] = moving;
    Ok(rows)
}

/// "The last digest computed must be the one claimed." Acceptance gives the hops and the new state;
/// "any refusal hands back the old", which here stays with the caller. Where a hop broke, "every
/// checker above it passes that on".
///
/// "Advancing to the same n takes an empty proof and needs the claimed digest to be the held one,
/// else 11."
pub fn check_advancement<H: Hash>(
    held: &Held,
    n: u64,
    digest: &Digest,
    proof: &[u8],
) -> Answer<(u64, Held)> {
    in_order::<H>(held)?;
    let elements = path::advancement(held.count, n)?;
    let mut state = held.clone();
    let mut hops = 0;
    for component in components(&elements, proof)? {
        let level = hop_level(state.count, n);
        state = match hop::<H>(&state, level, component) {
            Ok(next) => next,
            Err(broken) => return refuse_at(broken.number, hops, broken.place),
        };
        hops += 1;
    }
    if state.digest != *digest {
        return refuse_with(LAST_DIGEST, hops);
    }
    Ok((hops, state))
}
