//! A plain Rust checker of membership and advancement: the checks of the proved library in the same
//! order, on the same bytes, with the same answers.
//!
//! It is what the library's checks are timed against (`host/bench`), and it is held to the second
//! program on every proof of the tests (`host/compare`). It calls nothing of the library, whose types
//! and limits it takes.
//!
//! Both checks are generic over the hash that they go through, so they are compiled where they are
//! called, and the hash of a caller costs what it costs itself. What they use of this file is
//! `#[inline]`, to be compiled there with them.

use lotlog::{Answer, Digest, Held, ELEMENTS_MOST, LEVELS};

const LIMIT: u64 = ELEMENTS_MOST as u64;
const ENTRY_LIMIT: usize = 4096;

/// The bytes of the longest element message: its mark, its number, d and a link for each level.
const MESSAGE_MOST: usize = 9 + 32 * (LEVELS + 1);

/// A hash that the checks go through. It is given each message whole, in the order of the checks.
pub trait Hash {
    fn digest(message: &[u8]) -> Digest;
}

/// The SHA-256 of `host/plain`.
pub enum Plain {}

impl Hash for Plain {
    #[inline]
    fn digest(message: &[u8]) -> Digest {
        plain::digest(message)
    }
}

/// The bytes of element j's component.
#[inline]
fn size(j: u64) -> usize {
    32 * (j.trailing_zeros() as usize + 2)
}

/// The level of the hop from i toward n.
#[inline]
fn level(i: u64, n: u64) -> u32 {
    i.trailing_zeros().min(63 - (n - i).leading_zeros())
}

/// The link of a level in a component.
#[inline]
fn link(component: &[u8], level: usize) -> &[u8] {
    &component[32 * (level + 1)..32 * (level + 2)]
}

fn element<H: Hash>(j: u64, component: &[u8]) -> Digest {
    let mut message = [0; MESSAGE_MOST];
    message[0] = 1;
    message[1..9].copy_from_slice(&j.to_be_bytes());
    let end = 9 + component.len();
    message[9..end].copy_from_slice(component);
    H::digest(&message[..end])
}

fn entry_digest<H: Hash>(entry: &[u8]) -> Digest {
    let mut message = [0; 1 + ENTRY_LIMIT];
    message[1..=entry.len()].copy_from_slice(entry);
    H::digest(&message[..=entry.len()])
}

fn start_digest<H: Hash>(log: u64) -> Digest {
    let mut message = *b"\x02LOT\x00\x01________";
    message[6..].copy_from_slice(&log.to_be_bytes());
    H::digest(&message)
}

/// The bytes of an advancement proof from i to n.
#[inline]
fn proof_size(i: u64, n: u64) -> usize {
    let mut j = i;
    let mut bytes = 0;
    while j < n {
        j += 1 << level(j, n);
        bytes += size(j);
    }
    bytes
}

#[inline]
fn refused(number: u64) -> Answer {
    Answer { number, beside: [0; 3] }
}

/// What is answered when all hops are good: by the last digest.
#[inline]
fn last(known: &Digest, digest: &Digest, hops: u64) -> Answer {
    Answer { number: if known == digest { 0 } else { 11 }, beside: [hops, 0, 0] }
}

/// Checks a membership proof: the number, the hops, and with 10 the element reached and the level.
pub fn check_membership<H: Hash>(
    entry: &[u8],
    i: u64,
    n: u64,
    digest: &Digest,
    proof: &[u8],
) -> Answer {
    if entry.len() > ENTRY_LIMIT {
        return refused(3);
    }
    if i == 0 || i > n || n > LIMIT {
        return refused(4);
    }
    if proof.len() != size(i) + proof_size(i, n) {
        return refused(7);
    }
    if proof[..32] != entry_digest::<H>(entry) {
        return refused(8);
    }
    let mut at = size(i);
    let mut known = element::<H>(i, &proof[..at]);
    let (mut j, mut hops) = (i, 0);
    while j < n {
        let l = level(j, n);
        j += 1 << l;
        let component = &proof[at..at + size(j)];
        if *link(component, l as usize) != known {
            return Answer { number: 10, beside: [hops, j, l.into()] };
        }
        known = element::<H>(j, component);
        at += size(j);
        hops += 1;
    }
    last(&known, digest, hops)
}

/// What a practice holds.
#[derive(Clone, Copy)]
struct State {
    log: u64,
    count: u64,
    digest: Digest,
    rows: [Digest; LEVELS],
}

impl State {
    #[inline]
    fn read(bytes: &Held) -> State {
        let number = |at: usize| u64::from_be_bytes(bytes[at..at + 8].try_into().expect("8 bytes"));
        let mut rows = [[0; 32]; LEVELS];
        for (row, bytes) in rows.iter_mut().zip(bytes[48..].chunks_exact(32)) {
            row.copy_from_slice(bytes);
        }
        let digest = bytes[16..48].try_into().expect("32 bytes");
        State { log: number(0), count: number(8), digest, rows }
    }

    #[inline]
    fn write(&self, bytes: &mut Held) {
        bytes[..8].copy_from_slice(&self.log.to_be_bytes());
        bytes[8..16].copy_from_slice(&self.count.to_be_bytes());
        bytes[16..48].copy_from_slice(&self.digest);
        for (row, bytes) in self.rows.iter().zip(bytes[48..].chunks_exact_mut(32)) {
            bytes.copy_from_slice(row);
        }
    }

    #[inline]
    fn uses(&self, row: usize) -> bool {
        self.count >> row & 1 == 1
    }

    fn is_in_order<H: Hash>(&self) -> bool {
        self.count <= LIMIT
            && (0..LEVELS).all(|row| self.uses(row) || self.rows[row] == [0; 32])
            && (self.count > 0 || self.digest == start_digest::<H>(self.log))
    }

    /// Moves the basis on by a hop of a level; the row that differs, if one does.
    #[inline]
    fn carry(&mut self, level: usize, component: &[u8]) -> Result<(), usize> {
        let mut moving = self.digest;
        let mut row = level;
        while self.uses(row) {
            if *link(component, row + 1) != self.rows[row] {
                return Err(row);
            }
            moving = self.rows[row];
            self.rows[row] = [0; 32];
            row += 1;
        }
        self.rows[row] = moving;
        Ok(())
    }

    /// Makes a hop of a level; the number of the refusal, and the row or the level.
    fn hop<H: Hash>(&mut self, level: usize, component: &[u8]) -> Result<(), (u64, usize)> {
        self.carry(level, component).map_err(|row| (9, row))?;
        if *link(component, level) != self.digest {
            return Err((10, level));
        }
        self.count += 1 << level;
        self.digest = element::<H>(self.count, component);
        Ok(())
    }
}

/// Advances a state: the number, the hops, with 9 and 10 the element reached and the row or level; and
/// the new state, or the old one with a refusal.
fn advanced<H: Hash>(old: State, n: u64, digest: &Digest, proof: &[u8]) -> (Answer, State) {
    if !old.is_in_order::<H>() {
        return (refused(2), old);
    }
    if n < old.count || n > LIMIT {
        return (refused(4), old);
    }
    if proof.len() != proof_size(old.count, n) {
        return (refused(7), old);
    }
    let mut state = old;
    let (mut at, mut hops) = (0, 0);
    while state.count < n {
        let l = level(state.count, n);
        let j = state.count + (1 << l);
        if let Err((number, which)) = state.hop::<H>(l as usize, &proof[at..at + size(j)]) {
            return (Answer { number, beside: [hops, j, which as u64] }, old);
        }
        at += size(j);
        hops += 1;
    }
    let answer = last(&state.digest, digest, hops);
    (answer, if answer.number == 0 { state } else { old })
}

/// Advances a state that is given, and given back, as the bytes that the library takes.
pub fn check_advancement<H: Hash>(
    held: &mut Held,
    n: u64,
    digest: &Digest,
    proof: &[u8],
) -> Answer {
    let (answer, state) = advanced::<H>(State::read(held), n, digest, proof);
    state.write(held);
    answer
}
