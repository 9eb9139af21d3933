//! The dictionary of document 02, A1: "the unoptimised trie", whose root, proofs and checks show
//! that a key is present or absent.
//!
//! Words in quotation marks are A1's. A node's place is written as a handle: the bits of the way to
//! it, then zeros. The nodes are formed level by level from the leaves up, and full ones alone,
//! since "any empty subtree is 32 zero bytes". A node is full if a handle lies below it, whatever
//! its digest: under the stand-in a full one can have zeros.

use std::collections::BTreeMap;

use crate::hash::Hash;
use crate::message;
use crate::refusal::{refuse, refuse_with, Answer, KIND, LIST, NOT_ACCEPTED, OUTPUT_SHORT};
use crate::refusal::{ROOT, SIBLINGS, TOO_LONG};
use crate::{Digest, ENTRY_MOST};

/// "The trie has depth 256".
pub const DEPTH: usize = 256;

/// "a lent, strictly rising list of at most 1,000 handles"
pub const HANDLES_MOST: usize = 1000;

/// The bytes of a presence proof and of the longest absence proof: 256 siblings.
pub const PROOF_MOST: usize = 32 * DEPTH;

/// The least room of a clash's buffers: an inner node's message.
pub const CLASH_LEAST: usize = 65;

/// "any empty subtree is 32 zero bytes"
pub const EMPTY: Digest = [0; 32];

/// "A key's handle is SHA-256 of 03 and the key." "Keys obey the entry limit."
pub fn handle<H: Hash>(key: &[u8]) -> Answer<Digest> {
    if key.len() > ENTRY_MOST {
        return refuse(TOO_LONG);
    }
    Ok(H::of(&message::key(key)))
}

/// Whether the way to a handle goes right at a depth: "most significant bit first".
pub fn goes_right(handle: &Digest, depth: usize) -> bool {
    handle[depth / 8] & bit(depth) != 0
}

fn bit(depth: usize) -> u8 {
    0x80 >> (depth % 8)
}

/// A place's two children: the bit at its depth is 0 to the left and 1 to the right.
fn children(place: &Digest, depth: usize) -> [Digest; 2] {
    let (mut left, mut right) = (*place, *place);
    left[depth / 8] &= !bit(depth);
    right[depth / 8] |= bit(depth);
    [left, right]
}

/// The digests of the full nodes at one depth, by their places.
struct Level(BTreeMap<Digest, Digest>);

impl Level {
    /// "A full leaf is SHA-256 of 04 and the handle".
    fn leaves<H: Hash>(handles: &[Digest]) -> Level {
        Level(handles.iter().map(|handle| (*handle, H::of(&message::leaf(handle)))).collect())
    }

    /// The full nodes one depth higher: those with a full child.
    fn above<H: Hash>(&self, depth: usize) -> Level {
        let mut higher = BTreeMap::new();
        for place in self.0.keys() {
            let [left, right] = children(place, depth);
            higher
                .entry(left)
                .or_insert_with(|| H::of(&message::inner(&self.node(&left), &self.node(&right))));
        }
        Level(higher)
    }

    fn is_full(&self, place: &Digest) -> bool {
        self.0.contains_key(place)
    }

    fn node(&self, place: &Digest) -> Digest {
        self.0.get(place).copied().unwrap_or(EMPTY)
    }
}

/// The handles of a list. "list broken, not rising or too long" is refused with 14.
fn read_list(list: &[u8]) -> Answer<Vec<Digest>> {
    let handles: Vec<Digest> =
        list.chunks_exact(32).map(|bytes| bytes.try_into().expect("32 bytes")).collect();
    let broken = list.len() % 32 != 0;
    let rising = handles.windows(2).all(|pair| pair[0] < pair[1]);
    if broken || !rising || handles.len() > HANDLES_MOST {
        return refuse(LIST);
    }
    Ok(handles)
}

/// Forms the trie's levels from the leaves to the root, shows each one with its depth, and gives
/// the root.
fn levels<H: Hash>(handles: &[Digest], mut show: impl FnMut(usize, &Level)) -> Digest {
    let mut level = Level::leaves::<H>(handles);
    show(DEPTH, &level);
    for depth in (0..DEPTH).rev() {
        level = level.above::<H>(depth);
        show(depth, &level);
    }
    level.node(&EMPTY)
}

/// The root of a list's trie.
pub fn root<H: Hash>(list: &[u8]) -> Answer<Digest> {
    Ok(levels::<H>(&read_list(list)?, |_, _| ()))
}

/// What a trie has on the way to a handle, and beside it.
struct Way {
    /// How many nodes on the way are full: the first empty one has this depth, and the handle is in
    /// the trie if all 257 are full.
    full: usize,
    /// The siblings "from the root down", of which the first stands at depth 1.
    siblings: Vec<Digest>,
}

impl Way {
    fn to<H: Hash>(handle: &Digest, handles: &[Digest]) -> Way {
        let (mut full, mut siblings) = (0, Vec::new());
        let mut own = *handle;
        levels::<H>(handles, |depth, level| {
            if depth < DEPTH {
                own = children(&own, depth)[0];
            }
            full += usize::from(level.is_full(&own));
            if let Some(above) = depth.checked_sub(1) {
                let [left, right] = children(&own, above);
                siblings.push(level.node(if own == left { &right } else { &left }));
            }
        });
        siblings.reverse();
        Way { full, siblings }
    }

    fn is_present(&self) -> bool {
        self.full > DEPTH
    }
}

/// The two kinds of proof.
#[derive(Debug, Clone, Copy, PartialEq, Eq)]
pub enum Kind {
    Presence,
    Absence,
}

/// Builds a proof of a kind. "Each kind is built exactly when true." "List and kind come before 6."
pub fn prove<H: Hash>(kind: Kind, list: &[u8], key: &[u8], out: &mut [u8]) -> Answer<u64> {
    let handle = handle::<H>(key)?;
    let handles = read_list(list)?;
    let way = Way::to::<H>(&handle, &handles);
    if way.is_present() != (kind == Kind::Presence) {
        return refuse(KIND);
    }
    // "256 for presence, and for absence down to the first empty node (none if the root is empty)"
    let proof = way.siblings[..way.full.min(DEPTH)].concat();
    if out.len() < proof.len() {
        return refuse(OUTPUT_SHORT);
    }
    out[..proof.len()].copy_from_slice(&proof);
    Ok(proof.len() as u64)
}

/// Builds the proof that a key is present; gives its length in bytes.
pub fn prove_presence<H: Hash>(list: &[u8], key: &[u8], out: &mut [u8]) -> Answer<u64> {
    prove::<H>(Kind::Presence, list, key, out)
}

/// Builds the proof that a key is absent; gives its length in bytes.
pub fn prove_absence<H: Hash>(list: &[u8], key: &[u8], out: &mut [u8]) -> Answer<u64> {
    prove::<H>(Kind::Absence, list, key, out)
}

/// A proof's siblings. "proof length not 256 siblings (presence) or not 0 to 256 whole ones
/// (absence)" is refused with 16.
fn read_proof(kind: Kind, proof: &[u8]) -> Answer<Vec<Digest>> {
    let fits = match kind {
        Kind::Presence => proof.len() == PROOF_MOST,
        Kind::Absence => proof.len() % 32 == 0 && proof.len() <= PROOF_MOST,
    };
    if !fits {
        return refuse(SIBLINGS);
    }
    Ok(proof.chunks(32).map(|bytes| bytes.try_into().expect("32 bytes")).collect())
}

/// The inner messages on the way to a handle, from the root down, if its node below the last
/// sibling has this digest; and the root that they lead to. "Checking hashes each step as an inner
/// node, even over two empty sides."
fn climb<H: Hash>(handle: &Digest, node: Digest, siblings: &[Digest]) -> (Vec<Vec<u8>>, Digest) {
    let mut messages = Vec::new();
    let mut node = node;
    for (depth, sibling) in siblings.iter().enumerate().rev() {
        let [left, right] =
            if goes_right(handle, depth) { [sibling, &node] } else { [&node, sibling] };
        let message = message::inner(left, right);
        node = H::of(&message);
        messages.push(message);
    }
    messages.reverse();
    (messages, node)
}

/// The root that a proof's siblings lead to, from a node below the last of them.
pub fn climbed<H: Hash>(handle: &Digest, node: Digest, siblings: &[Digest]) -> Digest {
    climb::<H>(handle, node, siblings).1
}

/// The inner messages of an accepted proof. "root differs" is refused with 17.
fn accepted<H: Hash>(kind: Kind, key: &[u8], root: &Digest, proof: &[u8]) -> Answer<Vec<Vec<u8>>> {
    let handle = handle::<H>(key)?;
    let siblings = read_proof(kind, proof)?;
    let node = match kind {
        Kind::Presence => H::of(&message::leaf(&handle)),
        Kind::Absence => EMPTY,
    };
    let (messages, reached) = climb::<H>(&handle, node, &siblings);
    if reached != *root {
        return refuse(ROOT);
    }
    Ok(messages)
}

/// Checks that a key is present under a root.
pub fn check_presence<H: Hash>(key: &[u8], root: &Digest, proof: &[u8]) -> Answer<()> {
    accepted::<H>(Kind::Presence, key, root, proof).map(|_| ())
}

/// Checks that a key is absent under a root.
pub fn check_absence<H: Hash>(key: &[u8], root: &Digest, proof: &[u8]) -> Answer<()> {
    accepted::<H>(Kind::Absence, key, root, proof).map(|_| ())
}

/// What a clash shows: the lengths of "two different messages of equal hash", or of "a message
/// whose hash is all zeros".
#[derive(Debug, Clone, Copy, PartialEq, Eq)]
pub enum Shown {
    Pair(u64, u64),
    Zeros(u64),
}

/// "An accepted presence and an accepted absence for one key and root yield either two different
/// messages of equal hash or a message whose hash is all zeros." The buffers come first, with 6; 13
/// stands for all the checkers' refusals, with 1 for the presence and 2 for the absence beside it.
pub fn clash<H: Hash>(
    key: &[u8],
    root: &Digest,
    presence: &[u8],
    absence: &[u8],
    buffers: [&mut [u8]; 2],
) -> Answer<Shown> {
    if buffers.iter().any(|buffer| buffer.len() < CLASH_LEAST) {
        return refuse(OUTPUT_SHORT);
    }
    let part = |kind, proof, which| {
        accepted::<H>(kind, key, root, proof).or_else(|_| refuse_with(NOT_ACCEPTED, which))
    };
    let mut ours = part(Kind::Presence, presence, 1)?;
    let theirs = part(Kind::Absence, absence, 2)?;
    // the presence goes on to its leaf, which the absence never has
    ours.push(message::leaf(&handle::<H>(key)?));
    let [first, second] = buffers;
    match ours.iter().zip(&theirs).find(|(our, their)| our != their) {
        Some((our, their)) => Ok(Shown::Pair(write(our, first), write(their, second))),
        // all above agree, so the presence's node is the absence's empty one
        None => Ok(Shown::Zeros(write(&ours[theirs.len()], first))),
    }
}

/// Writes a message to the start of a buffer and gives its length.
fn write(message: &[u8], buffer: &mut [u8]) -> u64 {
    buffer[..message.len()].copy_from_slice(message);
    message.len() as u64
}
