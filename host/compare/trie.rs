//! The group `trie`: handles, roots, proofs of presence and of absence, and clashes.
//!
//! A list of n handles takes 256 n hashes, so most calls are on short lists or check a proof.

use lotlog::{Answer, Digest};
use second::hash::{Hash, Sha256};
use second::message;
use second::trie::{self, climbed, Kind, CLASH_LEAST, DEPTH, EMPTY, HANDLES_MOST, PROOF_MOST};
use second::ENTRY_MOST;

use crate::both::Both;
use crate::calls::TrieCalls;
use crate::damage::{bit_turned, parts_swapped, spoiled};
use crate::random::Random;
use crate::Scale;

const SEED: u64 = 6;

const KINDS: [Kind; 2] = [Kind::Presence, Kind::Absence];

/// The lengths of the lists that most calls work on.
const SMALL: [u64; 5] = [0, 1, 2, 3, 17];

pub fn run<C: TrieCalls>(both: &mut Both<C>, scale: Scale) {
    let mut random = Random::new(SEED);
    keys(both, &mut random);
    broken_lists(both);
    too_many_handles(both);
    let lots: &[u64] = scale.pick(&[1, 2, 3, 10, 18, 5_000], &[1, 2, 5_000]);
    for &list in scale.pick(&SMALL[..], &SMALL[..4]) {
        small_list(both, list, lots, &mut random);
    }
    neighbours(both, scale.pick(1, 51));
    special_roots(both, scale.pick(1, 64));
    every_length(both);
    every_sibling(both, scale.pick(1, 32), &mut random);
    every_depth(both, scale.pick(1, 32), &mut random);
    clashes(both);
    let claims = claims(&mut random);
    for _ in 0..scale.pick(4_000, 100) {
        any_call(both, &claims, &mut random);
    }
    if scale == Scale::Full {
        the_longest_list(both);
    }
}

/// The key of a lot: the empty one, the longest one, and short ones, all of them different.
fn key(lot: u64) -> Vec<u8> {
    match lot {
        1 => Vec::new(),
        2 => vec![2; ENTRY_MOST],
        _ => [&lot.to_be_bytes()[..], &vec![0x5A; lot as usize % 40]].concat(),
    }
}

fn handle_of(lot: u64) -> Digest {
    trie::handle::<Sha256>(&key(lot)).expect("a key within the limit")
}

/// The handles of the first so many lots, in rising order.
fn handles_of(lots: u64) -> Vec<Digest> {
    let mut handles: Vec<Digest> = (1..=lots).map(handle_of).collect();
    handles.sort_unstable();
    handles
}

/// The handle with the bit of one depth turned.
fn turned(handle: &Digest, depth: usize) -> Digest {
    let mut other = *handle;
    other[depth / 8] ^= 0x80 >> (depth % 8);
    other
}

fn prove<C: TrieCalls>(
    both: &mut Both<C>,
    kind: Kind,
    list: &[u8],
    key: &[u8],
    room: usize,
) -> (Answer, Vec<u8>) {
    match kind {
        Kind::Presence => both.prove_presence(list, key, room),
        Kind::Absence => both.prove_absence(list, key, room),
    }
}

/// What a check of either kind takes, and the list that it is about.
#[derive(Clone)]
pub struct Claim {
    kind: Kind,
    list: Vec<u8>,
    key: Vec<u8>,
    root: Digest,
    proof: Vec<u8>,
}

impl Claim {
    /// The true claim about a key: that it is present, or that it is absent.
    fn honest(list: &[u8], key: &[u8]) -> Claim {
        let handle = trie::handle::<Sha256>(key).expect("a key within the limit");
        let is_present = list.chunks(32).any(|part| *part == handle);
        let kind = if is_present { Kind::Presence } else { Kind::Absence };
        let root = trie::root::<Sha256>(list).expect("a rising list");
        let mut proof = vec![0; PROOF_MOST];
        let length = trie::prove::<Sha256>(kind, list, key, &mut proof).expect("a true claim");
        proof.truncate(length as usize);
        Claim { kind, list: list.to_vec(), key: key.to_vec(), root, proof }
    }

    /// A claim under the root that made-up siblings lead to. Each of them is another, where nearly
    /// all of a short list's are empty.
    fn made_up(kind: Kind, siblings: usize, random: &mut Random) -> Claim {
        let key = random.bytes(20);
        let handle = trie::handle::<Sha256>(&key).expect("a key within the limit");
        let node = match kind {
            Kind::Presence => Sha256::of(&message::leaf(&handle)),
            Kind::Absence => EMPTY,
        };
        let proof = random.bytes(32 * siblings);
        let parts: Vec<Digest> =
            proof.chunks(32).map(|part| part.try_into().expect("32 bytes")).collect();
        let root = climbed::<Sha256>(&handle, node, &parts);
        Claim { kind, list: Vec::new(), key, root, proof }
    }

    fn check<C: TrieCalls>(&self, both: &mut Both<C>) -> u64 {
        match self.kind {
            Kind::Presence => both.check_presence(&self.key, &self.root, &self.proof),
            Kind::Absence => both.check_absence(&self.key, &self.root, &self.proof),
        }
    }

    fn with_proof(&self, proof: &[u8]) -> Claim {
        Claim { proof: proof.to_vec(), ..self.clone() }
    }

    fn with_key(&self, key: &[u8]) -> Claim {
        Claim { key: key.to_vec(), ..self.clone() }
    }

    fn with_root(&self, root: &[u8]) -> Claim {
        Claim { root: root.try_into().expect("32 bytes"), ..self.clone() }
    }

    /// The claim of the other kind with the same proof.
    fn turned_over(&self) -> Claim {
        let kind = if self.kind == Kind::Presence { Kind::Absence } else { Kind::Presence };
        Claim { kind, ..self.clone() }
    }

    /// The honest claim spoiled in ways that fit every proof, the one of no siblings too.
    fn damaged(&self, random: &mut Random) -> Vec<Claim> {
        let longer = |tail: &[u8]| self.with_proof(&[&self.proof, tail].concat());
        let whole_ones = self.proof.chunks(32).rev().collect::<Vec<_>>().concat();
        vec![
            longer(&[0]),
            longer(&[0; 31]),
            longer(&[0; 32]),
            longer(&[0xFF; 32]),
            longer(&self.root),
            longer(&self.proof),
            self.with_proof(&whole_ones),
            self.with_proof(&[&[0; 32], &self.proof[..]].concat()),
            self.with_proof(&[]),
            self.with_key(&[&self.key[..], &[0]].concat()),
            self.with_key(&[7; ENTRY_MOST]),
            self.with_key(&[7; ENTRY_MOST + 1]),
            self.with_key(&[]),
            self.with_root(&bit_turned(&self.root, random.place(256))),
            self.with_root(&EMPTY),
            self.turned_over(),
        ]
    }

    /// The honest claim, which has a sibling, with its proof spoiled.
    fn damaged_siblings(&self, random: &mut Random) -> Vec<Claim> {
        let length = self.proof.len();
        let siblings = length / 32;
        let (one, other) = (random.place(siblings), random.place(siblings));
        vec![
            self.with_proof(&bit_turned(&self.proof, random.place(8 * length))),
            self.with_proof(&bit_turned(&self.proof, 8 * length - 1)),
            self.with_proof(&parts_swapped(&self.proof, one, other)),
            self.with_proof(&self.proof[1..]),
            self.with_proof(&self.proof[..length - 1]),
            self.with_proof(&self.proof[32..]),
            self.with_proof(&self.proof[..length - 32]),
        ]
    }
}

/// Keys of every length that could matter.
fn keys<C: TrieCalls>(both: &mut Both<C>, random: &mut Random) {
    for length in (0..=260).chain([1_000, ENTRY_MOST - 1, ENTRY_MOST]) {
        assert_eq!(both.handle(&random.bytes(length)).0, 0);
    }
    for length in [ENTRY_MOST + 1, ENTRY_MOST + 64, 20_000] {
        let long = vec![3; length];
        assert_eq!(both.handle(&long).0, 3);
        for kind in KINDS {
            // the list is broken, the room too short, the proof's length and the root wrong
            assert_eq!(prove(both, kind, &[1], &long, 0).0.number, 3);
            assert_eq!(prove(both, kind, &[], &long, PROOF_MOST).0.number, 3);
            let claim = Claim { kind, ..Claim::honest(&[], &[]) };
            assert_eq!(claim.with_key(&long).with_proof(&[0]).check(both), 3);
        }
    }
}

/// A broken list is refused in every call that takes one, and before the kind and the room.
fn refuse_list<C: TrieCalls>(both: &mut Both<C>, list: &[u8]) {
    assert_eq!(both.trie_root(list).0, 14);
    for kind in KINDS {
        for (lot, room) in [(1, PROOF_MOST), (1, 0), (5_000, PROOF_MOST), (5_000, 0)] {
            assert_eq!(prove(both, kind, list, &key(lot), room).0.number, 14);
        }
    }
}

/// Lists that break off, that fall, and that stay.
fn broken_lists<C: TrieCalls>(both: &mut Both<C>) {
    let handles = handles_of(17);
    let list = handles.concat();
    for length in (0..=list.len()).filter(|length| length % 32 != 0) {
        assert_eq!(both.trie_root(&list[..length]).0, 14);
    }
    for length in [1, 16, 31, 33, 63, 543] {
        refuse_list(both, &list[..length]);
    }
    for at in 0..handles.len() - 1 {
        let mut falling = handles.clone();
        falling.swap(at, at + 1);
        refuse_list(both, &falling.concat());
        let mut staying = handles.clone();
        staying[at + 1] = staying[at];
        refuse_list(both, &staying.concat());
    }
    for at in 0..32 {
        // neighbours that differ in one byte alone, and at the end of it
        let (mut low, mut high) = ([0x80; 32], [0x80; 32]);
        low[at] = 0x7F;
        high[at] = 0x81;
        refuse_list(both, &[high, low].concat());
        refuse_list(both, &[[0x80; 32], low].concat());
        assert_eq!(both.trie_root(&[low, high].concat()).0, 0);
    }
    refuse_list(both, &[0; 64]);
    refuse_list(both, &[0xFF; 96]);
}

/// Lists just over the limit, and lists of the limit that are broken, which take no hashing.
fn too_many_handles<C: TrieCalls>(both: &mut Both<C>) {
    let handles = handles_of(HANDLES_MOST as u64 + 2);
    let list = handles.concat();
    for length in [32_001, 32_031, 32_032, 32_033, 32_064] {
        refuse_list(both, &list[..length]);
    }
    for at in [0, 499, 998] {
        let mut falling = handles[..HANDLES_MOST].to_vec();
        falling.swap(at, at + 1);
        refuse_list(both, &falling.concat());
        falling[at + 1] = falling[at];
        refuse_list(both, &falling.concat());
    }
}

/// Builds a true claim's proof in rooms of many lengths, and the other kind's in none.
fn prove_in_rooms<C: TrieCalls>(both: &mut Both<C>, claim: &Claim) {
    let (list, key, need) = (&claim.list, &claim.key, claim.proof.len());
    for room in [need, need + 1, need + 40, need.saturating_sub(1), 0] {
        let (answer, out) = prove(both, claim.kind, list, key, room);
        if room < need {
            assert_eq!(answer, Answer { number: 6, beside: [0; 3] });
        } else {
            assert_eq!(answer, Answer { number: 0, beside: [need as u64, 0, 0] });
            assert!(out[..need] == claim.proof, "the second program's proof");
        }
    }
    for room in [0, PROOF_MOST] {
        let (answer, _) = prove(both, claim.turned_over().kind, list, key, room);
        assert_eq!(answer, Answer { number: 15, beside: [0; 3] });
    }
}

/// Proves, checks and spoils claims about lots in a list and beside it.
fn small_list<C: TrieCalls>(both: &mut Both<C>, handles: u64, lots: &[u64], random: &mut Random) {
    let list = handles_of(handles).concat();
    for &lot in lots {
        let claim = Claim::honest(&list, &key(lot));
        assert_eq!(both.trie_root(&list), (0, claim.root));
        prove_in_rooms(both, &claim);
        assert_eq!(claim.check(both), 0);
        let mut damaged = claim.damaged(random);
        if !claim.proof.is_empty() {
            damaged.extend(claim.damaged_siblings(random));
        }
        for claim in damaged {
            claim.check(both);
        }
    }
}

/// Builds and checks a true claim, and asks for the other kind.
fn prove_claim<C: TrieCalls>(both: &mut Both<C>, claim: &Claim) {
    let (list, key) = (&claim.list, &claim.key);
    assert_eq!(both.trie_root(list), (0, claim.root));
    assert!(prove(both, claim.kind, list, key, claim.proof.len()).1 == claim.proof);
    assert_eq!(prove(both, claim.turned_over().kind, list, key, 0).0.number, 15);
    assert_eq!(claim.check(both), 0);
}

/// Two handles that differ in one bit alone: the first, the last, and those between. With the key's
/// neighbour as its list, an absence goes down to that bit.
fn neighbours<C: TrieCalls>(both: &mut Both<C>, step: usize) {
    let own = handle_of(7);
    for depth in (0..DEPTH).step_by(step) {
        let other = turned(&own, depth);
        let absence = Claim::honest(&other, &key(7));
        assert_eq!((absence.kind, absence.proof.len()), (Kind::Absence, 32 * (depth + 1)));
        prove_claim(both, &absence);
        let presence = Claim::honest(&[own.min(other), own.max(other)].concat(), &key(7));
        assert_eq!((presence.kind, presence.proof.len()), (Kind::Presence, PROOF_MOST));
        prove_claim(both, &presence);
    }
}

/// "any empty subtree is 32 zero bytes", and "Checking hashes each step as an inner node, even over
/// two empty sides": the root over so many empty siblings is accepted with as many and no others.
fn special_roots<C: TrieCalls>(both: &mut Both<C>, step: usize) {
    let zeros = [0; PROOF_MOST + 32];
    let handle = handle_of(7);
    for siblings in (0..=DEPTH).step_by(step).chain([1]) {
        let root = climbed::<Sha256>(&handle, EMPTY, &vec![EMPTY; siblings]);
        let mut check = |count: usize| both.check_absence(&key(7), &root, &zeros[..32 * count]);
        assert_eq!(check(siblings), 0);
        assert_eq!(check(siblings + 1), if siblings < DEPTH { 17 } else { 16 });
        assert_eq!(check(siblings.saturating_sub(1)), if siblings > 0 { 17 } else { 0 });
        assert_eq!(both.check_presence(&key(7), &root, &zeros[..PROOF_MOST]), 17);
    }
    assert_eq!(both.trie_root(&[]), (0, EMPTY));
    assert_eq!(both.check_presence(&key(7), &EMPTY, &[0xFF; PROOF_MOST]), 17);
}

/// A claim whose proof has all 256 siblings, of each kind.
fn full_claims() -> [Claim; 2] {
    let list = handles_of(3).concat();
    let neighbour = turned(&handle_of(7), DEPTH - 1);
    let claims = [Claim::honest(&list, &key(3)), Claim::honest(&neighbour, &key(7))];
    for (claim, kind) in claims.iter().zip(KINDS) {
        assert_eq!((claim.kind, claim.proof.len()), (kind, PROOF_MOST));
    }
    claims
}

/// Every length of a proof up to more than a sibling too long.
fn every_length<C: TrieCalls>(both: &mut Both<C>) {
    for claim in full_claims() {
        let longest = [&claim.proof[..], &[0; 40]].concat();
        for length in 0..=longest.len() {
            let number = claim.with_proof(&longest[..length]).check(both);
            let whole_ones = length % 32 == 0 && length < PROOF_MOST && claim.kind == Kind::Absence;
            assert_eq!(
                number,
                match length {
                    PROOF_MOST => 0,
                    _ if whole_ones => 17,
                    _ => 16,
                }
            );
        }
    }
}

/// Every sibling with a bit turned, cleared, and in its neighbour's place.
fn every_sibling<C: TrieCalls>(both: &mut Both<C>, step: usize, random: &mut Random) {
    let short = Claim::honest(&handles_of(17).concat(), &key(5_000));
    let made_up = KINDS.map(|kind| Claim::made_up(kind, DEPTH, random));
    for claim in full_claims().iter().chain(&made_up).chain([&short]) {
        let siblings = claim.proof.len() / 32;
        for at in (0..siblings).step_by(step) {
            let turned = bit_turned(&claim.proof, 256 * at + random.place(256));
            assert_eq!(claim.with_proof(&turned).check(both), 17);
            let mut cleared = claim.proof.clone();
            cleared[32 * at..32 * at + 32].fill(0);
            claim.with_proof(&cleared).check(both);
            let swapped = parts_swapped(&claim.proof, at, (at + 1) % siblings);
            claim.with_proof(&swapped).check(both);
        }
    }
}

/// Absences that end at every depth, as they are and spoiled.
fn every_depth<C: TrieCalls>(both: &mut Both<C>, step: usize, random: &mut Random) {
    for siblings in (0..=DEPTH).step_by(step) {
        let claim = Claim::made_up(Kind::Absence, siblings, random);
        assert_eq!(claim.check(both), 0);
        let spoiled = spoiled(&claim.proof, random);
        claim.with_proof(&spoiled).check(both);
    }
    assert_eq!(Claim::made_up(Kind::Presence, DEPTH, random).check(both), 0);
}

/// Buffers that are too short come first; then the presence is named, and the absence only where
/// the presence is accepted. No one can make a pair under SHA-256 of which both are.
fn clashes<C: TrieCalls>(both: &mut Both<C>) {
    let list = handles_of(3).concat();
    let [present, absent] = [3, 4].map(|lot| Claim::honest(&list, &key(lot)));
    let broken = bit_turned(&present.proof, 77);
    let long = vec![0; ENTRY_MOST + 1];
    let cases: [(&[u8], &[u8], &[u8], u64); 9] = [
        (&present.key, &present.proof, &absent.proof, 2),
        (&present.key, &present.proof, &[], 2),
        (&present.key, &present.proof, &absent.proof[1..], 2),
        (&present.key, &present.proof, &present.proof, 2),
        (&present.key, &broken, &absent.proof, 1),
        (&present.key, &present.proof[1..], &absent.proof, 1),
        (&absent.key, &present.proof, &absent.proof, 1),
        (&absent.key, &absent.proof, &absent.proof, 1),
        (&long, &present.proof, &absent.proof, 1),
    ];
    let rooms = [0, 1, CLASH_LEAST - 1, CLASH_LEAST, CLASH_LEAST + 1, 4_097];
    for (key, presence, absence, which) in cases {
        for first in rooms {
            for second in rooms {
                let answer =
                    both.trie_clash(key, &present.root, presence, absence, [first, second]);
                let short = first.min(second) < CLASH_LEAST;
                let (number, beside) = if short { (6, 0) } else { (13, which) };
                assert_eq!(answer, Answer { number, beside: [beside, 0, 0] });
            }
        }
    }
    let answer = both.trie_clash(&key(7), &EMPTY, &[0; PROOF_MOST], &[], [CLASH_LEAST; 2]);
    assert_eq!(answer, Answer { number: 13, beside: [1, 0, 0] });
}

/// Claims that are accepted: on short lists, present and absent, and made-up ones.
pub fn claims(random: &mut Random) -> Vec<Claim> {
    let mut claims = Vec::new();
    for lots in SMALL {
        let list = handles_of(lots).concat();
        claims.extend([1, 2, 3, 4, 5_000].map(|lot| Claim::honest(&list, &key(lot))));
    }
    claims.extend(full_claims());
    claims.extend(KINDS.map(|kind| Claim::made_up(kind, DEPTH, random)));
    claims.push(Claim::made_up(Kind::Absence, 9, random));
    claims
}

/// One call of the group on one of the claims, spoiled or not: mostly checks.
pub fn any_call<C: TrieCalls>(both: &mut Both<C>, claims: &[Claim], random: &mut Random) {
    let claim = &claims[random.place(claims.len())];
    match random.below(16) {
        0 => {
            let length = random.of_any_size(ENTRY_MOST as u64 + 2) as usize;
            both.handle(&random.bytes(length));
        }
        1 => {
            both.trie_root(&some_list(claim, random));
        }
        2 => {
            let kind = KINDS[random.place(2)];
            let room = if random.once_in(3) { random.place(PROOF_MOST) } else { PROOF_MOST + 9 };
            prove(both, kind, &some_list(claim, random), &some_key(claim, random), room);
        }
        3 | 4 => {
            let other = &claims[random.place(claims.len())];
            let rooms = [(); 2].map(|_| {
                if random.once_in(8) {
                    random.place(CLASH_LEAST)
                } else {
                    CLASH_LEAST + random.place(9)
                }
            });
            both.trie_clash(&claim.key, &claim.root, &claim.proof, &other.proof, rooms);
        }
        _ => {
            any_check(both, claim, random);
        }
    }
}

/// A list that is short, whole or spoiled.
fn some_list(claim: &Claim, random: &mut Random) -> Vec<u8> {
    let list = &claim.list[..claim.list.len().min(96)];
    if random.once_in(2) {
        spoiled(list, random)
    } else {
        list.to_vec()
    }
}

fn some_key(claim: &Claim, random: &mut Random) -> Vec<u8> {
    if random.once_in(4) {
        spoiled(&claim.key, random)
    } else {
        claim.key.clone()
    }
}

/// Checks a claim, spoiled in one part or in more.
fn any_check<C: TrieCalls>(both: &mut Both<C>, claim: &Claim, random: &mut Random) {
    let mut asked = claim.with_key(&some_key(claim, random));
    if random.once_in(2) {
        asked = asked.with_proof(&spoiled(&claim.proof, random));
    }
    if random.once_in(8) {
        asked = asked.with_root(&bit_turned(&claim.root, random.place(256)));
    }
    if random.once_in(8) {
        asked = asked.turned_over();
    }
    asked.check(both);
}

/// "at most 1,000 handles", of which a root and a proof of each kind take all.
fn the_longest_list<C: TrieCalls>(both: &mut Both<C>) {
    let list = handles_of(HANDLES_MOST as u64).concat();
    let (number, root) = both.trie_root(&list);
    assert_eq!(number, 0);
    for (kind, lot) in [(Kind::Presence, 500), (Kind::Absence, 5_000)] {
        let (answer, out) = prove(both, kind, &list, &key(lot), PROOF_MOST);
        assert_eq!(answer.number, 0);
        let proof = out[..answer.beside[0] as usize].to_vec();
        let claim = Claim { kind, list: Vec::new(), key: key(lot), root, proof };
        assert_eq!(claim.check(both), 0);
    }
}
