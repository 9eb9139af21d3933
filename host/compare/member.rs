//! The group `member`: building and checking membership proofs, disputes, and the differing part.

use lotlog::{Answer, Digest, Side, PROOF_MOST};
use second::dispute::BUFFER_LEAST;
use second::hash::Sha256;
use second::path::{component_length, membership, proof_length};
use second::proof::{components, proof_of};
use second::store::Log;
use second::{ENTRY_MOST, LIMIT};

use crate::both::BothMember;
use crate::damage::{bit_turned, parts_swapped, spoiled};
use crate::logs::{entry, first_records, read, sound, OLD_LIMIT, REAL};
use crate::places;
use crate::random::Random;
use crate::Scale;

const SEED: u64 = 2;

/// Every pair of positions up to this length is tried.
const SMALL: u64 = 40;

/// Pairs with short proofs, of which every bit is turned.
const SHORT: [(u64, u64); 5] = [(1, 1), (8, 8), (7, 8), (1, 7), (5, 12)];

pub fn run(both: &mut dyn BothMember, scale: Scale) {
    let mut random = Random::new(SEED);
    small_pairs(both, scale.pick(SMALL, 12), &mut random);
    every_bit(both);
    let elements = scale.pick(REAL, 3_000);
    let store = sound(elements, 0);
    random_pairs(both, &store, scale.pick(10_000, 100), &mut random);
    build_anywhere(both, &store, scale.pick(10_000, 100), &mut random);
    places::run::<Claim, _>(both, &store, scale);
    places::disputes(both, scale);
    if scale == Scale::Full {
        the_old_ends(both, &store);
    }
}

/// What a membership check takes.
#[derive(Clone)]
pub struct Claim {
    pub entry: Vec<u8>,
    pub i: u64,
    pub n: u64,
    pub digest: Digest,
    pub proof: Vec<u8>,
}

impl Claim {
    /// The true claim that the entry of element i stands at i in the log of length n.
    pub fn honest(log: &Log, i: u64, n: u64) -> Claim {
        let path = membership(i, n).expect("a path");
        let proof = proof_of::<Sha256>(log, &path);
        Claim { entry: entry(i), i, n, digest: log.digest::<Sha256>(n), proof }
    }

    fn hops(&self) -> u64 {
        membership(self.i, self.n).expect("a path").len() as u64 - 1
    }

    pub fn check<B: BothMember + ?Sized>(&self, both: &mut B) -> Answer {
        both.check_membership(&self.entry, self.i, self.n, &self.digest, &self.proof)
    }

    /// The claim with another proof.
    pub fn with_proof(&self, proof: Vec<u8>) -> Claim {
        Claim { proof, ..self.clone() }
    }

    fn with_entry(&self, entry: Vec<u8>) -> Claim {
        Claim { entry, ..self.clone() }
    }

    pub fn with_digest(&self, digest: &[u8]) -> Claim {
        Claim { digest: digest.try_into().expect("32 bytes"), ..self.clone() }
    }

    pub fn with_positions(&self, i: u64, n: u64) -> Claim {
        Claim { i, n, ..self.clone() }
    }

    /// The proof of an honest claim, cut into its components.
    fn components(&self) -> Vec<&[u8]> {
        let path = membership(self.i, self.n).expect("a path");
        components(&path, &self.proof).expect("the path's length")
    }

    /// The proof with two components in each other's place.
    fn components_swapped(&self, random: &mut Random) -> Claim {
        let mut parts = self.components();
        let (one, other) = (random.place(parts.len()), random.place(parts.len()));
        parts.swap(one, other);
        self.with_proof(parts.concat())
    }

    /// The proof with two 32-byte parts of one component in each other's place.
    fn links_swapped(&self, random: &mut Random) -> Claim {
        let mut parts: Vec<Vec<u8>> = self.components().iter().map(|part| part.to_vec()).collect();
        let at = random.place(parts.len());
        let links = parts[at].len() / 32;
        parts[at] = parts_swapped(&parts[at], random.place(links), random.place(links));
        self.with_proof(parts.concat())
    }

    /// The honest claim spoiled in every way that document 01 tells apart.
    pub fn damaged(&self, random: &mut Random) -> Vec<Claim> {
        let length = self.proof.len();
        let last = component_length(self.n);
        let longer = |tail: &[u8]| self.with_proof([&self.proof, tail].concat());
        let shorter = |less: usize| self.with_proof(self.proof[..length - less].to_vec());
        vec![
            self.with_proof(bit_turned(&self.proof, random.place(8 * length))),
            self.with_proof(bit_turned(&self.proof, random.place(8 * length))),
            shorter(1),
            shorter(32),
            shorter(last),
            shorter(length),
            longer(&[0]),
            longer(&[0; 32]),
            longer(&self.proof[length - last..]),
            self.components_swapped(random),
            self.links_swapped(random),
            self.with_entry(entry(self.i + 1)),
            self.with_entry([&self.entry[..], &[0]].concat()),
            self.with_entry(vec![0; ENTRY_MOST]),
            self.with_entry(vec![0; ENTRY_MOST + 1]),
            self.with_digest(&bit_turned(&self.digest, random.place(256))),
            self.with_digest(&[0; 32]),
            self.with_positions(self.i + 1, self.n),
            self.with_positions(self.i - 1, self.n),
            self.with_positions(self.i, self.n + 1),
            self.with_positions(self.i, self.n - 1),
            self.with_positions(self.n + 1, self.n),
            self.with_positions(self.i, LIMIT + 1),
            self.with_positions(self.i, u64::MAX),
            self.with_positions(u64::MAX, u64::MAX),
            self.with_positions(u64::MAX - self.i, self.n),
            self.with_positions(self.i + (1 << 32), self.n + (1 << 32)),
            self.with_positions(self.i, self.n + (1 << 32)),
            self.with_positions(self.i + (1 << 32), self.n),
        ]
    }
}

/// An honest claim is accepted with the path's hops; each damaged one gets the same answer from
/// both.
fn check_claim(both: &mut dyn BothMember, claim: &Claim, random: &mut Random) {
    let answer = claim.check(both);
    assert_eq!(answer, Answer { number: 0, beside: [claim.hops(), 0, 0] });
    for damaged in claim.damaged(random) {
        damaged.check(both);
    }
}

/// Settles disputes of the claim with itself and with a spoiled copy, and asks for the differing
/// part.
fn dispute_claim(both: &mut dyn BothMember, claim: &Claim, random: &mut Random) {
    let other_proof = spoiled(&claim.proof, random);
    let other_entry = spoiled(&claim.entry, random);
    let good = Side { entry: &claim.entry, proof: &claim.proof };
    let bad = Side { entry: &claim.entry, proof: &other_proof };
    let worse = Side { entry: &other_entry, proof: &claim.proof };
    let rooms = [BUFFER_LEAST, BUFFER_LEAST + random.place(9)];
    let (i, n) = (claim.i, claim.n);
    for sides in [[good, good], [good, bad], [bad, good], [bad, worse], [good, worse]] {
        both.dispute(sides, i, n, &claim.digest, rooms);
    }
    both.dispute([good, good], i, n, &claim.digest, [BUFFER_LEAST - 1, BUFFER_LEAST]);
    both.dispute([good, good], i, n, &claim.digest, [BUFFER_LEAST, random.place(BUFFER_LEAST)]);
    both.dispute([good, good], i - 1, n, &claim.digest, rooms);
    both.differing(&claim.proof, &claim.proof, i, n);
    both.differing(&claim.proof, &other_proof, i, n);
    both.differing(&other_proof, &claim.proof, i, n);
    both.differing(&claim.proof, &other_proof, random.number_near(i), random.number_near(n));
}

/// Every (i, n) up to a small length: built, checked, damaged and disputed.
fn small_pairs(both: &mut dyn BothMember, most: u64, random: &mut Random) {
    let store = sound(most, 2);
    let log = read(&store);
    for n in 0..=most + 1 {
        for i in 0..=n + 1 {
            let length = membership(i, n).map_or(100, |path| proof_length(&path));
            for room in [length, length + 7, length - 1, 0] {
                both.build_membership(&store, i, n, room);
            }
            if 0 < i && i <= n && n <= most {
                let claim = Claim::honest(&log, i, n);
                check_claim(both, &claim, random);
                dispute_claim(both, &claim, random);
                both.differing(&claim.proof, &bit_turned(&claim.proof, 0), i, n);
            }
        }
    }
}

/// Every single bit of some short proofs.
fn every_bit(both: &mut dyn BothMember) {
    let store = sound(12, 0);
    for (i, n) in SHORT {
        let claim = Claim::honest(&read(&store), i, n);
        for bit in 0..8 * claim.proof.len() {
            let spoiled = claim.with_proof(bit_turned(&claim.proof, bit));
            spoiled.check(both);
            both.differing(&claim.proof, &spoiled.proof, i, n);
        }
    }
}

/// Random pairs, half of them evenly spread and half of any size.
fn random_pairs(both: &mut dyn BothMember, store: &[u8], times: usize, random: &mut Random) {
    let log = read(store);
    for time in 0..times {
        let n = if time % 2 == 0 {
            random.between(1, log.count)
        } else {
            random.of_any_size(log.count)
        };
        let claim = Claim::honest(&log, random.between(1, n), n);
        check_claim(both, &claim, random);
        if time % 4 == 0 {
            dispute_claim(both, &claim, random);
        }
    }
}

/// Proofs built from the first records of a store, which are as many as the length asked for: each
/// build counts its store, and counting all of it every time would take long.
fn build_anywhere(both: &mut dyn BothMember, store: &[u8], times: usize, random: &mut Random) {
    let most = read(store).count;
    for _ in 0..times {
        let n = random.of_any_size(most);
        let i = random.between(1, n);
        let length = proof_length(&membership(i, n).expect("a path"));
        let room = if random.once_in(8) { random.place(length) } else { length + random.place(9) };
        both.build_membership(first_records(store, n), i, n, room);
    }
    for _ in 0..times / 100 {
        let n = random.between(1, most);
        both.build_membership(store, random.between(1, n), n, 15_000);
    }
}

/// "1 to 1,048,575: 38 hops, 39 components, 14,048 bytes", which is no longer the longest; and the
/// lengths past that one, up to the store's.
fn the_old_ends(both: &mut dyn BothMember, store: &[u8]) {
    for (n, hops, bytes) in [(OLD_LIMIT, 38, 14_048), (OLD_LIMIT + 1, 20, 8_064)] {
        assert_eq!(both.build_membership(store, 1, n, bytes).beside[0], bytes as u64);
        assert_eq!(both.build_membership(store, 1, n, bytes - 1).number, 6);
        let claim = Claim::honest(&read(store), 1, n);
        assert_eq!((claim.components().len() as u64, claim.proof.len()), (hops + 1, bytes));
        assert_eq!(claim.check(both), Answer { number: 0, beside: [hops, 0, 0] });
    }
    for n in [REAL + 1, LIMIT, LIMIT + 1, LIMIT + 2, LIMIT + REAL] {
        assert_eq!(both.build_membership(store, 1, n, PROOF_MOST).number, 4);
    }
}
