//! The group `advance`: held states, and building and checking advancement proofs.

use lotlog::{Answer, Digest, Held, PROOF_MOST};
use second::hash::Sha256;
use second::held::{held_of, ROWS};
use second::message::element_digest;
use second::path::{advancement, proof_length};
use second::proof::proof_of;
use second::store::{store_of, Log};
use second::LIMIT;

use crate::both::BothAdvance;
use crate::damage::bit_turned;
use crate::logs::{entry, first_records, read, sound, LOG, OLD_LIMIT, REAL};
use crate::places;
use crate::random::Random;
use crate::second_calls::held_bytes;
use crate::Scale;

const SEED: u64 = 3;

/// Every advance between lengths up to this one is tried.
const SMALL: u64 = 40;

/// Where the parts of a held state's bytes begin.
const COUNT: usize = 8;
pub const DIGEST: usize = 16;
pub const BASIS: usize = 48;

pub fn run(both: &mut dyn BothAdvance, scale: Scale) {
    let mut random = Random::new(SEED);
    small_steps(both, scale.pick(SMALL, 10), &mut random);
    let store = sound(scale.pick(REAL, 3_000), 0);
    for _ in 0..scale.pick(5, 2) {
        walk(both, &store, &mut random);
    }
    let start = both.held_start(LOG);
    one_by_one(both, &store, start, scale.pick(3_000, 300));
    places::run::<Step, _>(both, &store, scale);
    if scale == Scale::Full {
        farthest_steps(both, &store, &mut random);
        let before = held_bytes(&held_of::<Sha256>(&read(&store), OLD_LIMIT - 40));
        one_by_one(both, &store, before, REAL);
    }
    starts(both);
    changed_element_8(both);
}

/// What an advancement check takes.
#[derive(Clone)]
pub struct Step {
    pub held: Held,
    pub n: u64,
    pub digest: Digest,
    pub proof: Vec<u8>,
}

impl Step {
    /// The true step of a log's own held state from i to n.
    pub fn honest(log: &Log, i: u64, n: u64) -> Step {
        let proof = proof_of::<Sha256>(log, &advancement(i, n).expect("a path"));
        let held = held_bytes(&held_of::<Sha256>(log, i));
        Step { held, n, digest: log.digest::<Sha256>(n), proof }
    }

    pub fn check<B: BothAdvance + ?Sized>(&self, both: &mut B) -> (Answer, Held) {
        both.check_advancement(&self.held, self.n, &self.digest, &self.proof)
    }

    fn with_held(&self, held: &[u8]) -> Step {
        Step { held: held.try_into().expect("the bytes of a state"), ..self.clone() }
    }

    pub fn with_count(&self, count: u64) -> Step {
        let mut step = self.clone();
        step.held[COUNT..DIGEST].copy_from_slice(&count.to_be_bytes());
        step
    }

    pub fn with_digest(&self, digest: &[u8]) -> Step {
        Step { digest: digest.try_into().expect("32 bytes"), ..self.clone() }
    }

    pub fn with_n(&self, n: u64) -> Step {
        Step { n, ..self.clone() }
    }

    pub fn with_proof(&self, proof: Vec<u8>) -> Step {
        Step { proof, ..self.clone() }
    }

    fn count(&self) -> u64 {
        u64::from_be_bytes(self.held[COUNT..DIGEST].try_into().expect("8 bytes"))
    }

    /// The held state with a bit turned in its log number, its digest and in each row.
    pub fn damaged_states(&self, random: &mut Random) -> Vec<Step> {
        let turned = |from: usize, bytes: u64, random: &mut Random| {
            self.with_held(&bit_turned(&self.held, 8 * from + random.below(8 * bytes) as usize))
        };
        let mut steps = vec![turned(0, 8, random), turned(DIGEST, 32, random)];
        steps.extend((0..ROWS).map(|row| turned(BASIS + 32 * row, 32, random)));
        steps
    }

    /// Other counts, lengths and claimed digests.
    pub fn damaged_numbers(&self, random: &mut Random) -> Vec<Step> {
        let count = self.count();
        let near = |number: u64| [number + 1, number.wrapping_sub(1), 0, LIMIT + 1, u64::MAX];
        let counts = [&near(count)[..], &[LIMIT, 1 << 40, count + (1 << 32)]].concat();
        let lengths = [&near(self.n)[..], &[self.n + (1 << 32)]].concat();
        let digests = [bit_turned(&self.digest, random.place(256)), vec![0; 32]];
        let mut steps: Vec<Step> = counts.iter().map(|&other| self.with_count(other)).collect();
        steps.extend(lengths.iter().map(|&other| self.with_n(other)));
        steps.extend(digests.iter().map(|other| self.with_digest(other)));
        steps.push(self.with_digest(&self.held[DIGEST..BASIS]));
        steps
    }

    /// The proof with a bit turned in the d and in each link of each component, and of other
    /// lengths.
    fn damaged_proofs(&self, random: &mut Random) -> Vec<Step> {
        let length = self.proof.len();
        let mut proofs: Vec<Vec<u8>> = (0..length / 32)
            .map(|part| bit_turned(&self.proof, 256 * part + random.place(256)))
            .collect();
        for longer in [1, 32, 64] {
            proofs.push([&self.proof[..], &vec![0; longer]].concat());
        }
        for shorter in [1, 32, 64].into_iter().filter(|&shorter| shorter <= length) {
            proofs.push(self.proof[..length - shorter].to_vec());
        }
        proofs.into_iter().map(|proof| self.with_proof(proof)).collect()
    }
}

/// An honest step is accepted with the path's hops and ends in the store's own state; each damaged
/// one gets the same answer and the same state from both.
fn check_step(both: &mut dyn BothAdvance, log: &Log, i: u64, n: u64) -> Step {
    let step = Step::honest(log, i, n);
    let hops = advancement(i, n).expect("a path").len() as u64;
    let (answer, after) = step.check(both);
    assert_eq!(answer, Answer { number: 0, beside: [hops, 0, 0] });
    assert!(after == held_bytes(&held_of::<Sha256>(log, n)), "the store's own state at {}", n);
    step
}

fn check_damaged(both: &mut dyn BothAdvance, step: &Step, random: &mut Random) {
    let damaged =
        [step.damaged_states(random), step.damaged_numbers(random), step.damaged_proofs(random)];
    for step in damaged.concat() {
        step.check(both);
    }
}

/// Every step from i to n up to a small length: built, checked and damaged.
fn small_steps(both: &mut dyn BothAdvance, most: u64, random: &mut Random) {
    let store = sound(most, 2);
    let log = read(&store);
    for n in 0..=most + 1 {
        both.held_at(&store, n);
        for i in 0..=n + 1 {
            let length = advancement(i, n).map_or(0, |path| proof_length(&path));
            for room in [length, length + 7, length.saturating_sub(1), 0] {
                both.build_advancement(&store, i, n, room);
            }
            if i <= n && n <= most {
                let step = check_step(both, &log, i, n);
                check_damaged(both, &step, random);
            }
        }
    }
    for at in [OLD_LIMIT, LIMIT, LIMIT + 1, LIMIT + 2, u64::MAX] {
        both.held_at(&store, at);
        both.build_advancement(&store, 0, at, PROOF_MOST);
        both.build_advancement(&store, at, at, PROOF_MOST);
    }
}

/// A walk from the start to the end of the log in steps of any size, damaged at every step.
fn walk(both: &mut dyn BothAdvance, store: &[u8], random: &mut Random) {
    let log = read(store);
    let mut at = 0;
    while at < log.count {
        let next = at + random.of_any_size(log.count - at);
        let step = check_step(both, &log, at, next);
        check_damaged(both, &step, random);
        let records = first_records(store, next);
        both.build_advancement(records, at, next, step.proof.len() + random.place(9));
        both.held_at(records, next);
        at = next;
    }
}

/// A walk by single elements from a state, that goes on from the one handed back each time.
fn one_by_one(both: &mut dyn BothAdvance, store: &[u8], start: Held, most: u64) {
    let log = read(store);
    let mut held = start;
    let count = u64::from_be_bytes(held[COUNT..DIGEST].try_into().expect("8 bytes"));
    for n in count + 1..=most {
        let step = Step { held, ..Step::honest(&log, n - 1, n) };
        held = step.check(both).1;
        assert!(held == held_bytes(&held_of::<Sha256>(&log, n)), "the store's own state at {}", n);
    }
}

/// The steps to the old limit with the most hops, from the start, over the level that was the highest
/// there, and by one; and those past it, by one and to the end.
fn farthest_steps(both: &mut dyn BothAdvance, store: &[u8], random: &mut Random) {
    let log = read(store);
    for (i, n, hops, bytes) in [
        (1, OLD_LIMIT, 38, 13_984),
        (0, OLD_LIMIT, 20, 7_360),
        (1 << 19, OLD_LIMIT, 19, 6_688),
        (OLD_LIMIT - 1, OLD_LIMIT, 1, 64),
        (OLD_LIMIT, OLD_LIMIT + 1, 1, 704),
        (OLD_LIMIT, REAL, 5, 1_216),
        (0, REAL, 5, 1_216),
    ] {
        let step = check_step(both, &log, i, n);
        assert_eq!((advancement(i, n).map(|path| path.len()), step.proof.len()), (Ok(hops), bytes));
        check_damaged(both, &step, random);
        both.build_advancement(store, i, n, bytes);
        both.build_advancement(store, i, n, bytes - 1);
    }
}

/// The state with which a practice begins, and the store's state at 0.
fn starts(both: &mut dyn BothAdvance) {
    for log in [0, 1, 7, LOG, 1 << 63, u64::MAX] {
        let store = store_of::<Sha256>(log, 1, std::iter::empty());
        let held = both.held_start(log);
        assert_eq!(both.held_at(&store, 0), (0, held));
        assert_eq!(both.held_at(&store[..16], 0), (0, held));
        assert_eq!(both.held_at(&store[..15], 0).0, 1);
        let digest: Digest = held[DIGEST..BASIS].try_into().expect("32 bytes");
        assert_eq!(both.check_advancement(&held, 0, &digest, &[]).0.number, 0);
        assert_eq!(both.check_advancement(&held, 0, &[0; 32], &[]).0.number, 11);
    }
}

/// The attack of source 003, appendix A: a house shows version 9 with one element 8, and then makes
/// version 10 from the digest of another. "Checking links but never basis rows" would accept it.
fn changed_element_8(both: &mut dyn BothAdvance) {
    let shown = store_of::<Sha256>(LOG, 9, (1..=9).map(entry));
    let other = store_of::<Sha256>(LOG, 8, (1..=8).map(|j| entry(if j == 8 { 88 } else { j })));
    let [t8, t9] = [(&other, 8), (&shown, 9)].map(|(store, j)| read(store).digest::<Sha256>(j));
    let component = [entry_digest_of(10), t9, t8].concat();
    let claimed = element_digest::<Sha256>(10, &component);
    let held = held_bytes(&held_of::<Sha256>(&read(&shown), 9));
    let (answer, after) = both.check_advancement(&held, 10, &claimed, &component);
    // 9 is odd: row 0 is in use, and the hop to 10 passes it
    assert_eq!(answer, Answer { number: 9, beside: [0, 10, 0] });
    assert!(after == held, "the old state");
}

fn entry_digest_of(j: u64) -> Digest {
    second::message::entry_digest::<Sha256>(&entry(j))
}
