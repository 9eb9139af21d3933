//! What is checked: proofs of a log of the house, a thousand at a time, as a practice is sent them.

use compare::calls::Checks;
use compare::random::Random;
use compare::second_calls::held_bytes;
use lotlog::{Answer, Digest, Held};
use second::hash::Sha256;
use second::held::held_of;
use second::path::{advancement, membership};
use second::proof::proof_of;
use second::store::{store_of, Log};

/// The number of the log.
const LOG: u64 = 7;

const SEED: u64 = 9;

/// Proofs that are checked one after the other, and are all good.
pub trait Work {
    /// The bytes of the proofs.
    fn bytes(&self) -> usize;

    /// Has a checker check each, and accept it.
    fn check<C: Checks>(&self);

    /// Panics unless two checkers answer alike, and leave the same state, on each proof and on it with
    /// one byte changed.
    fn alike<C: Checks, D: Checks>(&self);
}

/// The entry of element j.
pub fn entry(j: u64) -> Vec<u8> {
    format!("lot {:06}, expiry 2028-05", j).into_bytes()
}

/// The store of the house with so many elements.
pub fn house(elements: u64) -> Vec<u8> {
    store_of::<Sha256>(LOG, elements, (1..=elements).map(entry))
}

/// So many elements of a log, spread without order, and the same each time.
pub fn some_of(elements: u64, times: u64) -> impl Iterator<Item = u64> {
    let mut random = Random::new(SEED);
    (0..times).map(move |_| random.between(1, elements))
}

/// A proof, and the same with one byte changed, which differs from proof to proof.
fn good_and_bad(proof: &[u8], number: usize) -> [Vec<u8>; 2] {
    let mut changed = proof.to_vec();
    changed[37 * number % proof.len()] ^= 1;
    [proof.to_vec(), changed]
}

/// That an entry stands at an element of the log.
struct Claim {
    entry: Vec<u8>,
    i: u64,
    proof: Vec<u8>,
}

/// Claims on a log of one length.
pub struct Claims {
    n: u64,
    digest: Digest,
    claims: Vec<Claim>,
}

impl Claims {
    /// The true ones of these elements.
    pub fn of(log: &Log, elements: impl Iterator<Item = u64>) -> Claims {
        let n = log.count;
        let claim = |i| {
            let path = membership(i, n).expect("a path");
            Claim { entry: entry(i), i, proof: proof_of::<Sha256>(log, &path) }
        };
        Claims { n, digest: log.digest::<Sha256>(n), claims: elements.map(claim).collect() }
    }

    fn answer<C: Checks>(&self, claim: &Claim, proof: &[u8]) -> Answer {
        C::check_membership(&claim.entry, claim.i, self.n, &self.digest, proof)
    }
}

impl Work for Claims {
    fn bytes(&self) -> usize {
        self.claims.iter().map(|claim| claim.proof.len()).sum()
    }

    fn check<C: Checks>(&self) {
        for claim in &self.claims {
            assert_eq!(self.answer::<C>(claim, &claim.proof).number, 0);
        }
    }

    fn alike<C: Checks, D: Checks>(&self) {
        for (number, claim) in self.claims.iter().enumerate() {
            for proof in good_and_bad(&claim.proof, number) {
                let answers = (self.answer::<C>(claim, &proof), self.answer::<D>(claim, &proof));
                assert_eq!(answers.0, answers.1, "element {} of {}", claim.i, self.n);
            }
        }
    }
}

/// An advance, with the log's own state from which it goes.
struct Step {
    held: Held,
    n: u64,
    digest: Digest,
    proof: Vec<u8>,
}

impl Step {
    /// The answer to the step with another proof, and the state that is left.
    fn outcome<C: Checks>(&self, proof: &[u8]) -> (Answer, Held) {
        let mut held = self.held;
        (C::check_advancement(&mut held, self.n, &self.digest, proof), held)
    }
}

/// Advances on a log.
pub struct Steps {
    steps: Vec<Step>,
    /// Whether each goes on from the state that the one before handed back, or has its own.
    going_on: bool,
}

impl Steps {
    /// The true ones between these counts, each from its own state.
    pub fn of(log: &Log, counts: impl Iterator<Item = (u64, u64)>) -> Steps {
        let step = |(i, n)| {
            let path = advancement(i, n).expect("a path");
            let held = held_bytes(&held_of::<Sha256>(log, i));
            let proof = proof_of::<Sha256>(log, &path);
            Step { held, n, digest: log.digest::<Sha256>(n), proof }
        };
        Steps { steps: counts.map(step).collect(), going_on: false }
    }

    /// From the start to the end of the log by so many elements each, going on.
    pub fn by(log: &Log, elements: u64) -> Steps {
        let counts = (0..log.count / elements).map(|at| (at * elements, (at + 1) * elements));
        Steps { going_on: true, ..Steps::of(log, counts) }
    }
}

impl Work for Steps {
    fn bytes(&self) -> usize {
        self.steps.iter().map(|step| step.proof.len()).sum()
    }

    fn check<C: Checks>(&self) {
        let mut held = self.steps[0].held;
        for step in &self.steps {
            if !self.going_on {
                held = step.held;
            }
            let answer = C::check_advancement(&mut held, step.n, &step.digest, &step.proof);
            assert_eq!(answer.number, 0);
        }
    }

    fn alike<C: Checks, D: Checks>(&self) {
        for (number, step) in self.steps.iter().enumerate() {
            for proof in good_and_bad(&step.proof, number) {
                let outcomes = (step.outcome::<C>(&proof), step.outcome::<D>(&proof));
                let answers = (outcomes.0 .0, outcomes.1 .0);
                assert!(outcomes.0 == outcomes.1, "to {}: {:?}", step.n, answers);
            }
        }
    }
}
