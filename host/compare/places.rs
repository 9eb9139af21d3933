//! Where a broken proof is said to have broken, told beforehand by the path alone.
//!
//! Each part of 32 bytes that a checker reads is damaged in turn. What comes of it follows from the
//! path, with no walk over hops and no look at a proof:
//!
//! - The path from i to n has the next multiples of the powers of two from i on, and the last ones
//!   up to n.
//! - The hop into an element compares the link of the level hopped, and a bad one is 10. Advancing,
//!   it also compares each link of a higher level with the row one below that level, and a bad one
//!   is 9: adding 2^l to a number carries from bit l to the lowest 1 bit of the sum, and the rows
//!   that it passes are those of the bits between.
//! - Damage that its own hop does not compare gives the component another digest: the next hop finds
//!   it in its link, or else the end does.
//! - Row l held at i is passed by the hop into the next multiple of 2^(l + 1), if the path goes so
//!   far. If not, the row is never looked at and the new state has it as it was held.
//! - Of several damages the one that is found first decides.

use std::ops::Range;

use lotlog::{Answer, Side};
use second::dispute::BUFFER_LEAST;
use second::held::ROWS;
use second::store::Log;

use crate::advance::{Step, BASIS, DIGEST};
use crate::both::{BothAdvance, BothMember, Counted};
use crate::logs::{read, sound, Source};
use crate::member::Claim;
use crate::random::Random;
use crate::Scale;

const SEED: u64 = 6;

/// Every path up to this length is tried with each part damaged.
const SMALL: u64 = 40;

/// 32 bytes that a checker reads.
#[derive(Debug, Clone, Copy)]
pub enum Part {
    /// d of the component at a place of the path, counted from 0; or its link of a level.
    D(usize),
    Link(usize, u32),
    /// The digest of the held state, or a row of it.
    Held,
    Row(usize),
    /// The digest that the proof is to end in.
    Claimed,
}

/// How damage is found: the hops good before that, the number, the element, and the row or the
/// level. "Checks run in number order, but 9 and 10 go hop by hop": of two that are found the lesser
/// one decides, and so does the lower one of two rows.
type Found = [u64; 4];

/// The elements of a path, and whether its proof is for advancing: then the first one has no
/// component.
pub struct Way {
    elements: Vec<u64>,
    advancing: bool,
}

impl Way {
    pub fn new(i: u64, n: u64, advancing: bool) -> Way {
        let next = |power: u64| i + (power - i % power) % power;
        let last = |power: u64| n - n % power;
        let powers = (0..ROWS).map(|level| 1 << level);
        let mut elements: Vec<u64> = powers
            .flat_map(|power| [next(power), last(power)])
            .filter(|j| (i..=n).contains(j))
            .collect();
        elements.sort_unstable();
        elements.dedup();
        Way { elements, advancing }
    }

    /// The elements, the first one and the last one included.
    pub fn elements(&self) -> &[u64] {
        &self.elements
    }

    pub fn hops(&self) -> usize {
        self.elements.len() - 1
    }

    /// The level of the hop into an element that is not the first.
    fn level(&self, at: usize) -> u32 {
        (self.elements[at] - self.elements[at - 1]).trailing_zeros()
    }

    /// The level of an element's last link.
    fn top(&self, at: usize) -> u32 {
        self.elements[at].trailing_zeros()
    }

    /// The places on the path of the elements that have a component in the proof.
    fn components(&self) -> Range<usize> {
        usize::from(self.advancing)..self.elements.len()
    }

    fn in_use(&self, row: usize) -> bool {
        self.elements[0] >> row & 1 == 1
    }

    /// The place on the path of the element that is reached by passing a row in use, if one is.
    fn passes(&self, row: usize) -> Option<usize> {
        let (i, power) = (self.elements[0], 2 << row);
        let next = i - i % power + power;
        self.elements.iter().position(|j| *j == next)
    }

    /// All parts that are read; of the rows those in use.
    pub fn parts(&self) -> Vec<Part> {
        let mut parts = vec![Part::Claimed];
        if self.advancing {
            parts.push(Part::Held);
            parts.extend((0..ROWS).filter(|row| self.in_use(*row)).map(Part::Row));
        }
        parts.extend(self.components().flat_map(|at| self.component(at)));
        parts
    }

    /// The parts of a component.
    fn component(&self, at: usize) -> Vec<Part> {
        let links = (0..=self.top(at)).map(|level| Part::Link(at, level));
        [Part::D(at)].into_iter().chain(links).collect()
    }

    /// Where the component at a place of the path lies in the proof.
    pub fn place(&self, at: usize) -> Range<usize> {
        let bytes = |at| 32 * (self.top(at) as usize + 2);
        let begin = (self.components().start..at).map(bytes).sum();
        begin..begin + bytes(at)
    }

    /// The length of the proof.
    pub fn bytes(&self) -> usize {
        self.components().map(|at| self.place(at).len()).sum()
    }

    /// The bytes of a d or of a link in the proof.
    fn in_proof<'a>(&self, proof: &'a mut [u8], part: Part) -> &'a mut [u8] {
        let (at, behind_d) = match part {
            Part::D(at) => (at, 0),
            Part::Link(at, level) => (at, 1 + level as usize),
            _ => unreachable!("a part of the proof"),
        };
        &mut proof[self.place(at)][32 * behind_d..][..32]
    }

    /// Another digest of an element is found by the next hop, or at the end.
    fn digest_found(&self, at: usize) -> Found {
        match self.elements.get(at + 1) {
            Some(next) => [at as u64, 10, *next, self.level(at + 1).into()],
            None => [at as u64, 11, 0, 0],
        }
    }

    /// A bad link is found by the hop into its element, or changes the digest of that.
    fn link_found(&self, at: usize, level: u32) -> Found {
        if at == 0 {
            return self.digest_found(at);
        }
        let (before, element, hopped) = (at as u64 - 1, self.elements[at], self.level(at));
        match (level, self.advancing) {
            (level, _) if level == hopped => [before, 10, element, level.into()],
            (level, true) if level > hopped => [before, 9, element, u64::from(level) - 1],
            _ => self.digest_found(at),
        }
    }

    /// How damage to one part is found, if it is.
    fn found(&self, part: Part) -> Option<Found> {
        Some(match part {
            Part::Claimed => [self.hops() as u64, 11, 0, 0],
            Part::Held if self.elements[0] == 0 => [0, 2, 0, 0],
            Part::Held => self.digest_found(0),
            Part::Row(row) if !self.in_use(row) => [0, 2, 0, 0],
            Part::Row(row) => {
                let at = self.passes(row)?;
                [at as u64 - 1, 9, self.elements[at], row as u64]
            }
            Part::D(0) => [0, 8, 0, 0],
            Part::D(at) => self.digest_found(at),
            Part::Link(at, level) => self.link_found(at, level),
        })
    }

    /// The answer to damage in these parts.
    pub fn told(&self, parts: &[Part]) -> Answer {
        let accepted = [self.hops() as u64, 0, 0, 0];
        let found = parts.iter().filter_map(|part| self.found(*part)).min();
        let [hops, number, element, level] = found.unwrap_or(accepted);
        Answer { number, beside: [hops, element, level] }
    }
}

/// What a checker takes: a membership claim or a step.
pub trait Checked<B: ?Sized>: Clone {
    /// The lowest number that a path may begin with.
    const FIRST: u64;

    fn honest(log: &dyn Source, i: u64, n: u64) -> Self;
    fn proof(&mut self) -> &mut Vec<u8>;
    /// The bytes of a part.
    fn part(&mut self, way: &Way, part: Part) -> &mut [u8];
    /// Checks, and looks at all that comes of it.
    fn answer(&self, both: &mut B, log: &dyn Source, way: &Way) -> Answer;

    fn way(i: u64, n: u64) -> Way {
        Way::new(i, n, Self::FIRST == 0)
    }
}

impl<B: BothMember + ?Sized> Checked<B> for Claim {
    const FIRST: u64 = 1;

    fn honest(log: &dyn Source, i: u64, n: u64) -> Claim {
        log.claim(i, n)
    }

    fn proof(&mut self) -> &mut Vec<u8> {
        &mut self.proof
    }

    fn part(&mut self, way: &Way, part: Part) -> &mut [u8] {
        match part {
            Part::Claimed => &mut self.digest,
            _ => way.in_proof(&mut self.proof, part),
        }
    }

    fn answer(&self, both: &mut B, _: &dyn Source, _: &Way) -> Answer {
        self.check(both)
    }
}

impl<B: BothAdvance + ?Sized> Checked<B> for Step {
    const FIRST: u64 = 0;

    fn honest(log: &dyn Source, i: u64, n: u64) -> Step {
        log.step(i, n)
    }

    fn proof(&mut self) -> &mut Vec<u8> {
        &mut self.proof
    }

    fn part(&mut self, way: &Way, part: Part) -> &mut [u8] {
        match part {
            Part::Claimed => &mut self.digest,
            Part::Held => &mut self.held[DIGEST..BASIS],
            Part::Row(row) => &mut self.held[row_bytes(row)],
            _ => way.in_proof(&mut self.proof, part),
        }
    }

    /// A refusal leaves the held state. Acceptance gives the log's own state, with the rows that no
    /// hop passed as they were held.
    fn answer(&self, both: &mut B, log: &dyn Source, way: &Way) -> Answer {
        let (answer, after) = self.check(both);
        let mut wanted = self.held;
        if answer.number == 0 {
            wanted = log.held(self.n);
            for row in (0..ROWS).filter(|row| way.in_use(*row) && way.passes(*row).is_none()) {
                wanted[row_bytes(row)].copy_from_slice(&self.held[row_bytes(row)]);
            }
        }
        assert!(after == wanted, "the state after a step to {}", self.n);
        answer
    }
}

fn row_bytes(row: usize) -> Range<usize> {
    BASIS + 32 * row..BASIS + 32 * (row + 1)
}

/// Holds the answer to a bit turned in each of these parts to what is told beforehand. Two parts have
/// it in other halves: so a row and the link that it is compared with do not become alike.
pub fn damage<K: Checked<B>, B: Counted + ?Sized>(
    both: &mut B,
    log: &dyn Source,
    (honest, way): (&K, &Way),
    parts: &[Part],
    random: &mut Random,
) {
    let mut damaged = honest.clone();
    for (at, part) in parts.iter().enumerate() {
        let share = 256 / parts.len();
        let bit = share * at + random.place(share);
        damaged.part(way, *part)[bit / 8] ^= 1 << (bit % 8);
    }
    hold(both, log, (&damaged, way), way.told(parts), &format!("{:?}", parts));
}

/// Holds an answer to what is told beforehand.
pub fn hold<K: Checked<B>, B: Counted + ?Sized>(
    both: &mut B,
    log: &dyn Source,
    (checked, way): (&K, &Way),
    told: Answer,
    what: &str,
) {
    let answer = checked.answer(both, log, way);
    assert_eq!(answer, told, "damage to {} on the path {:?}", what, way.elements);
    both.count_told();
}

/// An honest proof: whole, with each part damaged, with each free row not zero, and too long.
pub fn each_part<K: Checked<B>, B: Counted + ?Sized>(
    both: &mut B,
    log: &dyn Source,
    (honest, way): (&K, &Way),
    random: &mut Random,
) {
    alone(both, log, (honest, way), &way.parts(), random);
    let rows = if way.advancing { 0..ROWS } else { 0..0 };
    for row in rows.filter(|row| !way.in_use(*row)) {
        damage(both, log, (honest, way), &[Part::Row(row)], random);
    }
    let mut longer = honest.clone();
    longer.proof().extend([0; 32]);
    let told = Answer { number: 7, beside: [0; 3] };
    hold(both, log, (&longer, way), told, "the length");
}

/// An honest proof: whole, and with each of these parts damaged.
pub fn alone<K: Checked<B>, B: Counted + ?Sized>(
    both: &mut B,
    log: &dyn Source,
    (honest, way): (&K, &Way),
    parts: &[Part],
    random: &mut Random,
) {
    damage(both, log, (honest, way), &[], random);
    parts.iter().for_each(|part| damage(both, log, (honest, way), &[*part], random));
}

/// An honest proof with each two parts of one component damaged.
fn each_two<K: Checked<B>, B: Counted + ?Sized>(
    both: &mut B,
    log: &dyn Source,
    (honest, way): (&K, &Way),
    random: &mut Random,
) {
    for at in way.components() {
        let parts = way.component(at);
        for second in 1..parts.len() {
            for first in 0..second {
                damage(both, log, (honest, way), &[parts[first], parts[second]], random);
            }
        }
    }
}

/// Every path up to a small length.
fn small_paths<K: Checked<B>, B: Counted + ?Sized>(both: &mut B, most: u64, random: &mut Random) {
    let store = sound(most, 0);
    let log = read(&store);
    for n in K::FIRST..=most {
        for i in K::FIRST..=n {
            let (honest, way) = (K::honest(&log, i, n), K::way(i, n));
            each_part(both, &log, (&honest, &way), random);
            each_two(both, &log, (&honest, &way), random);
        }
    }
}

/// Paths of a log, picked at random, half of them evenly spread and half of any size, with damage
/// in two parts and in one.
fn some_paths<K: Checked<B>, B: Counted + ?Sized>(
    both: &mut B,
    log: &Log,
    times: usize,
    random: &mut Random,
) {
    for time in 0..times {
        let n = match time % 2 {
            0 => random.between(1, log.count),
            _ => random.of_any_size(log.count),
        };
        let i = random.between(K::FIRST, n);
        let (honest, way) = (K::honest(log, i, n), K::way(i, n));
        any_two(both, log, (&honest, &way), random);
    }
}

/// Damage in any two parts, half the time in near ones, and in one.
pub fn any_two<K: Checked<B>, B: Counted + ?Sized>(
    both: &mut B,
    log: &dyn Source,
    (honest, way): (&K, &Way),
    random: &mut Random,
) {
    let parts = way.parts();
    let first = random.place(parts.len());
    let near = (first + random.place(5)).min(parts.len() - 1);
    let second = if random.once_in(2) { near } else { random.place(parts.len()) };
    damage(both, log, (honest, way), &[parts[first], parts[second]], random);
    damage(both, log, (honest, way), &[parts[second]], random);
}

/// Compares places on all small paths, and on some of a store of any length.
pub fn run<K: Checked<B>, B: Counted + ?Sized>(both: &mut B, store: &[u8], scale: Scale) {
    let mut random = Random::new(SEED);
    small_paths::<K, B>(both, scale.pick(SMALL, 16), &mut random);
    let small = sound(SMALL, 0);
    some_paths::<K, B>(both, &read(&small), scale.pick(4_000, 500), &mut random);
    some_paths::<K, B>(both, &read(store), scale.pick(3_000, 100), &mut random);
}

/// "All other refusals, 13 too, show 0 there": disputes on every small path, with a bit of one proof
/// turned.
pub fn disputes(both: &mut dyn BothMember, scale: Scale) {
    let mut random = Random::new(SEED);
    let store = sound(SMALL, 0);
    let most = scale.pick(SMALL, 12);
    for (i, n) in (1..=most).flat_map(|n| (1..=n).map(move |i| (i, n))) {
        let claim = Claim::honest(&read(&store), i, n);
        let mut proof = claim.proof.clone();
        proof[random.place(claim.proof.len())] ^= 1 << random.below(8);
        let [good, bad] = [&claim.proof, &proof].map(|proof| Side { entry: &claim.entry, proof });
        for (which, sides) in [(1, [bad, good]), (2, [good, bad])] {
            let answer = both.dispute(sides, i, n, &claim.digest, [BUFFER_LEAST; 2]);
            assert_eq!(answer, Answer { number: 13, beside: [which, 0, 0] });
            both.count_told();
        }
    }
}
