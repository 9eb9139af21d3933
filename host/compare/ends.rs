//! The group `ends`: proofs, states and files up to the limit of document 02, A7, and past it.
//!
//! "01's figures for 1,048,575 and 1,048,576 move to the new ends", where no store can be; so the
//! logs are made up (`made`). All answers that the path alone can tell are told beforehand.

use lotlog::{Answer, Held, Side, ELEMENTS_MOST, HELD_FILE_MOST, PROOF_MOST};
use second::dispute::BUFFER_LEAST;
use second::held::{self, in_use, ROWS};
use second::saved::{file_of, FILE_LEAST, FILE_MOST};
use second::LIMIT;

use crate::advance::{Step, DIGEST};
use crate::both::BothEnds;
use crate::logs::{sound, Source, LOG, OLD_LIMIT};
use crate::made::Made;
use crate::member::Claim;
use crate::places::{self, Checked, Part, Way};
use crate::random::Random;
use crate::saved::{made_up, read_file, refuse_state, save, set_count};
use crate::second_calls::held_bytes;
use crate::Scale;

const SEED: u64 = 8;

/// The middle: from 0, the longest hop goes there.
const MIDDLE: u64 = 1 << 31;

/// Every other bit, and the others.
const ODD_BITS: u64 = 0xAAAA_AAAA;
const EVEN_BITS: u64 = 0x5555_5555;

/// A path from i to n with its hops and the bytes of its proof.
type Figure = (u64, u64, usize, usize);

/// "paths have at most 62 hops, the longest proof is 34,784 bytes": the first. The others end or
/// begin where a sum, a shift or a row could slip.
const CLAIMS: [Figure; 18] = [
    (1, LIMIT, 62, 34_784),
    (1, LIMIT - 1, 61, 34_720),
    (MIDDLE, LIMIT, 31, 17_920),
    (MIDDLE - 1, LIMIT, 32, 17_984),
    (MIDDLE + 1, LIMIT, 60, 32_704),
    (MIDDLE, MIDDLE, 0, 1_056),
    (1, MIDDLE, 31, 17_920),
    (LIMIT - 1, LIMIT, 1, 160),
    (LIMIT, LIMIT, 0, 64),
    (1, OLD_LIMIT, 38, 14_048),
    (1, OLD_LIMIT + 1, 20, 8_064),
    (OLD_LIMIT, OLD_LIMIT + 1, 1, 768),
    (OLD_LIMIT, MIDDLE, 12, 10_624),
    (OLD_LIMIT, LIMIT, 43, 27_488),
    (OLD_LIMIT + 1, LIMIT, 42, 27_424),
    (OLD_LIMIT + 2, LIMIT - 1, 60, 34_016),
    (ODD_BITS, LIMIT, 45, 24_576),
    (EVEN_BITS, ODD_BITS, 31, 17_440),
];

/// The same of steps.
const STEPS: [Figure; 16] = [
    (1, LIMIT, 62, 34_720),
    (0, LIMIT, 32, 17_920),
    (0, MIDDLE, 1, 1_056),
    (MIDDLE - 1, MIDDLE, 1, 1_056),
    (MIDDLE, LIMIT, 31, 16_864),
    (MIDDLE + 1, LIMIT, 60, 32_640),
    (LIMIT - 1, LIMIT, 1, 64),
    (LIMIT, LIMIT, 0, 0),
    (0, OLD_LIMIT, 20, 7_360),
    (0, OLD_LIMIT + 1, 1, 704),
    (1, OLD_LIMIT, 38, 13_984),
    (OLD_LIMIT, OLD_LIMIT + 1, 1, 704),
    (OLD_LIMIT, LIMIT, 43, 27_424),
    (OLD_LIMIT + 1, LIMIT, 42, 26_720),
    (0, EVEN_BITS, 16, 8_704),
    (EVEN_BITS, ODD_BITS, 31, 17_376),
];

/// Counts and lengths at the ends, rising.
const ENDS: [u64; 13] = [
    0,
    1,
    OLD_LIMIT - 1,
    OLD_LIMIT,
    OLD_LIMIT + 1,
    OLD_LIMIT + 2,
    EVEN_BITS,
    MIDDLE - 1,
    MIDDLE,
    MIDDLE + 1,
    ODD_BITS,
    LIMIT - 1,
    LIMIT,
];

pub fn run(both: &mut dyn BothEnds, scale: Scale) {
    let mut random = Random::new(SEED);
    constants();
    lengths_of_a_store(both);
    ENDS.iter().for_each(|count| states(both, *count, &mut random));
    over_the_limit(both, &mut random);
    past_the_limit(both, &mut random);
    figures::<Claim, _>(both, &CLAIMS, scale, &mut random);
    figures::<Step, _>(both, &STEPS, scale, &mut random);
    walk(both, &ENDS, &mut random);
    for _ in 0..scale.pick(12, 1) {
        let stops = some_stops(&mut random);
        walk(both, &stops, &mut random);
    }
    for lowest in [1, OLD_LIMIT + 1, MIDDLE] {
        for _ in 0..scale.pick(450, 12) {
            let n = some_length(lowest, &mut random);
            claims(both, n, &mut random);
            steps(both, n, &mut random);
        }
    }
}

/// What the wrapper tells its callers: the limit, the levels, the longest proof and the longest file.
fn constants() {
    let (_, limit, _, longest) = CLAIMS[0];
    assert_eq!((ELEMENTS_MOST as u64, lotlog::LEVELS), (limit, ROWS));
    assert_eq!((PROOF_MOST, HELD_FILE_MOST), (longest, FILE_MOST));
}

/// Numbers over the limit that have something to do with one up to it.
fn over(number: u64) -> [u64; 6] {
    let low = LIMIT + 1;
    [low, low + 1, low + number, 1 << 40 | number, 1 << 63 | number, u64::MAX]
}

fn refused(number: u64) -> Answer {
    Answer { number, beside: [0; 3] }
}

/// Holds the number of a refusal to what is told beforehand.
fn told<B: BothEnds + ?Sized>(both: &mut B, number: u64, wanted: u64) {
    assert_eq!(number, wanted);
    both.count_told();
}

/// "building either, or reading a digest or a held state: number above the count", up to the limit
/// and over it.
fn lengths_of_a_store<B: BothEnds + ?Sized>(both: &mut B) {
    let elements = 12;
    let store = sound(elements, 1);
    let above = (1..=elements).flat_map(over).chain([elements + 1, OLD_LIMIT, MIDDLE, LIMIT]);
    for n in above {
        for i in [1, 5, elements, n - 1, n] {
            let number = both.build_membership(&store, i, n, PROOF_MOST).number;
            told(both, number, 4);
            let number = both.build_advancement(&store, i, n, PROOF_MOST).number;
            told(both, number, 4);
        }
        let number = both.digest_at(&store, n).0;
        told(both, number, 4);
        let number = both.held_at(&store, n).0;
        told(both, number, 4);
    }
}

/// Advances a state to its own length, which no proof is needed for.
fn stays<B: BothEnds + ?Sized>(both: &mut B, held: &Held, wanted: u64) {
    let count = u64::from_be_bytes(held[8..DIGEST].try_into().expect("8 bytes"));
    let digest = held[DIGEST..DIGEST + 32].try_into().expect("32 bytes");
    let (answer, after) = both.check_advancement(held, count, &digest, &[]);
    assert!(after == *held, "the state as it was");
    assert_eq!(answer, refused(wanted));
    both.count_told();
}

/// A state of this count: as it is, with each free row not zero, and in a file, which is cut and made
/// longer.
fn states<B: BothEnds + ?Sized>(both: &mut B, count: u64, random: &mut Random) {
    let state = made_up(count, random);
    stays(both, &held_bytes(&state), 0);
    let file = save(both, &state);
    for row in (0..ROWS).filter(|row| !in_use(count, *row)) {
        let mut broken = state.clone();
        broken.rows[row][random.place(32)] = random.between(1, 255) as u8;
        stays(both, &held_bytes(&broken), 2);
        refuse_state(both, &broken);
    }
    let longer = [&file[..], &random.bytes(FILE_MOST)].concat();
    let near = [1, 31, 32, 33].iter().flat_map(|by| [file.len() + by, file.len() - by]);
    // the length of a file with twenty rows, and those of the shortest file and of the longest
    let of_others = [FILE_LEAST, FILE_LEAST + 32, 693, FILE_MOST - 32, FILE_MOST, FILE_MOST + 32];
    for length in near.chain(of_others).filter(|length| *length != file.len()) {
        let number = read_file(both, &longer[..length]);
        told(both, number, if length < FILE_LEAST { 18 } else { 22 });
    }
}

/// Counts over the limit: of states, which are refused with 2 whatever else is in order; and of
/// files, which are refused with 21 at any length, so before 22.
fn over_the_limit<B: BothEnds + ?Sized>(both: &mut B, random: &mut Random) {
    for low in ENDS {
        let state = made_up(low, random);
        let bits = (32..64).map(|bit| low | 1 << bit);
        for count in bits.chain([u64::MAX, low | LIMIT << 32]) {
            let broken = held::Held { count, ..state.clone() };
            stays(both, &held_bytes(&broken), 2);
            let mut file = [&file_of(&state)[..], &[0; 32]].concat();
            set_count(&mut file, count);
            for length in [file.len() - 32, file.len() - 31, file.len(), FILE_LEAST] {
                let number = read_file(both, &file[..length]);
                told(both, number, 21);
            }
        }
        refuse_state(both, &held::Held { count: LIMIT + 1 + low, ..state });
    }
}

/// Proofs of lengths over the limit with which all else is in order. "Length 1,048,576: 4", says 01,
/// which is 4,294,967,296 now.
fn past_the_limit<B: BothEnds + ?Sized>(both: &mut B, random: &mut Random) {
    let next = LIMIT + 1;
    for n in [next, next + 1, next + OLD_LIMIT] {
        let log = Made::between(&[0, 1, OLD_LIMIT, MIDDLE, LIMIT, next, n], random.next());
        for i in [1, OLD_LIMIT, MIDDLE, LIMIT, next] {
            let checked = (&log.claim(i, n), &Way::new(i, n, false));
            places::hold(both, &log, checked, refused(4), "the limit");
        }
        for i in [0, 1, OLD_LIMIT, MIDDLE, LIMIT] {
            let checked = (&log.step(i, n), &Way::new(i, n, true));
            places::hold(both, &log, checked, refused(4), "the limit");
        }
    }
}

/// Paths with their figures: accepted, with each part damaged or with some, and too long.
fn figures<K: Checked<B>, B: BothEnds + ?Sized>(
    both: &mut B,
    figures: &[Figure],
    scale: Scale,
    random: &mut Random,
) {
    for &(i, n, hops, bytes) in figures {
        let log = Made::between(&[i, n], random.next());
        let (mut honest, way) = (K::honest(&log, i, n), K::way(i, n));
        assert_eq!((way.hops(), way.bytes(), honest.proof().len()), (hops, bytes, bytes));
        if scale == Scale::Full || bytes < 1_100 {
            places::each_part(both, &log, (&honest, &way), random);
        } else {
            let parts = some_parts(&way, 6, random);
            places::alone(both, &log, (&honest, &way), &parts, random);
        }
    }
}

fn some_parts(way: &Way, times: usize, random: &mut Random) -> Vec<Part> {
    let parts = way.parts();
    (0..times).map(|_| parts[random.place(parts.len())]).collect()
}

/// Rising lengths from 0 to the limit, picked at random, one of them where the old limit is passed.
fn some_stops(random: &mut Random) -> Vec<u64> {
    let mut stops = vec![0, LIMIT, random.between(OLD_LIMIT - 2, OLD_LIMIT + 2)];
    stops.extend((0..4).map(|_| random.of_any_size(LIMIT)));
    stops.extend((0..4).map(|_| random.between(1, LIMIT)));
    stops.sort_unstable();
    stops.dedup();
    stops
}

/// A practice goes from stop to stop, with a new terminal after each, and holds the log's own state
/// there. From every stop before it comes to the same in one step, and the entry there is found.
fn walk<B: BothEnds + ?Sized>(both: &mut B, stops: &[u64], random: &mut Random) {
    let log = Made::between(stops, random.next());
    let mut held = both.held_start(LOG);
    for (at, &n) in stops.iter().enumerate() {
        let from = stops[at.max(1) - 1];
        held = advanced(both, &log, Step { held, ..log.step(from, n) }, from);
        let (answer, out) = both.held_write(&held, FILE_MOST);
        let file = &out[..answer.beside[0] as usize];
        assert!(both.held_read(file) == (0, held), "the state itself");
        for &i in &stops[..at] {
            advanced(both, &log, log.step(i, n), i);
            if i > 0 {
                places::damage(both, &log, (&log.claim(i, n), &Way::new(i, n, false)), &[], random);
            }
        }
    }
}

/// A step from i on is accepted with the path's hops, and ends in the log's own state.
fn advanced<B: BothEnds + ?Sized>(both: &mut B, log: &Made, step: Step, i: u64) -> Held {
    let hops = Way::new(i, step.n, true).hops() as u64;
    let (answer, after) = step.check(both);
    assert_eq!(answer, Answer { number: 0, beside: [hops, 0, 0] });
    assert!(after == log.held(step.n), "the log's own state at {}", step.n);
    both.count_told();
    after
}

/// A length from the lowest to the limit, or of any size.
fn some_length(lowest: u64, random: &mut Random) -> u64 {
    match lowest {
        1 => random.of_any_size(LIMIT),
        _ => random.between(lowest, LIMIT),
    }
}

/// Where a path to n begins: anywhere, near its end, or near its beginning.
fn some_first(first: u64, n: u64, random: &mut Random) -> u64 {
    match random.below(3) {
        0 => random.between(first, n),
        1 => n - random.of_any_size(n).min(n - first),
        _ => random.of_any_size(n),
    }
}

/// A made-up claim of any size.
pub fn some_claim(random: &mut Random) -> Claim {
    let n = some_length(1, random);
    let i = some_first(1, n, random);
    Made::between(&[i, n], random.next()).claim(i, n)
}

/// A made-up step of any size.
pub fn some_step(random: &mut Random) -> Step {
    let n = some_length(1, random);
    let i = some_first(0, n, random);
    Made::between(&[i, n], random.next()).step(i, n)
}

/// A claim of this length: accepted, damaged in some parts, of other lengths and at other positions,
/// and in disputes.
fn claims<B: BothEnds + ?Sized>(both: &mut B, n: u64, random: &mut Random) {
    let i = some_first(1, n, random);
    let log = Made::between(&[i, n], random.next());
    let (claim, way) = (log.claim(i, n), Way::new(i, n, false));
    places::alone(both, &log, (&claim, &way), &some_parts(&way, 2, random), random);
    places::any_two(both, &log, (&claim, &way), random);
    for proof in other_lengths(&claim.proof, random) {
        places::hold(both, &log, (&claim.with_proof(proof), &way), refused(7), "the length");
    }
    let far = |number: u64| number + (1 << 32);
    let moved = over(n).map(|over| (i, over)).into_iter().chain([
        (0, n),
        (n + 1, n),
        (far(i), n),
        (far(i), far(n)),
        (u64::MAX, n),
        (u64::MAX, u64::MAX),
    ]);
    for (i, n) in moved {
        let claim = claim.with_positions(i, n);
        places::hold(both, &log, (&claim, &way), refused(4), "the positions");
    }
    if random.once_in(4) {
        for claim in claim.damaged(random) {
            claim.check(both);
        }
    }
    disputes(both, &claim, &way, random);
}

/// A proof that is cut, or has something behind it.
fn other_lengths(proof: &[u8], random: &mut Random) -> Vec<Vec<u8>> {
    let mut proofs: Vec<Vec<u8>> =
        [&[0][..], &[0; 32], &[0; 64]].iter().map(|tail| [proof, tail].concat()).collect();
    if !proof.is_empty() {
        let shorter = [proof.len() - 1, random.place(proof.len()), proof.len() - 32];
        proofs.extend(shorter.map(|length| proof[..length].to_vec()));
    }
    proofs
}

/// Disputes of a claim with itself and with a proof that is damaged in two components, and the
/// differing component nearest n.
fn disputes<B: BothEnds + ?Sized>(both: &mut B, claim: &Claim, way: &Way, random: &mut Random) {
    let (i, n) = (claim.i, claim.n);
    let places = [(); 2].map(|_| random.place(way.elements().len()));
    let mut proof = claim.proof.clone();
    for (bits, at) in [1, 2].into_iter().zip(places) {
        proof[way.place(at)][random.place(64)] ^= bits;
    }
    let [good, bad] = [&claim.proof, &proof].map(|proof| Side { entry: &claim.entry, proof });
    let same = Answer { number: 0, beside: [1, 0, 0] };
    let which = |which: u64| Answer { number: 13, beside: [which, 0, 0] };
    for (sides, n, told) in [
        ([good, good], n, same),
        ([bad, good], n, which(1)),
        ([good, bad], n, which(2)),
        ([bad, bad], n, which(1)),
        ([good, good], n + (1 << 32), which(1)),
    ] {
        let answer = both.dispute(sides, i, n, &claim.digest, [BUFFER_LEAST; 2]);
        assert_eq!(answer, told, "a dispute over ({}, {})", i, n);
        both.count_told();
    }
    let nearest = way.place(places[0].max(places[1]));
    let nothing = [0; 3];
    let part = [nearest.start as u64, nearest.len() as u64, 0];
    for (first, second, i, n, told) in [
        (good, bad, i, n, part),
        (bad, good, i, n, part),
        (good, good, i, n, nothing),
        (good, bad, i, n + (1 << 32), nothing),
        (good, bad, i + (1 << 32), n, nothing),
        (good, bad, i + (1 << 32), n + (1 << 32), nothing),
        (good, bad, i, LIMIT + 1, nothing),
    ] {
        let answer = both.differing(first.proof, second.proof, i, n);
        assert_eq!(answer, Answer { number: 0, beside: told }, "differing for ({}, {})", i, n);
        both.count_told();
    }
}

/// A step of this length: accepted, damaged in some parts, of other lengths and with other numbers.
fn steps<B: BothEnds + ?Sized>(both: &mut B, n: u64, random: &mut Random) {
    let i = some_first(0, n, random);
    let log = Made::between(&[i, n], random.next());
    let (step, way) = (log.step(i, n), Way::new(i, n, true));
    places::alone(both, &log, (&step, &way), &some_parts(&way, 2, random), random);
    places::any_two(both, &log, (&step, &way), random);
    for proof in other_lengths(&step.proof, random) {
        places::hold(both, &log, (&step.with_proof(proof), &way), refused(7), "the length");
    }
    for n in over(n) {
        places::hold(both, &log, (&step.with_n(n), &way), refused(4), "the length told");
    }
    for count in over(i) {
        places::hold(both, &log, (&step.with_count(count), &way), refused(2), "the count");
    }
    if i > 0 {
        places::hold(both, &log, (&step.with_n(i - 1), &way), refused(4), "the length told");
    }
    if random.once_in(4) {
        for step in [step.damaged_states(random), step.damaged_numbers(random)].concat() {
            step.check(both);
        }
    }
}
