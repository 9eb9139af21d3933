//! The group `sealed`: HMAC, and the logs of the vans, to which a van adds and which the office
//! checks.
//!
//! What the office must say of a damaged log is told beforehand: damage to an entry, in whatever
//! part of it, is found at that entry and at no other. So is what a van must be told, by the order
//! of the refusals alone.

use lotlog::{Answer, Digest};
use second::hash::{Hash, Sha256};
use second::mac::{KEY_MOST, MESSAGE_MOST, RFC_4231};
use second::sealed::{chain, next_key, seal, stored};
use second::sealed::{BESIDE_DATA, CLOSED_KEY, CLOSING, DATA_MOST, FIRST_CHAIN};

use crate::both::{BothSealed, BEFORE};
use crate::damage::{bit_turned, spoiled};
use crate::random::Random;
use crate::Scale;

const SEED: u64 = 8;

/// Types that a reader of fewer bytes, or from the other end, could take for one another. The first
/// closes.
const KINDS: [u32; 15] = [
    CLOSING,
    0,
    2,
    255,
    256,
    257,
    0x0001_0000,
    0x0001_0001,
    0x0100_0000,
    0x0100_0001,
    0x0101_0101,
    0x8000_0001,
    0xFFFF_0001,
    u32::MAX - 1,
    u32::MAX,
];

/// The data's lengths of a small log, of a middling one and of a longer one; the last entry closes.
const SMALL: [usize; 3] = [0, 1, 5];
const MIDDLING: [usize; 6] = [3, 0, 17, 26, 1, 9];
const LONGER: [usize; 12] = [0, 1, 2, 3, 5, 8, 13, 21, 34, 55, 89, 0];

pub fn run(both: &mut dyn BothSealed, scale: Scale) {
    let mut random = Random::new(SEED);
    causes(both, &mut random);
    kinds(both, scale.pick(&[0, 1, 5, DATA_MOST], &[0, 5]), &mut random);
    every_room(both, &mut random);
    keys(both, scale.pick(1, 31), &mut random);
    lengths(both, scale.pick(1, 23), &mut random);
    for entries in 0..=scale.pick(40, 5) {
        begin_and_close(both, entries, &mut random);
    }
    every_bit(both, &SMALL, scale.pick(1, 5), &mut random);
    every_bit(both, &MIDDLING, scale.pick(1, 61), &mut random);
    every_byte(both, &LONGER, scale.pick(1, 41), &mut random);
    every_byte(both, &[7, DATA_MOST, 2], scale.pick(23, 1_501), &mut random);
    every_value_of_a_head(both, scale.pick(1, 51), &mut random);
    every_cut(both, &SMALL, &mut random);
    every_cut(both, &LONGER, &mut random);
    rearranged(both, scale.pick(&LONGER[..8], &SMALL), &mut random);
    after_the_close(both, &mut random);
    length_fields(both, &mut random);
    wrong_states(both, scale.pick(8, 2), &mut random);
    first_keys(both, scale.pick(1, 31), &mut random);
    several_damages(both, scale.pick(1_500, 20), &mut random);
    long_log(both, scale.pick(300, 20), &mut random);
    rfc_4231(both);
    macs(both, scale, &mut random);
    let vans = vans(&mut random);
    for _ in 0..scale.pick(6_000, 200) {
        any_call(both, &vans, &mut random);
    }
}

fn some_digest(random: &mut Random) -> Digest {
    random.bytes(32).try_into().expect("32 bytes")
}

/// A type that does not close.
fn open_kind(random: &mut Random) -> u32 {
    if random.once_in(2) {
        return KINDS[1 + random.place(KINDS.len() - 1)];
    }
    random.next() as u32 | 2
}

/// Holds an answer to what is told beforehand: its number and the one beside it.
fn hold(both: &mut dyn BothSealed, answer: Answer, told: (u64, u64)) {
    assert_eq!(answer, Answer { number: told.0, beside: [told.1, 0, 0] });
    both.count_told();
}

/// A van: its first key, the key and the chain that it lends to the next call, and the entries that
/// it has written.
#[derive(Clone)]
pub struct Van {
    first_key: Digest,
    key: Digest,
    chain: Digest,
    entries: Vec<Vec<u8>>,
}

impl Van {
    fn begin(first_key: Digest) -> Van {
        Van { first_key, key: first_key, chain: FIRST_CHAIN, entries: Vec::new() }
    }

    /// Writes an entry as A6 says, but of any length and under any key.
    fn write(&mut self, kind: u32, data: &[u8]) {
        self.chain = chain::<Sha256>(&self.chain, kind, data);
        self.entries.push(stored(kind, data, &seal::<Sha256>(&self.key, &self.chain)));
        self.key = if kind == CLOSING { CLOSED_KEY } else { next_key::<Sha256>(&self.key) };
    }

    /// A van with entries of these lengths, none of which closes.
    fn open(lengths: &[usize], random: &mut Random) -> Van {
        let mut van = Van::begin(some_digest(random));
        lengths.iter().for_each(|&length| van.write(open_kind(random), &random.bytes(length)));
        van
    }

    /// A van with entries of these lengths, the last of which closes.
    fn closed(lengths: &[usize], random: &mut Random) -> Van {
        let (last, others) = lengths.split_last().expect("an entry that closes");
        let mut van = Van::open(others, random);
        van.write(CLOSING, &random.bytes(*last));
        van
    }

    fn log(&self) -> Vec<u8> {
        self.entries.concat()
    }

    /// The number of the entry that has the byte at a place of the log; at the end of the log, the
    /// number of entries.
    fn entry_at(&self, place: usize) -> u64 {
        let ends = self.entries.iter().scan(0, |end, entry| {
            *end += entry.len();
            Some(*end)
        });
        ends.filter(|&end| end <= place).count() as u64
    }

    /// The office checks this log by the van's first key and must answer as told.
    fn check(&self, both: &mut dyn BothSealed, log: &[u8], told: (u64, u64)) {
        let answer = both.seal_check(&self.first_key, log);
        hold(both, answer, told);
    }

    /// The office checks the van's own log and must answer as told.
    fn check_own(&self, both: &mut dyn BothSealed, told: (u64, u64)) {
        self.check(both, &self.log(), told);
    }

    /// Adds an entry by a call, into an output of just its length. The call must write what the van
    /// would write, and leave the same key and chain.
    fn add(&mut self, both: &mut dyn BothSealed, kind: u32, data: &[u8]) {
        let (mut key, mut chain) = (self.key, self.chain);
        let length = data.len() + BESIDE_DATA;
        let (answer, out) = both.seal_add(&mut key, &mut chain, kind, data, length);
        hold(both, answer, (0, length as u64));
        self.write(kind, data);
        assert!(Some(&out) == self.entries.last(), "the entry");
        assert!((key, chain) == (self.key, self.chain), "the next key and chain");
    }
}

/// Adds with any key and room. The call must answer with the number told, and a refusal leaves key,
/// chain and output.
fn add_under(
    both: &mut dyn BothSealed,
    key: &[u8],
    (kind, data): (u32, &[u8]),
    room: usize,
    number: u64,
) {
    let (mut lent_key, mut chain) = (key.to_vec(), [0xC4; 32]);
    let (answer, out) = both.seal_add(&mut lent_key, &mut chain, kind, data, room);
    if number == 0 {
        let length = data.len() + BESIDE_DATA;
        hold(both, answer, (0, length as u64));
        assert!(out[length..] == vec![BEFORE; room - length], "what lies behind the entry");
        assert!(lent_key != key, "the old key is gone");
    } else {
        hold(both, answer, (number, 0));
        assert!(lent_key == key && chain == [0xC4; 32], "key and chain as they were");
        assert!(out == vec![BEFORE; room], "the output as it was");
    }
}

/// Data, keys and rooms of every length that could matter, each with each: of the causes of a
/// refusal the first in the order 3, 6, 23 decides.
fn causes(both: &mut dyn BothSealed, random: &mut Random) {
    let bytes = random.bytes(70_000);
    for length in [0, 1, 20, DATA_MOST, DATA_MOST + 1, 65_536, 65_556] {
        let need = length + BESIDE_DATA;
        for key in [0, 1, 31, 32, 33, 64].map(|length| &bytes[..length]) {
            for key in [key, &vec![0; key.len()]] {
                for room in [0, 1, 31, 32, need - 1, need, need + 1, need + 40] {
                    let number = match key.len() {
                        _ if length > DATA_MOST => 3,
                        32 if room < need => 6,
                        32 if key == CLOSED_KEY => 23,
                        32 => 0,
                        _ => 6,
                    };
                    let kind = KINDS[random.place(KINDS.len())];
                    add_under(both, key, (kind, &bytes[..length]), room, number);
                }
            }
        }
    }
}

/// "A closing entry has type 1": that type closes whatever its data, and no other does.
fn kinds(both: &mut dyn BothSealed, lengths: &[usize], random: &mut Random) {
    for kind in KINDS {
        for &length in lengths {
            for before in [0, 2] {
                let mut van = Van::open(&SMALL[..before], random);
                van.add(both, kind, &random.bytes(length));
                let closes = kind == 1;
                assert_eq!(van.key == [0; 32], closes);
                let count = van.entries.len() as u64;
                van.check_own(both, if closes { (0, count) } else { (25, 0) });
                add_under(both, &van.key, (2, b"more"), 60, if closes { 23 } else { 0 });
            }
        }
    }
}

/// Outputs of every length up to more than the entry's.
fn every_room(both: &mut dyn BothSealed, random: &mut Random) {
    for kind in [CLOSING, 2] {
        for length in [0, 1, 30] {
            let need = length + BESIDE_DATA;
            let (key, data) = (some_digest(random), random.bytes(length));
            for room in 0..need + 3 {
                add_under(both, &key, (kind, &data), room, if room < need { 6 } else { 0 });
                add_under(both, &CLOSED_KEY, (kind, &data), room, if room < need { 6 } else { 23 });
            }
        }
    }
}

/// Keys of every length up to more than two digests, and keys with few bits: one is enough.
fn keys(both: &mut dyn BothSealed, step: usize, random: &mut Random) {
    for length in 0..=70 {
        let number = if length == 32 { 0 } else { 6 };
        add_under(both, &random.bytes(length), (2, b"data"), 60, number);
        add_under(both, &vec![0; length], (2, b"data"), 60, if length == 32 { 23 } else { 6 });
    }
    for bit in (0..256).step_by(step).chain([0, 7, 248, 255]) {
        add_under(both, &bit_turned(&CLOSED_KEY, bit), (2, b""), 38, 0);
        add_under(both, &bit_turned(&[0xFF; 32], bit), (CLOSING, b""), 38, 0);
    }
}

/// Data of every length up to some blocks of the hash, and at the limit: alone in a closed log.
fn lengths(both: &mut dyn BothSealed, step: usize, random: &mut Random) {
    for length in (0..=200).step_by(step).chain([1_000, DATA_MOST - 1, DATA_MOST]) {
        let mut van = Van::begin(some_digest(random));
        van.add(both, CLOSING, &random.bytes(length));
        van.check_own(both, (0, 1));
        let log = van.log();
        van.check(both, &log[..log.len() - 1], (24, 0));
        van.check(both, &[&log[..], &[0]].concat(), (24, 1));
    }
    for length in [DATA_MOST + 1, 8_192, 65_535, 65_536] {
        let data = random.bytes(length);
        add_under(both, &some_digest(random), (CLOSING, &data), length + 100, 3);
    }
}

/// "Every log the van begins and closes passes." It passes at no time before it is closed, and
/// refusals on the way leave no trace in it.
fn begin_and_close(both: &mut dyn BothSealed, entries: usize, random: &mut Random) {
    let mut van = Van::begin(some_digest(random));
    van.check_own(both, (25, 0));
    for left in (0..entries).rev() {
        let most = if random.once_in(20) { DATA_MOST as u64 } else { 60 };
        let length = random.of_any_size(most) as usize - 1;
        let data = random.bytes(length);
        if random.once_in(4) {
            add_under(both, &van.key, (2, &data), data.len() + 37, 6);
            add_under(both, &van.key, (2, &[0; DATA_MOST + 1]), 5_000, 3);
        }
        if left == 0 {
            van.check_own(both, (25, 0));
        }
        let kind = if left == 0 { CLOSING } else { open_kind(random) };
        van.add(both, kind, &data);
    }
    if entries > 0 {
        van.check_own(both, (0, entries as u64));
        add_under(both, &van.key, (CLOSING, b""), 38, 23);
    }
}

/// Each bit of a closed log turned, or one in so many.
fn every_bit(both: &mut dyn BothSealed, lengths: &[usize], step: usize, random: &mut Random) {
    let van = Van::closed(lengths, random);
    let log = van.log();
    van.check(both, &log, (0, lengths.len() as u64));
    for bit in (0..8 * log.len()).step_by(step) {
        van.check(both, &bit_turned(&log, bit), (24, van.entry_at(bit / 8)));
    }
}

/// Each byte of a closed log changed, or one in so many: one bit of it, and any number of them.
/// Heads and the ends of seals are left out by no step.
fn every_byte(both: &mut dyn BothSealed, lengths: &[usize], step: usize, random: &mut Random) {
    let van = Van::closed(lengths, random);
    let log = van.log();
    let mut places: Vec<usize> = (0..log.len()).step_by(step).collect();
    let mut begin = 0;
    for entry in &van.entries {
        let end = begin + entry.len();
        places.extend((begin..begin + 6).chain([end - 33, end - 32, end - 1]));
        begin = end;
    }
    for at in places {
        for bits in [1 << random.below(8), random.between(1, 255) as u8] {
            let mut changed = log.clone();
            changed[at] ^= bits;
            van.check(both, &changed, (24, van.entry_at(at)));
        }
    }
}

/// Each byte of type and length with every other value, or one in so many.
fn every_value_of_a_head(both: &mut dyn BothSealed, step: usize, random: &mut Random) {
    let van = Van::closed(&SMALL, random);
    let log = van.log();
    let begins = [0, van.entries[0].len(), van.entries[0].len() + van.entries[1].len()];
    for (entry, begin) in begins.into_iter().enumerate() {
        for at in begin..begin + 6 {
            for bits in (1..=255).step_by(step) {
                let mut changed = log.clone();
                changed[at] ^= bits;
                van.check(both, &changed, (24, entry as u64));
            }
        }
    }
}

/// A closed log cut to every length, and an open one: a cut inside an entry leaves that one short,
/// and a cut between two leaves a log that is not closed.
fn every_cut(both: &mut dyn BothSealed, lengths: &[usize], random: &mut Random) {
    for van in [Van::closed(lengths, random), Van::open(&lengths[..2], random)] {
        let log = van.log();
        let mut ends = vec![0];
        van.entries.iter().for_each(|entry| ends.push(ends[ends.len() - 1] + entry.len()));
        for length in 0..log.len() {
            let told = if ends.contains(&length) { (25, 0) } else { (24, van.entry_at(length)) };
            van.check(both, &log[..length], told);
        }
    }
}

/// Entries dropped, repeated at every place, and swapped.
fn rearranged(both: &mut dyn BothSealed, lengths: &[usize], random: &mut Random) {
    let van = Van::closed(lengths, random);
    let (all, count) = (&van.entries, van.entries.len());
    for at in 0..count {
        let mut fewer = all.clone();
        fewer.remove(at);
        let told = if at == count - 1 { (25, 0) } else { (24, at as u64) };
        van.check(both, &fewer.concat(), told);
        for place in 0..=count {
            let mut more = all.clone();
            more.insert(place, all[at].clone());
            let bad = if place == at { at + 1 } else { place };
            van.check(both, &more.concat(), (24, bad as u64));
        }
        for other in at + 1..count {
            let mut swapped = all.clone();
            swapped.swap(at, other);
            van.check(both, &swapped.concat(), (24, at as u64));
        }
    }
}

/// Whatever stands behind the closing entry is the first bad one: stray bytes, another log, and
/// entries sealed as if the van had gone on, under any of its keys or under zeros.
fn after_the_close(both: &mut dyn BothSealed, random: &mut Random) {
    for lengths in [&[3][..], &SMALL, &MIDDLING] {
        let van = Van::closed(lengths, random);
        let before = van.entries.len();
        let keys = (0..=before).map(|at| nth_key(&van.first_key, at)).chain([CLOSED_KEY]);
        let mut tails: Vec<Vec<u8>> = (1..=44).map(|length| random.bytes(length)).collect();
        tails.extend((1..=44).map(|length| vec![0; length]));
        tails.extend([van.log(), vec![0xFF; 5_000], Van::closed(&SMALL, random).log()]);
        for key in keys {
            for kind in [2, CLOSING] {
                let mut other = Van { key, entries: Vec::new(), ..van.clone() };
                other.write(kind, b"after the close");
                tails.push(other.log());
                other.write(CLOSING, b"");
                tails.push(other.log());
            }
        }
        for tail in tails {
            van.check(both, &[van.log(), tail].concat(), (24, before as u64));
        }
    }
}

/// A(j) of a first key.
fn nth_key(first_key: &Digest, j: usize) -> Digest {
    (0..j).fold(*first_key, |key, _| next_key::<Sha256>(&key))
}

/// Entries that are sealed as they should be but of which some are too long, whole and cut: first,
/// in the middle and last.
fn length_fields(both: &mut dyn BothSealed, random: &mut Random) {
    for length in [DATA_MOST - 1, DATA_MOST, DATA_MOST + 1, 0x1FFF, 0x8000, 65_535] {
        for place in [0, 1, 2] {
            let mut van = Van::begin(some_digest(random));
            for at in 0..3 {
                let length = if at == place { length } else { 4 };
                let kind = if at == 2 { CLOSING } else { 7 };
                van.write(kind, &random.bytes(length));
            }
            let told = if length > DATA_MOST { (24, place as u64) } else { (0, 3) };
            van.check_own(both, told);
            let log = van.log();
            let begin = (BESIDE_DATA + 4) * place;
            for bytes in [5, 6, 7, 38, length + 5, length + 6, length + 37] {
                van.check(both, &log[..begin + bytes], (24, place as u64));
            }
        }
    }
}

/// A van whose key or chain is not the right one from some entry on, by one bit or because it is an
/// older one. It does not notice; the office does, at that entry.
fn wrong_states(both: &mut dyn BothSealed, most: usize, random: &mut Random) {
    for before in 0..=most {
        for wrong in 0..4 {
            let mut van = Van::open(&LONGER[..before], random);
            let older = van.clone();
            if wrong > 1 {
                van.add(both, 2, b"older");
            }
            match wrong {
                0 => van.key[random.place(32)] ^= 1 << random.below(8),
                1 => van.chain[random.place(32)] ^= 1 << random.below(8),
                2 => van.key = older.key,
                _ => van.chain = older.chain,
            }
            let bad = van.entries.len() as u64;
            van.check_own(both, (25, 0));
            van.add(both, 3, b"wrong");
            van.check_own(both, (24, bad));
            van.add(both, CLOSING, b"");
            van.check_own(both, (24, bad));
        }
    }
}

/// First keys with a bit turned, and one of zeros, under which a van can add nothing but which the
/// office takes like any other. An empty log is not closed, by whatever key.
fn first_keys(both: &mut dyn BothSealed, step: usize, random: &mut Random) {
    let van = Van::closed(&SMALL, random);
    for bit in (0..256).step_by(step).chain([255]) {
        let turned = bit_turned(&van.first_key, bit);
        let other = Van { first_key: turned.try_into().expect("32 bytes"), ..van.clone() };
        other.check_own(both, (24, 0));
        other.check(both, &[], (25, 0));
    }
    for lengths in [&[0][..], &SMALL, &MIDDLING] {
        let mut van = Van::begin(CLOSED_KEY);
        van.check_own(both, (25, 0));
        lengths.iter().for_each(|&length| van.write(3, &random.bytes(length)));
        van.check_own(both, (25, 0));
        van.write(CLOSING, b"of zeros");
        let count = van.entries.len() as u64;
        van.check_own(both, (0, count));
        Van { first_key: some_digest(random), ..van }.check_own(both, (24, 0));
    }
}

/// Several damages at once, of which the first decides; and damage to a log that is not closed.
fn several_damages(both: &mut dyn BothSealed, times: usize, random: &mut Random) {
    let closed = [&SMALL[..], &MIDDLING].map(|lengths| Van::closed(lengths, random));
    let open = Van::open(&MIDDLING, random);
    for _ in 0..times {
        let van = [&closed[0], &closed[1], &open][random.place(3)];
        let mut log = van.log();
        let mut first = log.len();
        for _ in 0..random.between(1, 3) {
            let at = random.place(log.len());
            // a place that is damaged twice may come out as it was
            if at != first {
                log[at] ^= 1 << random.below(8);
                first = first.min(at);
            }
        }
        if random.once_in(2) {
            // the cut leaves the first damage
            log.truncate(first + 1 + random.place(log.len() - first));
        }
        van.check(both, &log, (24, van.entry_at(first)));
    }
}

/// A log of more bytes than two can count, and damage to its last entry.
fn long_log(both: &mut dyn BothSealed, entries: usize, random: &mut Random) {
    let van = Van::closed(&vec![300; entries], random);
    let log = van.log();
    van.check(both, &log, (0, entries as u64));
    let last = entries as u64 - 1;
    van.check(both, &bit_turned(&log, 8 * log.len() - 1), (24, last));
    van.check(both, &log[..log.len() - 1], (24, last));
    van.check(both, &log[..log.len() - 338], (25, 0));
    van.check(both, &[&log[..], &log[..338]].concat(), (24, last + 1));
}

/// "HMAC is run against RFC 4231."
fn rfc_4231(both: &mut dyn BothSealed) {
    for (key, data, value) in RFC_4231 {
        let (number, mac) = both.mac(key, data);
        let hex: String = mac.iter().map(|byte| format!("{:02x}", byte)).collect();
        assert!(number == 0 && hex.starts_with(value), "the RFC's value {}", value);
        both.count_told();
    }
}

/// Keys and messages of every length that could matter to HMAC.
fn macs(both: &mut dyn BothSealed, scale: Scale, random: &mut Random) {
    let edges = [0, 1, 20, 31, 32, 33, 55, 56, 63, 64, 65, 66, 119, 120, 127, 128, 129, 130];
    let bytes = random.bytes(131_073);
    for length in (0..=130).step_by(scale.pick(1, 13)) {
        for edge in edges {
            hmac_of(both, &bytes[..length], &bytes[200..200 + edge]);
            hmac_of(both, &bytes[..edge], &bytes[200..200 + length]);
        }
    }
    for key in [64, 65] {
        for bit in (0..8 * key).step_by(scale.pick(1, 60)) {
            hmac_of(both, &bit_turned(&bytes[..key], bit), b"message");
        }
    }
    long_keys(both, &bytes);
    limits_of_hmac(both, scale, &bytes);
    for _ in 0..scale.pick(1_000, 20) {
        let (key, message) = (random.below(300), random.below(600));
        hmac_of(both, &random.bytes(key as usize), &random.bytes(message as usize));
    }
}

/// HMAC of lengths within the limits.
fn hmac_of(both: &mut dyn BothSealed, key: &[u8], message: &[u8]) {
    assert_eq!(both.mac(key, message).0, 0);
    both.count_told();
}

/// A key of over 64 bytes is as good as its hash, and none that is shorter.
fn long_keys(both: &mut dyn BothSealed, bytes: &[u8]) {
    for length in [0, 1, 32, 63, 64, 65, 66, 100, 128, 129, 4_096] {
        let key = &bytes[..length];
        let hashed = both.mac(&Sha256::of(key), b"message");
        assert_eq!(both.mac(key, b"message") == hashed, length > 64);
        both.count_told();
    }
}

/// The longest keys and messages, and those that are too long: these leave the lent value.
fn limits_of_hmac(both: &mut dyn BothSealed, scale: Scale, bytes: &[u8]) {
    assert_eq!((KEY_MOST, MESSAGE_MOST), (65_536, 65_472));
    let keys = [32, 65_536, 65_537, 0, 64, 65, 65_535, 131_073];
    let messages = [0, 65_472, 65_473, 65_471, 65_536, 131_072];
    for &key in &keys[..scale.pick(keys.len(), 3)] {
        for &message in &messages[..scale.pick(messages.len(), 3)] {
            let (number, value) = both.mac(&bytes[..key], &bytes[..message]);
            let too_long = key > KEY_MOST || message > MESSAGE_MOST;
            assert_eq!(number, if too_long { 3 } else { 0 });
            assert!(!too_long || value == [BEFORE; 32], "the lent value as it was");
            both.count_told();
        }
    }
}

/// Vans for any call: new ones, open ones and closed ones.
pub fn vans(random: &mut Random) -> Vec<Van> {
    let mut vans = vec![Van::begin(some_digest(random)), Van::begin(CLOSED_KEY)];
    for lengths in [&[0][..], &[40], &SMALL, &MIDDLING, &[DATA_MOST, 9]] {
        vans.push(Van::open(lengths, random));
        vans.push(Van::closed(lengths, random));
        vans.push(Van::closed(lengths, random));
    }
    vans
}

/// One call of the group: HMAC, an entry for one of the vans, or a check of its log, whole or
/// damaged.
pub fn any_call(both: &mut dyn BothSealed, vans: &[Van], random: &mut Random) {
    let van = &vans[random.place(vans.len())];
    match random.below(8) {
        0 => {
            let [key, message] = [(); 2].map(|_| random.of_any_size(400) as usize - 1);
            let key = if random.once_in(2) { 63 + key % 3 } else { key };
            both.mac(&random.bytes(key), &random.bytes(message));
        }
        1 | 2 => any_add(both, van, random),
        _ => {
            let key = if random.once_in(16) { some_digest(random) } else { van.first_key };
            both.seal_check(&key, &some_log(van, random));
        }
    }
}

/// Adds an entry for a van: of any type and length, with its own key or another, in any room.
fn any_add(both: &mut dyn BothSealed, van: &Van, random: &mut Random) {
    let length = match random.below(20) {
        0 => random.between(DATA_MOST as u64 - 2, DATA_MOST as u64 + 2),
        1 => random.of_any_size(70_000),
        _ => random.below(150),
    };
    let data = random.bytes(length as usize);
    let need = data.len() + BESIDE_DATA;
    let key_length = [0, 31, 32, 33, 64][random.place(5)];
    let mut key = match random.below(8) {
        0 => random.bytes(key_length),
        1 => vec![0; key_length],
        2 | 3 => random.bytes(32),
        _ => van.key.to_vec(),
    };
    let mut chain = if random.once_in(4) { some_digest(random) } else { van.chain };
    let kind = if random.once_in(3) { CLOSING } else { open_kind(random) };
    let room = if random.once_in(5) { random.place(need) } else { need + random.place(40) };
    both.seal_add(&mut key, &mut chain, kind, &data, room);
}

/// A van's log: as it is, or with entries in another order, one more or one less, or spoiled.
fn some_log(van: &Van, random: &mut Random) -> Vec<u8> {
    let mut entries = van.entries.clone();
    if !entries.is_empty() && random.once_in(3) {
        let (at, other) = (random.place(entries.len()), random.place(entries.len()));
        match random.below(4) {
            0 => entries.swap(at, other),
            1 => drop(entries.remove(at)),
            2 => entries.insert(at, van.entries[other].clone()),
            _ => entries.push(van.entries[other].clone()),
        }
    }
    let log = entries.concat();
    if random.once_in(2) {
        return spoiled(&log, random);
    }
    log
}
