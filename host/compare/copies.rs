//! The group `copies`: two stores that should agree.
//!
//! What must be said of two stores is told beforehand, from how they were made: how many elements each
//! has, in which of its bytes it was changed, whether it was damaged and which log's it is. Every two
//! are compared in both orders: then the shorter one is the other, and all else is the same.

use std::cmp::Ordering;

use lotlog::Answer;
use second::copies::ELEMENT;
use second::hash::Sha256;
use second::message::entry_digest;
use second::store::{header, place, store_of, CLOSED, HEADER, OPEN, RECORD, STATE};

use crate::both::BothCopies;
use crate::damage::spoiled;
use crate::logs::{entry, first_records, sound, LOG, OLD_LIMIT};
use crate::random::Random;
use crate::Scale;

const SEED: u64 = 9;

/// The elements of the longest store of which each start is compared with each other.
const MOST: u64 = 40;

/// Log numbers that a reader of fewer bytes, or from the other end, could take for one another.
const LOGS: [u64; 12] = [
    LOG,
    LOG.swap_bytes(),
    0,
    1,
    1 << 8,
    1 << 31,
    1 << 32,
    (1 << 32) + 1,
    1 << 56,
    1 << 63,
    u32::MAX as u64,
    u64::MAX,
];

pub const EQUAL: Answer = done([0, 0, 0]);
pub const FIRST_SHORTER: Answer = done([1, 0, 0]);
pub const SECOND_SHORTER: Answer = done([2, 0, 0]);
pub const DAMAGED: Answer = Answer { number: 1, beside: [0; 3] };
pub const OTHER_LOG: Answer = Answer { number: 26, beside: [0; 3] };

const fn done(beside: [u64; 3]) -> Answer {
    Answer { number: 0, beside }
}

/// A byte of an element: the element's number, from 1, and the byte within its 64, from 0.
type Spot = (u64, usize);

pub fn run(both: &mut dyn BothCopies, scale: Scale) {
    let mut random = Random::new(SEED);
    let store = sound(MOST, 0);
    lengths(both, &store, scale.pick(1, 6), &mut random);
    other_entries(both, &store, scale.pick(1, 7), &mut random);
    for elements in [1, 2, 3, 9] {
        every_byte(both, first_records(&store, elements), scale.pick(1, 11), &mut random);
    }
    every_byte(both, &store, scale.pick(1, 97), &mut random);
    every_bit(both, first_records(&store, 3), scale.pick(1, 29), &mut random);
    every_value(both, first_records(&store, 5), scale.pick(1, 37), &mut random);
    two_changes_in_one(both, first_records(&store, 4), scale.pick(1, 31), &mut random);
    two_changes(both, &store, scale.pick(2_000, 60), &mut random);
    for elements in [0, 1, 2, 7, 8, MOST] {
        what_does_not_count(both, first_records(&store, elements), &mut random);
    }
    the_next_record(both, &store, scale.pick(1, 13), &mut random);
    one_memory(both, &store, scale.pick(1, 9), &mut random);
    for (elements, room) in [(0, 0), (0, 2), (1, 0), (2, 2), (8, 3)] {
        damaged_stores(both, &store, elements, room, scale.pick(1, 5), &mut random);
    }
    other_states(both, &store, &mut random);
    log_numbers(both, &store, scale.pick(1, 7), &mut random);
    for elements in [300, 66_000, OLD_LIMIT + 3].into_iter().take(scale.pick(3, 2)) {
        many_elements(both, elements);
    }
    made_up(both, scale.pick(5_000, 100), &mut random);
    let stores = [0, 1, 5, MOST].map(|elements| first_records(&store, elements).to_vec());
    for _ in 0..scale.pick(6_000, 100) {
        any_call(both, &stores, &mut random);
    }
}

fn differ((element, byte): Spot) -> Answer {
    done([3, element, byte as u64])
}

/// What is to be said of stores of so many elements, of which those that both have are alike.
fn by_length(first: u64, second: u64) -> Answer {
    match first.cmp(&second) {
        Ordering::Less => FIRST_SHORTER,
        Ordering::Equal => EQUAL,
        Ordering::Greater => SECOND_SHORTER,
    }
}

/// The same if they are alike but for the bytes at these spots: the lowest element that both have
/// decides, and in it the lowest byte.
fn by_spots(first: u64, second: u64, spots: &[Spot]) -> Answer {
    let seen = |&&(element, _): &&Spot| element <= first.min(second);
    spots.iter().filter(seen).min().map_or(by_length(first, second), |spot| differ(*spot))
}

/// What is to be said of the two stores in the other order.
fn turned(told: Answer) -> Answer {
    match told {
        FIRST_SHORTER => SECOND_SHORTER,
        SECOND_SHORTER => FIRST_SHORTER,
        _ => told,
    }
}

/// Compares two stores in both orders, and holds the answers to what is told.
fn hold(both: &mut dyn BothCopies, first: &[u8], second: &[u8], told: Answer) {
    let answers = [both.compare(first, second), both.compare(second, first)];
    assert_eq!(answers, [told, turned(told)]);
    answers.iter().for_each(|_| both.count_told());
}

/// The elements of a store that is full.
fn elements_of(store: &[u8]) -> u64 {
    ((store.len() - HEADER) / RECORD) as u64
}

/// A full store with so many open records behind it, which hold anything, and bytes past these.
fn with_room(store: &[u8], records: usize, past: usize, random: &mut Random) -> Vec<u8> {
    let mut longer = store.to_vec();
    for _ in 0..records {
        longer.extend(random.bytes(ELEMENT));
        longer.push(OPEN);
    }
    longer.extend(random.bytes(past));
    longer
}

/// The first elements of a store, with any room behind them.
fn start_of(store: &[u8], elements: u64, random: &mut Random) -> Vec<u8> {
    let (records, past) = (random.place(4), random.place(RECORD));
    with_room(first_records(store, elements), records, past, random)
}

/// The store with bits of a byte turned.
fn changed(store: &[u8], (element, byte): Spot, bits: u8) -> Vec<u8> {
    let mut other = store.to_vec();
    other[place(element) + byte] ^= bits;
    other
}

/// The store with the state byte of an element's record set.
fn with_state(store: &[u8], element: u64, state: u8) -> Vec<u8> {
    let mut other = store.to_vec();
    other[place(element) + STATE] = state;
    other
}

/// The store as another log's.
fn of_log(store: &[u8], log: u64) -> Vec<u8> {
    let mut other = store.to_vec();
    other[..HEADER].copy_from_slice(&header(log));
    other
}

/// Bits to turn in a byte.
fn some_bits(random: &mut Random) -> u8 {
    match random.below(3) {
        0 => 1 << random.below(8),
        1 => 0xFF,
        _ => random.between(1, 255) as u8,
    }
}

/// Every length with every other, full and with room.
fn lengths(both: &mut dyn BothCopies, store: &[u8], step: usize, random: &mut Random) {
    for first in (0..=MOST).step_by(step) {
        for second in (first..=MOST).step_by(step) {
            let told = by_length(first, second);
            hold(both, first_records(store, first), first_records(store, second), told);
            hold(both, &start_of(store, first, random), &start_of(store, second, random), told);
        }
    }
}

/// A log that has other entries from some element on. There d differs, and so T does in all that
/// follow.
fn other_entries(both: &mut dyn BothCopies, store: &[u8], step: usize, random: &mut Random) {
    for from in (1..=MOST).step_by(step) {
        let other_entry = random.bytes(12);
        let entries = (1..=MOST).map(|j| if j < from { entry(j) } else { other_entry.clone() });
        let other = store_of::<Sha256>(LOG, MOST, entries);
        let [d, other_d] = [entry(from), other_entry.clone()].map(|e| entry_digest::<Sha256>(&e));
        let byte = (0..32).find(|&at| d[at] != other_d[at]).expect("two digests");
        for lengths in [from, MOST, random.between(from, MOST), from - 1, random.between(0, MOST)] {
            for length in [from, MOST, from - 1, random.between(0, MOST)] {
                let first = start_of(store, lengths, random);
                let second = start_of(&other, length, random);
                hold(both, &first, &second, by_spots(lengths, length, &[(from, byte)]));
            }
        }
    }
}

/// Each byte of each element changed, or one in so many; beside a store of the same length, a longer
/// one and shorter ones, one of which ends just before the element and one with it.
fn every_byte(both: &mut dyn BothCopies, store: &[u8], step: usize, random: &mut Random) {
    let count = elements_of(store);
    let spots = (1..=count).flat_map(|element| (0..ELEMENT).map(move |byte| (element, byte)));
    for spot in spots.step_by(step) {
        let other = changed(store, spot, some_bits(random));
        hold(both, store, &other, differ(spot));
        for length in [spot.0 - 1, spot.0, random.between(0, count)] {
            let (shorter, roomy) = (start_of(store, length, random), random.once_in(2));
            let other = if roomy { start_of(&other, count, random) } else { other.clone() };
            hold(both, &shorter, &other, by_spots(length, count, &[spot]));
        }
        let longer = [store, &first_records(store, 1)[HEADER..]].concat();
        hold(both, &longer, &other, differ(spot));
    }
}

/// Each bit of each element turned, or one in so many.
fn every_bit(both: &mut dyn BothCopies, store: &[u8], step: usize, random: &mut Random) {
    let bits_of_all = 8 * ELEMENT * elements_of(store) as usize;
    for bit in (0..bits_of_all).step_by(step) {
        let spot = ((bit / 8 / ELEMENT) as u64 + 1, bit / 8 % ELEMENT);
        let other = changed(store, spot, 1 << (bit % 8));
        hold(both, &start_of(store, elements_of(store), random), &other, differ(spot));
    }
}

/// Every value of a byte beside every other value, or one in so many, at the ends of d and T.
fn every_value(both: &mut dyn BothCopies, store: &[u8], step: usize, random: &mut Random) {
    for byte in [0, 31, 32, 63] {
        for bits in (1..=255).step_by(step) {
            let spot = (random.between(1, elements_of(store)), byte);
            hold(both, store, &changed(store, spot, bits), differ(spot));
        }
    }
}

/// Each two bytes of one element changed, or one pair in so many: on one side and on both.
fn two_changes_in_one(both: &mut dyn BothCopies, store: &[u8], step: usize, random: &mut Random) {
    let pairs = (0..ELEMENT).flat_map(|low| (low + 1..ELEMENT).map(move |high| (low, high)));
    for (low, high) in pairs.step_by(step) {
        let element = random.between(1, elements_of(store));
        let [one, other] =
            [low, high].map(|byte| changed(store, (element, byte), some_bits(random)));
        hold(both, &one, &other, differ((element, low)));
        let both_changed = changed(&one, (element, high), some_bits(random));
        hold(both, store, &both_changed, differ((element, low)));
    }
}

/// Two elements changed, the lower one in a byte that may stand behind that of the higher.
fn two_changes(both: &mut dyn BothCopies, store: &[u8], times: usize, random: &mut Random) {
    for _ in 0..times {
        let low = random.between(1, MOST - 1);
        let high = random.between(low + 1, MOST);
        let [behind, before] = [(); 2].map(|_| random.place(ELEMENT));
        let one = changed(store, (low, behind), some_bits(random));
        let two = changed(&one, (high, before), some_bits(random));
        hold(both, store, &two, differ((low, behind)));
        // of what the shorter has not, nothing is seen
        let length = random.between(low, MOST);
        hold(both, &start_of(store, length, random), &two, differ((low, behind)));
        let shorter = start_of(store, low - 1, random);
        hold(both, &shorter, &two, FIRST_SHORTER);
    }
}

/// Open records of any number and with any bytes, and bytes past the capacity, up to a whole record but
/// one byte: none of these is a difference.
fn what_does_not_count(both: &mut dyn BothCopies, store: &[u8], random: &mut Random) {
    for records in 0..4 {
        for other_records in 0..4 {
            for past in [0, 1, 16, 63, 64] {
                let one = with_room(store, records, past, random);
                let other = with_room(store, other_records, random.place(RECORD), random);
                hold(both, &one, &other, EQUAL);
            }
        }
    }
    // the same room, with one byte changed
    let one = with_room(store, 2, 30, random);
    for at in store.len()..one.len() {
        // a state byte is no byte of an element
        if at < store.len() + 2 * RECORD && (at - HEADER) % RECORD == STATE {
            continue;
        }
        let mut other = one.clone();
        other[at] ^= some_bits(random);
        hold(both, &one, &other, EQUAL);
    }
    // past the capacity, what looks like a closed record but for its last byte, or has such a byte
    for past in 1..RECORD {
        let tail = vec![CLOSED; past];
        hold(both, store, &[store, &tail].concat(), EQUAL);
    }
}

/// A store beside one that goes on: its open room holds the very bytes of the other's next elements, or
/// those with a byte changed, or is too short for them.
fn the_next_record(both: &mut dyn BothCopies, store: &[u8], step: usize, random: &mut Random) {
    for count in (0..MOST).step_by(step) {
        for more in [1, 2, MOST - count] {
            let longer = first_records(store, MOST.min(count + more));
            let total = elements_of(longer);
            let opened = |store: &[u8]| {
                (count + 1..=total).fold(store.to_vec(), |opened, j| with_state(&opened, j, OPEN))
            };
            let same = opened(longer);
            hold(both, &same, longer, FIRST_SHORTER);
            hold(both, &start_of(&same, total, random), longer, FIRST_SHORTER);
            let spot = (random.between(count + 1, total), random.place(ELEMENT));
            let next = (count + 1, random.place(ELEMENT));
            for spot in [spot, next] {
                let other = opened(&changed(longer, spot, some_bits(random)));
                hold(both, &other, longer, FIRST_SHORTER);
                hold(both, &other, &same, EQUAL);
            }
            let cut = random.between(1, RECORD as u64) as usize;
            hold(both, &same[..same.len() - cut], longer, FIRST_SHORTER);
        }
    }
}

/// A store beside itself and beside its own starts, in one memory that is lent twice.
fn one_memory(both: &mut dyn BothCopies, store: &[u8], step: usize, random: &mut Random) {
    for count in (0..=MOST).step_by(step) {
        let memory = start_of(store, count, random);
        let all = memory.len();
        let mut parts = |parts, told| {
            assert_eq!(both.compare_parts(&memory, parts), told);
            both.count_told();
        };
        parts([0..all, 0..all], EQUAL);
        parts([0..all, 0..15], DAMAGED);
        parts([0..0, 0..all], DAMAGED);
        for length in [0, count / 2, count] {
            let end = HEADER + RECORD * length as usize;
            parts([0..end, 0..all], by_length(length, count));
            parts([0..all, 0..end], by_length(count, length));
        }
    }
}

/// The damaged forms of a store of so many closed and open records: too short, each bit of what must
/// stand in the header, each state byte, or one in so many, and closed records behind an open one.
fn damaged_forms(store: &[u8], elements: u64, room: u64, step: usize) -> Vec<Vec<u8>> {
    let mut forms: Vec<Vec<u8>> = (0..HEADER).map(|length| store[..length].to_vec()).collect();
    for bit in (0..64).step_by(step) {
        let mut other = store.to_vec();
        other[bit / 8] ^= 1 << (bit % 8);
        forms.push(other);
    }
    for j in (1..=elements + room).step_by(step.min(2)) {
        for state in [0, 2, 3, 127, 128, 254] {
            forms.push(with_state(store, j, state));
        }
    }
    forms.extend((1..elements).map(|j| with_state(store, j, OPEN)));
    forms.extend((elements + 2..=elements + room).map(|j| with_state(store, j, CLOSED)));
    forms
}

/// Damage on one side and on both, beside stores that are equal, longer, shorter, different or another
/// log's: damage decides before all of these.
fn damaged_stores(
    both: &mut dyn BothCopies,
    store: &[u8],
    elements: u64,
    room: u64,
    step: usize,
    random: &mut Random,
) {
    let whole = with_room(first_records(store, elements), room as usize, 9, random);
    let forms = damaged_forms(&whole, elements, room, step);
    let other_log = of_log(&whole, LOG ^ (1 << random.below(64)));
    let longer = start_of(store, elements + 1, random);
    let different = changed(&longer, (1, random.place(ELEMENT)), some_bits(random));
    for form in &forms {
        let another = &forms[random.place(forms.len())];
        for other in [&whole, &other_log, &longer, &different, another, form] {
            hold(both, form, other, DAMAGED);
        }
        hold(both, form, first_records(store, elements / 2), DAMAGED);
        if form.len() >= HEADER {
            let mut form = form.clone();
            form[8 + random.place(8)] ^= some_bits(random);
            hold(both, &form, &whole, DAMAGED);
        }
    }
}

/// State bytes that are changed and still in order: the last closed record opened, the first open one
/// closed. Then it is the number of elements that is another.
fn other_states(both: &mut dyn BothCopies, store: &[u8], random: &mut Random) {
    for count in 1..MOST {
        let one = with_room(first_records(store, count), 2, 5, random);
        let fewer = with_state(&one, count, OPEN);
        let more = with_state(&one, count + 1, CLOSED);
        hold(both, &fewer, &one, FIRST_SHORTER);
        hold(both, &one, &more, FIRST_SHORTER);
        hold(both, &fewer, &more, FIRST_SHORTER);
        let spot = (count, random.place(ELEMENT));
        let bits = some_bits(random);
        hold(both, &changed(&fewer, spot, bits), &one, FIRST_SHORTER);
        hold(both, &changed(&more, spot, bits), &one, differ(spot));
    }
}

/// Each bit of the log number turned, or one in so many, and numbers each with each: alone, with
/// differences, with other lengths, and with damage, which comes first.
fn log_numbers(both: &mut dyn BothCopies, store: &[u8], step: usize, random: &mut Random) {
    let one = start_of(store, 3, random);
    for bit in (0..64).step_by(step) {
        let other = of_log(&start_of(store, 3, random), LOG ^ (1 << bit));
        hold(both, &one, &other, OTHER_LOG);
        hold(both, &one, &other[..HEADER], OTHER_LOG);
        hold(both, first_records(store, 2), &other, OTHER_LOG);
        let spot = (random.between(1, 3), random.place(ELEMENT));
        let different = changed(&one, spot, some_bits(random));
        hold(both, &different, &other, OTHER_LOG);
        // both of that log
        let [one, different] = [&one, &different].map(|store| of_log(store, LOG ^ (1 << bit)));
        hold(both, &one, &other, EQUAL);
        hold(both, &different, &other, differ(spot));
        // damaged as well
        let state = [0, 2, OPEN][random.place(3)];
        hold(both, first_records(store, 5), &with_state(&other, 2, state), DAMAGED);
        hold(both, &with_state(first_records(store, 5), 2, state), &other, DAMAGED);
        let mut bent = other.clone();
        bent[random.place(8)] ^= some_bits(random);
        hold(both, first_records(store, 3), &bent, DAMAGED);
    }
    for log in LOGS {
        for other_log in LOGS {
            let [first, second] = [log, other_log].map(|log| of_log(&one, log));
            hold(both, &first, &second, if log == other_log { EQUAL } else { OTHER_LOG });
        }
    }
}

/// More elements than one byte, two bytes, or the old limit can count. Their bytes are made up, the same
/// in all: nothing but the audit would find that out.
fn many_elements(both: &mut dyn BothCopies, elements: u64) {
    let mut store = vec![CLOSED; HEADER + RECORD * elements as usize];
    store[..HEADER].copy_from_slice(&header(LOG));
    hold(both, &store, first_records(&store, elements - 1), SECOND_SHORTER);
    let mut other = store.clone();
    for spot in [(elements, 63), (elements, 0), (elements - 1, 40)] {
        other[place(spot.0) + spot.1] = 2;
        hold(both, &store, &other, differ(spot));
    }
    other[place(elements - 1) + STATE] = OPEN;
    hold(both, &store, &other, DAMAGED);
}

/// Stores whose elements are random bytes, or bytes of few values, alike but for up to four bytes on
/// either side.
fn made_up(both: &mut dyn BothCopies, times: usize, random: &mut Random) {
    for _ in 0..times {
        let most = random.of_any_size(60);
        let few = random.once_in(3);
        let mut store = header(random.next()).to_vec();
        for _ in 0..most {
            let bytes = random.bytes(ELEMENT);
            store.extend(bytes.into_iter().map(|byte| if few { byte % 2 } else { byte }));
            store.push(CLOSED);
        }
        let lengths =
            [(); 2].map(|_| if random.once_in(3) { most } else { random.between(0, most) });
        let mut sides = [store.clone(), store];
        let mut spots: Vec<Spot> = Vec::new();
        for _ in 0..random.below(5) {
            let spot = (random.between(1, most), random.place(ELEMENT));
            // a byte that is changed twice may come out as it was
            if !spots.contains(&spot) {
                let side = &mut sides[random.place(2)];
                *side = changed(side, spot, some_bits(random));
                spots.push(spot);
            }
        }
        let [first, second] = [0, 1].map(|side| start_of(&sides[side], lengths[side], random));
        hold(both, &first, &second, by_spots(lengths[0], lengths[1], &spots));
    }
}

/// One comparison of two of these stores, or of one with itself: as they are, with room, spoiled, or of
/// random bytes behind a header or without one.
pub fn any_call(both: &mut dyn BothCopies, stores: &[Vec<u8>], random: &mut Random) {
    let one = &stores[random.place(stores.len())];
    let other = &stores[random.place(stores.len())];
    let [first, second] = [one, if random.once_in(2) { one } else { other }].map(|store| {
        let roomy = with_room(store, random.place(3), random.place(RECORD), random);
        let length = random.place(300);
        match random.below(10) {
            0 | 1 => spoiled(store, random),
            2 | 3 => spoiled(&roomy, random),
            4 => [&header(LOG)[..], &random.bytes(length)].concat(),
            5 => random.bytes(length),
            6 | 7 => roomy,
            _ => store.clone(),
        }
    });
    both.compare(&first, &second);
}
