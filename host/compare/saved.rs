//! The group `saved`: held states written to files, and read from them.
//!
//! A state is written and read back, and a file that reads is written again each time.

use lotlog::{Answer, Digest, HELD_BYTES};
use second::hash::Sha256;
use second::held::{self, held_of, held_start, in_use, ROWS};
use second::saved::{file_length, file_of, FILE_LEAST, FILE_MOST};
use second::store::Log;
use second::LIMIT;

use crate::advance::Step;
use crate::both::{BothKept, BEFORE};
use crate::damage::{bit_turned, spoiled};
use crate::logs::{read, sound, LOG, OLD_LIMIT, REAL};
use crate::random::Random;
use crate::second_calls::held_bytes;
use crate::Scale;

const SEED: u64 = 7;

/// Where the parts of a file begin; the mark stands at 0 and the rows at 53.
const VERSION: usize = 3;
const LOG_NUMBER: usize = 5;
const COUNT: usize = 13;
const DIGEST: usize = 21;

/// Files that were written before A7, each as its log number, its count and its bytes in hexadecimal
/// digits. Those of the logs' number are states of the log of all comparisons, the others starts.
const FROM_BEFORE: &str = include_str!("../files/before-a7.txt");

/// The rows that a state had before A7.
const OLD_ROWS: usize = 20;

/// The counts of the files that are spoiled byte by byte and in their length.
const COUNTS: [u64; 9] = [0, 1, 5, 12, 300, OLD_LIMIT, OLD_LIMIT + 1, 1 << 31, LIMIT];

/// Lengths of files are tried up to this one, which is longer than any file.
const LONGEST: usize = FILE_MOST + 67;

pub fn run(both: &mut dyn BothKept, scale: Scale) {
    let mut random = Random::new(SEED);
    every_count(both, scale.pick(300, 20), &mut random);
    large_counts(both, scale.pick(500, 10), &mut random);
    rows_of_zeros(both, &mut random);
    over_the_limit(both, &mut random);
    free_rows(both, &mut random);
    wrong_starts(both, &mut random);
    for &count in scale.pick(&COUNTS[..], &[0, 5, LIMIT]) {
        every_length(both, count, &mut random);
        every_byte(both, count, &mut random);
        causes(both, count, &mut random);
    }
    lengths_of_any_head(both, &mut random);
    every_bit(both, 5, &mut random);
    every_value_of_the_head(both, scale.pick(&[0, 5][..], &[]), &mut random);
    let store = sound(scale.pick(3_000, 300), 0);
    go_on(both, &read(&store), scale, &mut random);
    for _ in 0..scale.pick(20, 2) {
        walk(both, &read(&store), &mut random);
    }
    for _ in 0..scale.pick(5_000, 300) {
        let count = some_count(&mut random);
        let state = made_up(count, &mut random);
        any_call(both, &state, &mut random);
    }
    drop(store);
    files_from_before(both, &sound(scale.pick(REAL, 300), 0));
}

fn some_digest(random: &mut Random) -> Digest {
    random.bytes(32).try_into().expect("32 bytes")
}

/// A count up to the limit, small ones as likely as large ones, and 0 now and then.
fn some_count(random: &mut Random) -> u64 {
    if random.once_in(10) {
        return 0;
    }
    random.of_any_size(LIMIT)
}

/// A state in order with made-up rows and, where the count is not 0, a made-up digest.
pub fn made_up(count: u64, random: &mut Random) -> held::Held {
    let mut state = held_start::<Sha256>(random.next());
    if count > 0 {
        state.count = count;
        state.digest = some_digest(random);
    }
    for row in (0..ROWS).filter(|&row| in_use(count, row)) {
        state.rows[row] = some_digest(random);
    }
    state
}

/// Reads a file. One that reads has the length of its count and gives itself back when written; one
/// that is refused leaves the lent state.
pub fn read_file<B: BothKept + ?Sized>(both: &mut B, file: &[u8]) -> u64 {
    let (number, held) = both.held_read(file);
    if number == 0 {
        let (answer, again) = both.held_write(&held, file.len());
        assert_eq!(answer, Answer { number: 0, beside: [file.len() as u64, 0, 0] });
        assert!(again == file, "the file itself");
    } else {
        assert!(held == [BEFORE; HELD_BYTES], "the lent state as it was");
    }
    number
}

/// Writes a state in order into outputs of many lengths and reads it back; gives its file.
pub fn save<B: BothKept + ?Sized>(both: &mut B, state: &held::Held) -> Vec<u8> {
    let held = held_bytes(state);
    let file = file_of(state);
    let need = file.len();
    assert_eq!(need, FILE_LEAST + 32 * state.count.count_ones() as usize);
    for room in [need, need + 1, need + 40, need - 1, 0] {
        let (answer, out) = both.held_write(&held, room);
        if room < need {
            assert_eq!(answer, Answer { number: 6, beside: [0; 3] });
            assert!(out == vec![BEFORE; room], "the output as it was");
        } else {
            assert_eq!(answer, Answer { number: 0, beside: [need as u64, 0, 0] });
            assert!(out[..need] == file && out[need..] == vec![BEFORE; room - need]);
        }
    }
    assert!(both.held_read(&file) == (0, held), "the state itself");
    assert_eq!(read_file(both, &file), 0);
    file
}

/// A state that is not in order has no file, whatever room there is for one.
pub fn refuse_state<B: BothKept + ?Sized>(both: &mut B, state: &held::Held) {
    for room in [FILE_MOST, FILE_MOST + 40, FILE_LEAST, FILE_LEAST - 1, 0] {
        let (answer, out) = both.held_write(&held_bytes(state), room);
        assert_eq!(answer, Answer { number: 2, beside: [0; 3] });
        assert!(out == vec![BEFORE; room], "the output as it was");
    }
}

/// States of every count up to a small one: made up, and a log's own.
fn every_count(both: &mut dyn BothKept, most: u64, random: &mut Random) {
    let store = sound(most, 0);
    let log = read(&store);
    for count in 0..=most {
        save(both, &made_up(count, random));
        let own = held_of::<Sha256>(&log, count);
        assert_eq!(both.held_at(&store, count), (0, held_bytes(&own)));
        save(both, &own);
    }
}

/// States up to the limit: powers of two and what lies beside them, and any others.
fn large_counts(both: &mut dyn BothKept, times: u64, random: &mut Random) {
    for level in 0..ROWS {
        let power = 1 << level;
        for count in [power, power - 1, power + 1, LIMIT - power, LIMIT >> level] {
            save(both, &made_up(count, random));
        }
    }
    for _ in 0..times {
        let counts = [random.of_any_size(LIMIT), random.between(0, LIMIT)];
        for count in counts {
            save(both, &made_up(count, random));
        }
    }
}

/// "Row l is in use exactly if bit l of n is 1": a row of zeros too. Nor is a digest judged at a
/// count that is not 0.
fn rows_of_zeros(both: &mut dyn BothKept, random: &mut Random) {
    for row in 0..ROWS {
        for count in [1 << row, LIMIT, random.between(0, LIMIT) | 1 << row] {
            let mut state = made_up(count, random);
            state.rows[row] = [0; 32];
            save(both, &state);
        }
    }
    for &count in &COUNTS[1..] {
        let state = held::Held { rows: [[0; 32]; ROWS], ..made_up(count, random) };
        save(both, &state);
        save(both, &held::Held { digest: [0; 32], ..state.clone() });
        save(both, &held::Held { log: 0, digest: [0; 32], ..state.clone() });
        save(both, &held::Held { digest: held_start::<Sha256>(state.log).digest, ..state });
    }
}

/// Counts over the limit, beside which all is in order.
fn over_the_limit(both: &mut dyn BothKept, random: &mut Random) {
    for count in [0, 5, LIMIT] {
        let state = made_up(count, random);
        for bit in 32..64 {
            refuse_state(both, &held::Held { count: count | 1 << bit, ..state.clone() });
        }
        refuse_state(both, &held::Held { count: count | !LIMIT, ..state.clone() });
        refuse_state(both, &held::Held { count: count | 0xFFFF << 32, ..state });
    }
    assert_eq!(LIMIT | !LIMIT, u64::MAX);
}

/// Each row in turn not zero where it is free: beside free ones, beside used ones, and among any.
fn free_rows(both: &mut dyn BothKept, random: &mut Random) {
    for row in 0..ROWS {
        for count in [0, LIMIT ^ (1 << row), random.between(0, LIMIT) & !(1 << row)] {
            let good = made_up(count, random);
            save(both, &good);
            for at in [0, 31, random.place(32)] {
                let mut state = good.clone();
                state.rows[row][at] = random.between(1, 255) as u8;
                refuse_state(both, &state);
            }
        }
    }
}

/// Count 0 with another digest, of another log too: as a state, and as a file, whose one cause of a
/// refusal it is.
fn wrong_starts(both: &mut dyn BothKept, random: &mut Random) {
    for log in [0, 1, 7, 1 << 63, u64::MAX, random.next()] {
        let start = held_start::<Sha256>(log);
        save(both, &start);
        let other = held_start::<Sha256>(log ^ 1).digest;
        let mut digests = vec![[0; 32], [0xFF; 32], other, some_digest(random)];
        for bit in [0, 255, random.place(256), random.place(256)] {
            let turned = bit_turned(&start.digest, bit);
            digests.push(turned.try_into().expect("32 bytes"));
        }
        let mut states: Vec<held::Held> =
            digests.iter().map(|&digest| held::Held { digest, ..start.clone() }).collect();
        states.extend((0..64).map(|bit| held::Held { log: log ^ (1 << bit), ..start.clone() }));
        for state in states {
            refuse_state(both, &state);
            assert_eq!(read_file(both, &file_of(&state)), 2);
        }
    }
}

/// A file cut and made longer, to every length up to more than the longest.
fn every_length(both: &mut dyn BothKept, count: u64, random: &mut Random) {
    let file = save(both, &made_up(count, random));
    for tail in [vec![0; LONGEST], random.bytes(LONGEST), file.repeat(22)] {
        let longest = [&file[..], &tail].concat();
        for length in 0..=LONGEST {
            let expected = match length {
                _ if length < FILE_LEAST => 18,
                _ if length == file.len() => 0,
                _ => 22,
            };
            assert_eq!(read_file(both, &longest[..length]), expected);
        }
    }
}

/// Writes a count into a file that has room for it.
pub fn set_count(file: &mut [u8], count: u64) {
    file[COUNT..DIGEST].copy_from_slice(&count.to_be_bytes());
}

/// A count with so many 1 bits.
fn count_of_rows(rows: u32, random: &mut Random) -> u64 {
    let mut count = 0u64;
    while count.count_ones() < rows {
        count |= 1 << random.place(ROWS);
    }
    count
}

/// Files of every length that are random bytes: all of them; behind a good mark and version; and
/// with a count that has any number of rows, or as many as fit.
fn lengths_of_any_head(both: &mut dyn BothKept, random: &mut Random) {
    for length in 0..=LONGEST {
        let short = length < FILE_LEAST;
        let bytes = random.bytes(length.max(FILE_LEAST));
        assert_eq!(read_file(both, &bytes[..length]), if short { 18 } else { 19 });
        let mut file = [b"HLD\x00\x01", &bytes[LOG_NUMBER..]].concat();
        assert_eq!(read_file(both, &file[..length]), if short { 18 } else { 21 });
        let rows = (length.saturating_sub(FILE_LEAST) / 32).min(ROWS) as u32;
        let counts = [random.of_any_size(LIMIT), count_of_rows(rows, random)];
        for count in counts.into_iter().filter(|&count| count > 0) {
            set_count(&mut file, count);
            let expected = match length {
                _ if short => 18,
                _ if length == file_length(count) => 0,
                _ => 22,
            };
            assert_eq!(read_file(both, &file[..length]), expected);
        }
    }
}

/// The number of a file of this count with one byte changed, where the byte's place decides it. In
/// the count it does not: a changed one may have as many rows.
fn number_at(at: usize, count: u64) -> Option<u64> {
    match at {
        0..=2 => Some(19),
        VERSION | 4 => Some(20),
        COUNT..=20 => None,
        LOG_NUMBER..=52 if count == 0 => Some(2),
        _ => Some(0),
    }
}

/// Changes one byte of a file by the bits given.
fn change_byte(both: &mut dyn BothKept, file: &[u8], at: usize, bits: u8, count: u64) {
    let mut changed = file.to_vec();
    changed[at] ^= bits;
    let number = read_file(both, &changed);
    assert_eq!(number, number_at(at, count).unwrap_or(number));
}

/// Each byte of a file changed to other values.
fn every_byte(both: &mut dyn BothKept, count: u64, random: &mut Random) {
    let file = save(both, &made_up(count, random));
    for at in 0..file.len() {
        for bits in [1, 0x80, 0xFF, random.between(2, 127) as u8] {
            change_byte(both, &file, at, bits, count);
        }
    }
}

/// Each bit of a file turned.
fn every_bit(both: &mut dyn BothKept, count: u64, random: &mut Random) {
    let file = save(both, &made_up(count, random));
    for bit in 0..8 * file.len() {
        change_byte(both, &file, bit / 8, 1 << (bit % 8), count);
    }
}

/// Each byte before the digest with every value.
fn every_value_of_the_head(both: &mut dyn BothKept, counts: &[u64], random: &mut Random) {
    for &count in counts {
        let file = save(both, &made_up(count, random));
        for at in 0..DIGEST {
            (1..=255).for_each(|bits| change_byte(both, &file, at, bits, count));
        }
    }
}

/// A change of a file, with the number of the refusal that it is a cause of.
type Damage = (u64, fn(&mut Vec<u8>));

/// "in this order": what stands first here decides.
const ORDER: [u64; 6] = [18, 19, 20, 21, 22, 2];

/// Damages of any file.
const DAMAGES: [Damage; 24] = [
    (18, |file| file.truncate(FILE_LEAST - 1)),
    (18, |file| file.truncate(DIGEST)),
    (18, |file| file.truncate(COUNT + 1)),
    (18, |file| file.truncate(VERSION)),
    (18, |file| file.clear()),
    (19, |file| file[0] = b'h'),
    (19, |file| file[1] = 0),
    (19, |file| file[2] = b'E'),
    (19, |file| file[..VERSION].copy_from_slice(b"LOT")),
    (20, |file| file[VERSION] = 1),
    (20, |file| file[VERSION + 1] = 0),
    (20, |file| file[VERSION + 1] = 2),
    (20, |file| file[VERSION..LOG_NUMBER].copy_from_slice(&[1, 0])),
    (20, |file| file[VERSION..LOG_NUMBER].fill(0xFF)),
    (21, |file| set_count(file, LIMIT + 1)),
    (21, |file| set_count(file, u64::MAX)),
    (21, |file| file[COUNT] = 0x80),
    (21, |file| file[COUNT + 2] = 1),
    (21, |file| file[COUNT + 3] = 1),
    (21, |file| file[COUNT + 3] |= 0x80),
    (22, |file| file.push(0)),
    (22, |file| file.extend([0; 31])),
    (22, |file| file.extend([0xFF; 32])),
    (22, |file| file.resize(FILE_MOST + 32, 0)),
];

/// Damages of a file with rows.
const DAMAGES_WITH_ROWS: [Damage; 4] = [
    (22, |file| file.truncate(file.len() - 1)),
    (22, |file| file.truncate(file.len() - 32)),
    (22, |file| file.truncate(FILE_LEAST)),
    (22, |file| set_count(file, 0)),
];

/// Damages of a file at count 0.
const DAMAGES_AT_0: [Damage; 5] = [
    (2, |file| file[DIGEST] ^= 1),
    (2, |file| file[FILE_LEAST - 1] ^= 0x80),
    (2, |file| file[DIGEST..FILE_LEAST].fill(0)),
    (2, |file| file[LOG_NUMBER] ^= 1),
    (2, |file| file[COUNT - 1] ^= 1),
];

/// Each damage of a file alone, and each two whose causes can stand together, of which the first in
/// the order decides.
///
/// 21 and 2 can't: 2 is for count 0, which is not over the limit. All others can. 18 and 21 have 22
/// beside them in any case, since no count has a file under 53 bytes, and one over the limit has
/// none of any length. At count 0, 18 has 2 too, since a digest that was cut is not T(0).
fn causes(both: &mut dyn BothKept, count: u64, random: &mut Random) {
    let file = save(both, &made_up(count, random));
    let more = if count == 0 { &DAMAGES_AT_0[..] } else { &DAMAGES_WITH_ROWS };
    let damages = [&DAMAGES, more].concat();
    let mut number_of = |made: &[Damage]| {
        let mut damaged = file.clone();
        made.iter().for_each(|(_, make)| make(&mut damaged));
        read_file(both, &damaged)
    };
    for (at, one) in damages.iter().enumerate() {
        assert_eq!(number_of(&[*one]), one.0);
        for other in damages[at + 1..].iter().filter(|other| can_stand_together(one.0, other.0)) {
            // the other comes first, since it may have no place left in a file that was cut
            let number = number_of(&[*other, *one]);
            assert_eq!(Some(&number), ORDER.iter().find(|cause| [one.0, other.0].contains(cause)));
        }
    }
}

fn can_stand_together(one: u64, other: u64) -> bool {
    one != other && [one, other] != [21, 2]
}

/// A state that was saved and read goes on as the state itself does: to the log's next state, or to
/// the same refusal.
fn go_on_from(both: &mut dyn BothKept, log: &Log, i: u64, n: u64, random: &mut Random) {
    let file = save(both, &held_of::<Sha256>(log, i));
    let (_, held) = both.held_read(&file);
    let own = Step::honest(log, i, n);
    let (answer, after) = own.check(both);
    assert_eq!(answer.number, 0);
    assert_eq!(Step { held, ..own.clone() }.check(both), (answer, after));
    let spoiled = Step { proof: spoiled(&own.proof, random), ..own };
    let refused = spoiled.check(both);
    assert_eq!(Step { held, ..spoiled }.check(both), refused);
}

/// Goes on between all lengths up to a small one, and between any.
fn go_on(both: &mut dyn BothKept, log: &Log, scale: Scale, random: &mut Random) {
    for n in 0..=scale.pick(24, 6) {
        (0..=n).for_each(|i| go_on_from(both, log, i, n, random));
    }
    for _ in 0..scale.pick(300, 5) {
        let n = random.between(0, log.count);
        let i = random.between(0, n);
        go_on_from(both, log, i, n, random);
    }
}

/// A walk from the start to the end of the log, with a new terminal after each step.
fn walk(both: &mut dyn BothKept, log: &Log, random: &mut Random) {
    let mut at = 0;
    let mut held = both.held_start(log.number);
    while at < log.count {
        let next = at + random.of_any_size(log.count - at);
        let (answer, after) = Step { held, ..Step::honest(log, at, next) }.check(both);
        assert_eq!(answer.number, 0);
        let (answer, out) = both.held_write(&after, FILE_MOST);
        held = both.held_read(&out[..answer.beside[0] as usize]).1;
        assert!(held == held_bytes(&held_of::<Sha256>(log, next)), "the store's own state");
        at = next;
    }
}

/// One call of the group on a state: it is written, changed now and then, or its file is read,
/// spoiled now and then.
pub fn any_call(both: &mut dyn BothKept, state: &held::Held, random: &mut Random) {
    if random.once_in(2) {
        let state = if random.once_in(3) { changed(state, random) } else { state.clone() };
        let need = file_length(state.count);
        let room = if random.once_in(4) { random.place(need + 1) } else { need + random.place(40) };
        both.held_write(&held_bytes(&state), room);
    } else {
        let mut file = file_of(state);
        if random.once_in(4) {
            set_count(&mut file, random.number_near(state.count));
        }
        if random.once_in(2) {
            file = spoiled(&file, random);
        }
        read_file(both, &file);
    }
}

/// A state with one of its parts changed.
fn changed(state: &held::Held, random: &mut Random) -> held::Held {
    let mut other = state.clone();
    let bits = random.between(1, 255) as u8;
    match random.below(4) {
        0 => other.log = random.number_near(state.log),
        1 => other.count = random.number_near(state.count),
        2 => other.digest[random.place(32)] ^= bits,
        _ => other.rows[random.place(ROWS)][random.place(32)] ^= bits,
    }
    other
}

/// A file from before A7.
struct Old {
    log: u64,
    count: u64,
    file: Vec<u8>,
}

fn old_file(line: &str) -> Old {
    let words: Vec<&str> = line.split_whitespace().collect();
    let number = |at: usize| words[at].parse().expect("a number");
    let digits = words[2].as_bytes().chunks(2).map(|two| std::str::from_utf8(two).expect("ASCII"));
    let file = digits.map(|two| u8::from_str_radix(two, 16).expect("two digits")).collect();
    Old { log: number(0), count: number(1), file }
}

/// "A file from A4 still reads, since it holds used rows only": to the state that the log has there,
/// whose new rows are zero, and which goes on. Files of counts that the store does not reach are left
/// out.
fn files_from_before(both: &mut dyn BothKept, store: &[u8]) {
    let log = read(store);
    let lines = FROM_BEFORE.lines().filter(|line| !line.is_empty() && !line.starts_with('#'));
    let old: Vec<Old> = lines.map(old_file).collect();
    assert!(old.iter().any(|old| old.count == 0) && old.iter().any(|old| old.count > 0));
    for old in old.into_iter().filter(|old| old.count <= log.count) {
        let state = match old.log {
            LOG => held_of::<Sha256>(&log, old.count),
            other => held_start::<Sha256>(other),
        };
        assert_eq!((state.count, state.log), (old.count, old.log));
        assert!(state.rows[OLD_ROWS..].iter().all(|row| *row == [0; 32]), "new rows are zero");
        let held = held_bytes(&state);
        assert!(both.held_read(&old.file) == (0, held), "the state itself");
        assert!(save(both, &state) == old.file, "the file itself");
        refuse_old(both, &old);
        if old.log == LOG && old.count < log.count {
            for n in [old.count + 1, log.count] {
                let (answer, after) = Step { held, ..Step::honest(&log, old.count, n) }.check(both);
                assert_eq!(answer.number, 0);
                assert!(after == held_bytes(&held_of::<Sha256>(&log, n)), "the log's own state");
            }
        }
    }
}

/// A file from before A7 that is cut, or has all rows, or a count over the limit.
fn refuse_old(both: &mut dyn BothKept, old: &Old) {
    let length = old.file.len();
    let shorter = &old.file[..length - 1];
    assert_eq!(read_file(both, shorter), if length == FILE_LEAST { 18 } else { 22 });
    for rows in [1, ROWS - OLD_ROWS] {
        assert_eq!(read_file(both, &[&old.file[..], &vec![0; 32 * rows]].concat()), 22);
    }
    let mut over = old.file.clone();
    set_count(&mut over, old.count | 1 << 32);
    assert_eq!(read_file(both, &over), 21);
}
