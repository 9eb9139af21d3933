//! The bytes of files spelled out, and the answers that document 02, A4, gives to each file and to
//! each state.

use crate::hash::{Hash, Sha256, Xor};
use crate::held::{held_at, held_start, Held, ROWS};
use crate::refusal::{Refusal, NOWHERE};
use crate::saved::{file_length, file_of, read, write, FILE_LEAST, FILE_MOST};
use crate::store::store_of;
use crate::{Digest, LIMIT};

fn refused<T>(number: u64) -> Result<T, Refusal> {
    Err(Refusal { number, beside: 0, place: NOWHERE })
}

/// A state of log 7 whose used rows and digest are made up.
fn made_up(count: u64) -> Held {
    let mut rows = [[0; 32]; ROWS];
    for (level, row) in (0..).zip(&mut rows) {
        if count / 2u64.pow(level) % 2 == 1 {
            *row = plain::digest(&[level as u8]);
        }
    }
    let digest = if count == 0 { start_of_log_7() } else { [0xD5; 32] };
    Held { log: 7, count, digest, rows }
}

/// T(0) of log 7: SHA-256 of 02, "LOT", version, log number.
fn start_of_log_7() -> Digest {
    plain::digest(b"\x02LOT\x00\x01\x00\x00\x00\x00\x00\x00\x00\x07")
}

/// The file of a state in order, by a room that is longer.
fn written<H: Hash>(held: &Held) -> Vec<u8> {
    let mut out = vec![0xEE; FILE_MOST + 9];
    let length = write::<H>(held, &mut out).expect("a state in order") as usize;
    assert!(out[length..].iter().all(|&byte| byte == 0xEE), "what lies behind stays");
    out.truncate(length);
    out
}

// ---- bytes

#[test]
fn the_bytes_of_a_state_at_5() {
    let mut held = Held { log: 0x0102, count: 5, digest: [0xD5; 32], rows: [[0; 32]; ROWS] };
    held.rows[0] = [0xA0; 32];
    held.rows[2] = [0xA2; 32];
    let mut file = Vec::new();
    file.extend([0x48, 0x4C, 0x44, 0x00, 0x01]);
    file.extend([0x00, 0x00, 0x00, 0x00, 0x00, 0x00, 0x01, 0x02]);
    file.extend([0x00, 0x00, 0x00, 0x00, 0x00, 0x00, 0x00, 0x05]);
    file.extend([0xD5; 32]);
    file.extend([0xA0; 32]);
    file.extend([0xA2; 32]);
    assert_eq!(file.len(), 117);
    assert_eq!(written::<Sha256>(&held), file);
    assert_eq!(read::<Sha256>(&file), Ok(held));
}

#[test]
fn the_bytes_of_the_start() {
    let head = b"HLD\x00\x01\x00\x00\x00\x00\x00\x00\x00\x07\x00\x00\x00\x00\x00\x00\x00\x00";
    let file = [&head[..], &start_of_log_7()].concat();
    assert_eq!(file.len(), 53);
    assert_eq!(written::<Sha256>(&held_start::<Sha256>(7)), file);
    assert_eq!(read::<Sha256>(&file), Ok(held_start::<Sha256>(7)));
}

#[test]
fn lengths() {
    let figures = [(0, 53), (1, 85), (2, 85), (3, 117), (12, 117), (300, 181), (1 << 19, 85)];
    let at_the_old_limit = [(1_048_574, 661), (1_048_575, 693), (1_048_576, 85)];
    let at_the_limit = [(1 << 31, 85), (LIMIT - 1, 1_045), (LIMIT, 1_077)];
    for (count, length) in figures.into_iter().chain(at_the_old_limit).chain(at_the_limit) {
        assert_eq!(file_length(count), length);
        assert_eq!(written::<Sha256>(&made_up(count)).len(), length);
    }
    assert_eq!((FILE_LEAST, FILE_MOST), (53, 1_077));
}

// ---- both ways

fn goes_both_ways<H: Hash>(held: &Held) {
    let file = written::<H>(held);
    assert_eq!(file, file_of(held));
    assert_eq!(read::<H>(&file), Ok(held.clone()));
}

#[test]
fn a_state_is_read_as_it_was_written() {
    let entries = || (1..=40).map(|j| vec![j; j as usize]);
    let (store, other) = (store_of::<Sha256>(7, 40, entries()), store_of::<Xor>(7, 40, entries()));
    for at in 0..=40 {
        goes_both_ways::<Sha256>(&held_at::<Sha256>(&store, at).unwrap());
        goes_both_ways::<Xor>(&held_at::<Xor>(&other, at).unwrap());
    }
    for count in (0..ROWS).map(|level| 1 << level).chain([0xAAAA_AAAA, 0x5555_5555, LIMIT]) {
        goes_both_ways::<Sha256>(&made_up(count));
    }
}

#[test]
fn a_row_in_use_may_be_zeros() {
    for count in [1, 6, LIMIT] {
        let held = Held { digest: [0; 32], rows: [[0; 32]; ROWS], ..made_up(count) };
        let file = written::<Sha256>(&held);
        assert_eq!(file.len(), 53 + 32 * count.count_ones() as usize);
        assert_eq!(read::<Sha256>(&file), Ok(held));
    }
}

/// "a file that reads gives itself back when written", of all files that differ in one byte.
#[test]
fn a_file_that_reads_gives_itself_back() {
    let file = written::<Sha256>(&made_up(5));
    let mut taken = 0;
    for at in 0..file.len() {
        for value in 0..=255 {
            let mut other = file.clone();
            other[at] = value;
            if let Ok(held) = read::<Sha256>(&other) {
                assert_eq!(written::<Sha256>(&held), other);
                taken += 1;
            }
        }
    }
    // log number, digest and both rows may be anything, and the count's lowest byte may be any of
    // the 28 with two 1 bits; the other 12 bytes must be as they are
    assert_eq!(taken, (8 + 32 + 64) * 256 + 28 + 12);
}

// ---- refusals of reading

#[test]
fn every_length_but_its_own_is_refused() {
    for count in [0, 1, 5, LIMIT] {
        let file = written::<Sha256>(&made_up(count));
        let longer = [&file[..], &[0; 100]].concat();
        for length in 0..=longer.len() {
            let answer = read::<Sha256>(&longer[..length]);
            if length < 53 {
                assert_eq!(answer, refused(18));
            } else if length == file.len() {
                assert_eq!(answer, Ok(made_up(count)));
            } else {
                assert_eq!(answer, refused(22));
            }
        }
    }
}

fn read_with(file: &[u8], at: usize, bytes: &[u8]) -> Result<Held, Refusal> {
    let mut other = file.to_vec();
    other[at..at + bytes.len()].copy_from_slice(bytes);
    read::<Sha256>(&other)
}

#[test]
fn marks_and_versions() {
    for file in [0, 5].map(|count| written::<Sha256>(&made_up(count))) {
        for mark in [b"LOT", b"hld", b"DLH", b"HLE", b"HMD", b"ILD", b"\0\0\0"] {
            assert_eq!(read_with(&file, 0, mark), refused(19));
        }
        for version in [[0, 0], [0, 2], [1, 0], [1, 1], [0x80, 1], [0xFF, 0xFF]] {
            assert_eq!(read_with(&file, 3, &version), refused(20));
        }
    }
}

#[test]
fn counts() {
    let file = written::<Sha256>(&made_up(LIMIT));
    assert!(read::<Sha256>(&file).is_ok());
    for over in (32..64).flat_map(|bit| [1 << bit, LIMIT | 1 << bit]).chain([u64::MAX]) {
        assert_eq!(read_with(&file, 13, &over.to_be_bytes()), refused(21));
    }
    assert_eq!(read_with(&file, 13, &(LIMIT - 1).to_be_bytes()), refused(22));
}

/// "lowest level first": the two rows of a file go to those that its count says.
#[test]
fn rows_of_another_count() {
    let file = written::<Sha256>(&made_up(5));
    for top in [1, 19, 20, 31] {
        let read = read_with(&file, 13, &(1u64 | 1 << top).to_be_bytes()).unwrap();
        let mut rows = [[0; 32]; ROWS];
        rows[0] = made_up(5).rows[0];
        rows[top] = made_up(5).rows[2];
        assert_eq!(read.rows, rows);
    }
}

#[test]
fn digests_at_0_and_above() {
    let file = written::<Sha256>(&made_up(0));
    for at in [21, 30, 52] {
        assert_eq!(read_with(&file, at, &[file[at] ^ 1]), refused(2));
    }
    assert_eq!(read_with(&file, 5, &8u64.to_be_bytes()), refused(2));
    assert_eq!(read_with(&file, 21, &held_start::<Sha256>(8).digest), refused(2));
    assert_eq!(read::<Xor>(&file), refused(2));
    let file = written::<Sha256>(&made_up(1));
    assert_eq!(read_with(&file, 21, &[0; 32]).map(|held| held.digest), Ok([0; 32]));
    assert_eq!(read_with(&file, 5, &8u64.to_be_bytes()).map(|held| held.log), Ok(8));
}

/// From a file with all causes of a refusal, each one mended shows the next.
#[test]
fn the_order_of_refusals() {
    let start = written::<Sha256>(&made_up(0));
    let mut file = vec![0xFF; 52];
    let mut mend = |at: usize, bytes: &[u8], number| {
        file.resize(file.len().max(at + bytes.len()), 0xFF);
        file[at..at + bytes.len()].copy_from_slice(bytes);
        assert_eq!(read::<Sha256>(&file), refused(number));
    };
    mend(0, &[0xFF; 52], 18);
    mend(53, &[0xFF], 19);
    mend(0, b"HLD", 20);
    mend(3, &[0, 1], 21);
    mend(13, &[0; 8], 22);
    file.truncate(53);
    assert_eq!(read::<Sha256>(&file), refused(2));
    file[5..].copy_from_slice(&start[5..]);
    assert_eq!(read::<Sha256>(&file), Ok(made_up(0)));
}

// ---- refusals of writing

#[test]
fn a_state_that_is_not_in_order_has_no_file() {
    let mut broken = vec![
        Held { count: LIMIT + 1, ..made_up(0) },
        Held { count: 5 | 1 << 32, ..made_up(5) },
        Held { count: 5 | 1 << 40, ..made_up(5) },
        Held { count: u64::MAX, ..made_up(LIMIT) },
        Held { log: 8, ..made_up(0) },
        Held { digest: [0; 32], ..made_up(0) },
    ];
    for row in 0..ROWS {
        for count in [0, LIMIT - (1 << row)] {
            let mut held = made_up(count);
            held.rows[row][31] = 1;
            broken.push(held);
        }
    }
    for held in broken {
        for room in [0, 52, FILE_MOST] {
            let mut out = vec![0xEE; room];
            assert_eq!(write::<Sha256>(&held, &mut out), refused(2));
            assert!(out.iter().all(|&byte| byte == 0xEE));
        }
    }
}

#[test]
fn an_output_may_have_just_the_files_length() {
    for count in [0, 1, 300, LIMIT] {
        let need = 53 + 32 * count.count_ones() as usize;
        for room in [0, need - 1] {
            let mut out = vec![0xEE; room];
            assert_eq!(write::<Sha256>(&made_up(count), &mut out), refused(6));
            assert!(out.iter().all(|&byte| byte == 0xEE));
        }
        let mut out = vec![0xEE; need];
        assert_eq!(write::<Sha256>(&made_up(count), &mut out), Ok(need as u64));
        assert_eq!(out, written::<Sha256>(&made_up(count)));
    }
}
