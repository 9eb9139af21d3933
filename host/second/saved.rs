//! The file form of a held state, document 02, A4: "Save what a practice holds."
//!
//! Words in quotation marks are A4's. Reading takes the parts of the head first and then asks for
//! all causes of a refusal at once, of which the first in A4's order decides. A row is in use by
//! the bit of the count and never by what it holds: a row in use may be 32 zero bytes. So A7 moves
//! no byte: "A file from A4 still reads, since it holds used rows only."

use crate::hash::Hash;
use crate::held::{in_order, in_use, Held, ROWS};
use crate::refusal::{refuse, Answer, FILE_COUNT, FILE_LENGTH, FILE_MARK, FILE_SHORT};
use crate::refusal::{FILE_VERSION, OUTPUT_SHORT};
use crate::{Digest, LIMIT};

/// The mark with which a file begins.
const MARK: [u8; 3] = *b"HLD";

/// "16-bit version 1"
const VERSION: u16 = 1;

/// The bytes before the rows. A file "under 53 bytes" is refused.
pub const FILE_LEAST: usize = 53;

/// The bytes of the longest file, which has a row for each level.
pub const FILE_MOST: usize = FILE_LEAST + 32 * ROWS;

/// "only the rows in use, lowest level first"
fn rows_in_use(count: u64) -> impl Iterator<Item = usize> {
    (0..ROWS).filter(move |&row| in_use(count, row))
}

/// The bytes of the file of a state with this count.
pub fn file_length(count: u64) -> usize {
    FILE_LEAST + 32 * rows_in_use(count).count()
}

/// ""HLD", 16-bit version 1, log number and count (8 bytes each), digest, then only the rows in
/// use, lowest level first". All numbers are big-endian, as everywhere.
pub fn file_of(held: &Held) -> Vec<u8> {
    let mut file = MARK.to_vec();
    file.extend(VERSION.to_be_bytes());
    file.extend(held.log.to_be_bytes());
    file.extend(held.count.to_be_bytes());
    file.extend(held.digest);
    rows_in_use(held.count).for_each(|row| file.extend(held.rows[row]));
    file
}

/// Writes the file of a state to the start of the lent output and gives its length; what lies
/// behind it stays. "One state has one file": a state that is not in order has none and is refused
/// with 2, and then an output that is too short with 6.
pub fn write<H: Hash>(held: &Held, out: &mut [u8]) -> Answer<u64> {
    in_order::<H>(held)?;
    let file = file_of(held);
    if out.len() < file.len() {
        return refuse(OUTPUT_SHORT);
    }
    out[..file.len()].copy_from_slice(&file);
    Ok(file.len() as u64)
}

/// The parts of a file's head.
struct Head {
    mark: [u8; 3],
    version: u16,
    log: u64,
    count: u64,
    digest: Digest,
}

/// The next bytes of a file that is long enough for them.
fn take<const N: usize>(rest: &mut &[u8]) -> [u8; N] {
    let (part, after) = rest.split_at(N);
    *rest = after;
    part.try_into().expect("the length of the part")
}

/// The head and the rows behind it. "under 53 bytes" is refused.
fn parts(file: &[u8]) -> Answer<(Head, &[u8])> {
    if file.len() < FILE_LEAST {
        return refuse(FILE_SHORT);
    }
    let mut rest = file;
    let head = Head {
        mark: take(&mut rest),
        version: u16::from_be_bytes(take(&mut rest)),
        log: u64::from_be_bytes(take(&mut rest)),
        count: u64::from_be_bytes(take(&mut rest)),
        digest: take(&mut rest),
    };
    Ok((head, rest))
}

/// Reads a file. "Reading refuses, in this order and each with its own number: under 53 bytes,
/// wrong mark, wrong version, count over the limit, wrong length. A wrong T(0) at count 0 gives 2,
/// last."
pub fn read<H: Hash>(file: &[u8]) -> Answer<Held> {
    let (head, mut rest) = parts(file)?;
    let causes = [
        (head.mark != MARK, FILE_MARK),
        (head.version != VERSION, FILE_VERSION),
        (head.count > LIMIT, FILE_COUNT),
        (file.len() != file_length(head.count), FILE_LENGTH),
    ];
    if let Some(&(_, number)) = causes.iter().find(|(is_so, _)| *is_so) {
        return refuse(number);
    }
    let mut rows = [[0; 32]; ROWS];
    rows_in_use(head.count).for_each(|row| rows[row] = take(&mut rest));
    let held = Held { log: head.log, count: head.count, digest: head.digest, rows };
    // its count is within the limit and its free rows are zero, so T(0) alone can be wrong
    in_order::<H>(&held)?;
    Ok(held)
}
