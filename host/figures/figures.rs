//! Prints figures of a small log as the second program computes them, one `NAME HEX` to a line.
//!
//! The log has number 7 and three entries: the empty one, "A", and the 33 bytes from 0x61 upward.
//! Its figures stand in figures.txt, first under the stand-in hash and then under SHA-256, so that
//! the definitions of the proofs can be held to values from outside. Its store has room for one
//! entry more. Rows of the held state that are not printed are zero. Beside it stand figures of a
//! dictionary of three keys: the empty one, "A" and "C". Siblings that are not printed are zero
//! too.
//!
//! Then stand the files of held states, whole. For these the log goes on to twelve elements: from 4
//! on, the entry of element j is j bytes of the value j.
//!
//! Then stand the answers to broken proofs of that log. A proof is cut into parts of 32 bytes,
//! counted from 0, and the first bit of the parts named is turned. An answer is the number, the hops
//! found good, the element, and the row or the level, 8 bytes each.
//!
//! Then stand the answers to two copies of that log, of so many elements each: the number, and the three
//! beside it. Of the second copy, the first bit of a byte may be turned, which is named by its element
//! and its place in the element's 64; from some element on its entries may be others, the byte 0 alone;
//! and it may be another log's.
//!
//! At the end stand figures of the ends that document 02, A7, moves: the hops of paths and the lengths
//! of their proofs, 8 bytes each; and what comes of a log of 4,294,967,295 elements, of which only
//! those on the path from 1 are there. The entry of element j is the 8 bytes of j. The digest of any
//! other element is made up: the hash of the 8 bytes of its number.

use std::collections::BTreeMap;

use second::copies::{compare, Compared};
use second::hash::{Hash, Sha256, Xor};
use second::held::{check_advancement, held_of, held_start, in_use, Held, ROWS};
use second::message::{element, element_digest, entry_digest, start_digest};
use second::path::{advancement, component_length, membership, proof_length, trailing_zeros};
use second::proof::{check_membership, proof_of};
use second::refusal::Refusal;
use second::saved::file_of;
use second::sealed::{self, BESIDE_DATA, CLOSING, FIRST_CHAIN};
use second::store::{header, place, store_of, Log};
use second::trie::{self, Kind, PROOF_MOST};
use second::{Digest, LIMIT};

const LOG: u64 = 7;
const LAST: u64 = 3;

fn entries() -> [Vec<u8>; 3] {
    [vec![], b"A".to_vec(), (0x61..=0x81).collect()]
}

fn print(name: &str, bytes: &[u8]) {
    let hex: String = bytes.iter().map(|byte| format!("{:02x}", byte)).collect();
    println!("{}", format!("{} {}", name, hex).trim_end());
}

fn print_log<H: Hash>(hash: &str) {
    let store = store_of::<H>(LOG, LAST + 1, entries().into_iter());
    let log = Log::read(&store).expect("a sound store");
    let print = |name: &str, bytes: &[u8]| print(&format!("{}.{}", hash, name), bytes);
    for (j, entry) in (1..).zip(entries()) {
        print(&format!("d({})", j), &entry_digest::<H>(&entry));
    }
    for j in 0..=LAST {
        print(&format!("T({})", j), &log.digest::<H>(j));
    }
    print("store", &store);
    print("membership(1,3)", &proof_of::<H>(&log, &membership(1, LAST).expect("a path")));
    print("advancement(0,3)", &proof_of::<H>(&log, &advancement(0, LAST).expect("a path")));
    let held = held_of::<H>(&log, LAST);
    print("held(3).log", &held.log.to_be_bytes());
    print("held(3).count", &held.count.to_be_bytes());
    print("held(3).digest", &held.digest);
    for (row, digest) in held.rows.iter().enumerate().filter(|(_, digest)| **digest != [0; 32]) {
        print(&format!("held(3).row{}", row), digest);
    }
}

fn keys() -> [&'static [u8]; 3] {
    [b"", b"A", b"C"]
}

fn print_siblings<H: Hash>(hash: &str, name: &str, kind: Kind, list: &[u8], key: &[u8]) {
    let mut proof = [0; PROOF_MOST];
    let length = trie::prove::<H>(kind, list, key, &mut proof).expect("a true kind");
    print(&format!("{}.{}.length", hash, name), &length.to_be_bytes());
    for (at, sibling) in proof.chunks(32).enumerate().filter(|(_, row)| **row != [0; 32]) {
        print(&format!("{}.{}.sibling{}", hash, name, at), sibling);
    }
}

fn print_trie<H: Hash>(hash: &str) {
    let mut handles: Vec<Digest> = Vec::new();
    for (k, key) in (1..).zip(keys()) {
        let handle = trie::handle::<H>(key).expect("a short key");
        print(&format!("{}.handle({})", hash, k), &handle);
        handles.push(handle);
    }
    handles.sort_unstable();
    let list = handles.concat();
    print(&format!("{}.root", hash), &trie::root::<H>(&list).expect("a rising list"));
    print_siblings::<H>(hash, "presence(A)", Kind::Presence, &list, b"A");
    print_siblings::<H>(hash, "absence(B)", Kind::Absence, &list, b"B");
}

/// The entries of the log of twelve elements.
fn more_entries() -> impl Iterator<Item = Vec<u8>> {
    entries().into_iter().chain((4..=12).map(|j| vec![j; usize::from(j)]))
}

/// The store of that log.
fn longer<H: Hash>() -> Vec<u8> {
    store_of::<H>(LOG, 12, more_entries())
}

/// Files with no row, with two rows, with a free row between them, and with free rows below them.
fn print_files<H: Hash>(hash: &str) {
    let store = longer::<H>();
    let log = Log::read(&store).expect("a sound store");
    for at in [0, 3, 5, 12] {
        print(&format!("{}.file({})", hash, at), &file_of(&held_of::<H>(&log, at)));
    }
}

/// The proof with the first bit of these parts turned.
fn turned(proof: &[u8], parts: &[usize]) -> Vec<u8> {
    let mut proof = proof.to_vec();
    parts.iter().for_each(|part| proof[32 * part] ^= 0x80);
    proof
}

fn print_refusal(name: &str, parts: &[usize], refused: Refusal) {
    let Refusal { number, beside, place } = refused;
    let numbers = [number, beside, place.element, place.level];
    let parts: Vec<String> = parts.iter().map(|part| part.to_string()).collect();
    let name = format!("{}.turned({})", name, parts.join(","));
    print(&name, &numbers.map(u64::to_be_bytes).concat());
}

/// A membership proof over 5, 6, 8, 12, which begin at the parts 0, 2, 5, 10; and an advancement
/// proof from 7 over 8 and 12, which begin at 0 and 5.
fn print_broken<H: Hash>(hash: &str) {
    let store = longer::<H>();
    let log = Log::read(&store).expect("a sound store");
    let digest = log.digest::<H>(12);
    let proof = proof_of::<H>(&log, &membership(5, 12).expect("a path"));
    for parts in [&[0][..], &[1], &[2], &[7], &[9], &[10], &[13], &[7, 13]] {
        let checked = check_membership::<H>(&[5; 5], 5, 12, &digest, &turned(&proof, parts));
        let name = format!("{}.membership(5,12)", hash);
        print_refusal(&name, parts, checked.expect_err("a broken proof"));
    }
    let proof = proof_of::<H>(&log, &advancement(7, 12).expect("a path"));
    let held = held_of::<H>(&log, 7);
    for parts in [&[0][..], &[1], &[2], &[3], &[4], &[5], &[3, 4], &[1, 4], &[0, 8]] {
        let checked = check_advancement::<H>(&held, 12, &digest, &turned(&proof, parts));
        let name = format!("{}.advancement(7,12)", hash);
        print_refusal(&name, parts, checked.expect_err("a broken proof"));
    }
}

/// What a van of three entries leaves: the chain and the next key of each, and the log.
fn print_van<H: Hash>(hash: &str) {
    let mut key: Digest = std::array::from_fn(|place| place as u8 + 1);
    let (mut chain, mut log) = (FIRST_CHAIN, Vec::new());
    let entries = [(2, &b"door opened"[..]), (u32::MAX, b""), (CLOSING, b"day")];
    for (j, (kind, data)) in entries.into_iter().enumerate() {
        let mut out = vec![0; data.len() + BESIDE_DATA];
        sealed::add::<H>(&mut key, &mut chain, kind, data, &mut out).expect("a short entry");
        print(&format!("{}.van.Y({})", hash, j), &chain);
        print(&format!("{}.van.A({})", hash, j + 1), &key);
        log.extend(out);
    }
    print(&format!("{}.van.log", hash), &log);
}

/// The answer to two copies, the first of which is a store of so many elements of the log of twelve.
fn print_copies<H: Hash>(name: &str, first: usize, second: &[u8]) {
    let store = store_of::<H>(LOG, first as u64, more_entries().take(first));
    let numbers = match compare(&store, second) {
        Ok(Compared::Equal) => [0, 0, 0, 0],
        Ok(Compared::FirstShorter) => [0, 1, 0, 0],
        Ok(Compared::SecondShorter) => [0, 2, 0, 0],
        Ok(Compared::Differ { element, byte }) => [0, 3, element, byte],
        Err(refused) => [refused.number, 0, 0, 0],
    };
    print(name, &numbers.map(u64::to_be_bytes).concat());
}

/// Copies that are equal, that end sooner, that have a byte changed, where both go and where one does
/// not, that have other entries, and that are another log's.
fn print_compared<H: Hash>(hash: &str) {
    let store = longer::<H>();
    let name = |first, change: &str| format!("{}.compare({},12){}", hash, first, change);
    print_copies::<H>(&name(12, ""), 12, &store);
    print_copies::<H>(&name(5, ""), 5, &store);
    let shorter = store_of::<H>(LOG, 7, more_entries().take(5));
    print_copies::<H>(&format!("{}.compare(12,5)", hash), 12, &shorter);
    for (first, element, byte) in [(12, 1, 0), (12, 12, 63), (5, 5, 32), (5, 6, 0)] {
        let mut second = store.clone();
        second[place(element) + byte] ^= 0x80;
        print_copies::<H>(&name(first, &format!(".turned({},{})", element, byte)), first, &second);
    }
    let others = more_entries().take(8).chain((9..=12).map(|_| vec![0]));
    print_copies::<H>(&name(12, ".other(9)"), 12, &store_of::<H>(LOG, 12, others));
    let other_log = [&header(LOG + 1)[..], &store[16..]].concat();
    print_copies::<H>(&name(5, ".log(8)"), 5, &other_log);
}

/// The limit before A7, and the middle of the new one, to which the longest hop goes.
const OLD_LIMIT: u64 = 1_048_575;
const MIDDLE: u64 = 1 << 31;

fn print_path(name: &str, hops: usize, elements: &[u64]) {
    print(&format!("{}.hops", name), &(hops as u64).to_be_bytes());
    print(&format!("{}.length", name), &(proof_length(elements) as u64).to_be_bytes());
}

/// Hops of paths and lengths of proofs and of the longest message.
fn print_lengths() {
    let firsts = [1, 2, OLD_LIMIT, OLD_LIMIT + 1, MIDDLE - 1, MIDDLE, LIMIT - 1, LIMIT];
    let pairs = firsts.map(|i| (i, LIMIT)).into_iter().chain([
        (1, LIMIT - 1),
        (1, MIDDLE),
        (MIDDLE, MIDDLE),
        (1, OLD_LIMIT),
        (OLD_LIMIT, OLD_LIMIT + 1),
    ]);
    for (i, n) in pairs {
        let path = membership(i, n).expect("a path");
        print_path(&format!("membership({},{})", i, n), path.len() - 1, &path);
    }
    for (i, n) in [(0, LIMIT), (1, LIMIT), (0, MIDDLE), (MIDDLE - 1, MIDDLE), (0, OLD_LIMIT + 1)] {
        let path = advancement(i, n).expect("a path");
        print_path(&format!("advancement({},{})", i, n), path.len(), &path);
    }
    let longest = element(MIDDLE, &vec![0; component_length(MIDDLE)]).len() as u64;
    print(&format!("message({}).length", MIDDLE), &longest.to_be_bytes());
}

/// A log of 4,294,967,295 elements: the digests of those that are there.
struct Longest(BTreeMap<u64, Digest>);

impl Longest {
    fn new<H: Hash>() -> Longest {
        let mut log = Longest(BTreeMap::from([(0, start_digest::<H>(LOG))]));
        for j in membership(1, LIMIT).expect("a path") {
            let digest = element_digest::<H>(j, &log.proof::<H>(&[j]));
            log.0.insert(j, digest);
        }
        log
    }

    fn digest<H: Hash>(&self, j: u64) -> Digest {
        self.0.get(&j).copied().unwrap_or_else(|| H::of(&j.to_be_bytes()))
    }

    /// The components of these elements.
    fn proof<H: Hash>(&self, elements: &[u64]) -> Vec<u8> {
        let component = |j: u64| {
            let links = (0..=trailing_zeros(j)).map(|level| self.digest::<H>(j - (1 << level)));
            [vec![entry_digest::<H>(&j.to_be_bytes())], links.collect()].concat().concat()
        };
        elements.iter().flat_map(|j| component(*j)).collect()
    }

    fn held<H: Hash>(&self, at: u64) -> Held {
        let mut held = Held { count: at, digest: self.digest::<H>(at), ..held_start::<H>(LOG) };
        for row in (0..ROWS).filter(|row| in_use(at, *row)) {
            held.rows[row] = self.digest::<H>(at - at % (2 << row));
        }
        held
    }
}

/// The longest membership proof, broken: in the components of 1, 2 and 4; in the d of that of the
/// middle, in the link hopped there, which is its last but one, and in its last; in the next one; and
/// in the last component.
fn print_broken_ends<H: Hash>(hash: &str, log: &Longest) {
    let proof = log.proof::<H>(&membership(1, LIMIT).expect("a path"));
    let last = log.digest::<H>(LIMIT);
    let check = |proof: &[u8]| check_membership::<H>(&1u64.to_be_bytes(), 1, LIMIT, &last, proof);
    check(&proof).expect("a whole proof");
    let alone = [0, 1, 2, 527, 558, 559, 560, 1_085, 1_086].map(|part| vec![part]);
    for parts in alone.into_iter().chain([vec![3, 558]]) {
        let refused = check(&turned(&proof, &parts)).expect_err("a broken proof");
        print_refusal(&format!("{}.ends.membership(1,{})", hash, LIMIT), &parts, refused);
    }
    let proof = log.proof::<H>(&[MIDDLE]);
    let (before, digest) = (log.held::<H>(MIDDLE - 1), log.digest::<H>(MIDDLE));
    for parts in [&[0][..], &[1], &[2], &[32], &[31, 32]] {
        let checked = check_advancement::<H>(&before, MIDDLE, &digest, &turned(&proof, parts));
        let name = format!("{}.ends.advancement({},{})", hash, MIDDLE - 1, MIDDLE);
        print_refusal(&name, parts, checked.expect_err("a broken proof"));
    }
}

/// The last digest, and the file of the state to which the way from the start leads.
fn print_ends<H: Hash>(hash: &str) {
    let log = Longest::new::<H>();
    let last = log.digest::<H>(LIMIT);
    print(&format!("{}.ends.T({})", hash, LIMIT), &last);
    let proof = log.proof::<H>(&advancement(0, LIMIT).expect("a path"));
    let start = held_start::<H>(LOG);
    let (_, held) = check_advancement::<H>(&start, LIMIT, &last, &proof).expect("a whole proof");
    print(&format!("{}.ends.file({})", hash, LIMIT), &file_of(&held));
    print_broken_ends::<H>(hash, &log);
}

fn main() {
    for (j, entry) in (1..).zip(entries()) {
        print(&format!("entry({})", j), &entry);
    }
    print_log::<Xor>("standin");
    print_log::<Sha256>("sha256");
    print_trie::<Xor>("standin");
    print_trie::<Sha256>("sha256");
    print_files::<Xor>("standin");
    print_files::<Sha256>("sha256");
    print_broken::<Xor>("standin");
    print_broken::<Sha256>("sha256");
    print_van::<Xor>("standin");
    print_van::<Sha256>("sha256");
    print_compared::<Sha256>("sha256");
    print_lengths();
    print_ends::<Xor>("standin");
    print_ends::<Sha256>("sha256");
}
