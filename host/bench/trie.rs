//! Times the root of 1,000 handles, and a proof of presence and one of absence among them, beside a
//! plain Rust trie that does the same hashes: a recursion over the parts of the sorted list, which
//! allocates nothing for a node.
//!
//! Both are compiled for release and for the same processor (`host/env.sh`). The proofs hash every
//! subtree beside the key's way, which is nearly all of the trie.
//!
//! After that the three calls are made on a stack of 128 KiB, which holds the 257 nodes of a way
//! whatever the list. (Under the emulator both sides were slower once a thread had been started, so
//! it begins when all is timed.)

mod timing;

use std::thread;

use lotlog::Digest;
use timing::way;

const HANDLES: u64 = 1000;
const ROUNDS: usize = 3;
const DEPTH: usize = 256;
const PROOF_MOST: usize = 32 * DEPTH;
const EMPTY: Digest = [0; 32];
const STACK: usize = 128 << 10;

/// The key of a lot that is in the list, and of one that is not.
const PRESENT: u64 = 500;
const ABSENT: u64 = HANDLES + 1;

fn key(lot: u64) -> Vec<u8> {
    format!("lot {:06}, expiry 2028-05", lot).into_bytes()
}

fn handle(key: &[u8]) -> Digest {
    plain::digest(&[&[3], key].concat())
}

/// Whether the list is one that the library takes, which looks at all of it as well.
fn rising(list: &[u8]) -> bool {
    let handles = list.chunks_exact(32);
    list.len() % 32 == 0
        && list.len() <= 32 * HANDLES as usize
        && handles.clone().zip(handles.skip(1)).all(|(one, next)| one < next)
}

/// A plain trie over a sorted list, and the hashes that it has made.
struct Plain<'a> {
    list: &'a [u8],
    hashes: u64,
}

impl<'a> Plain<'a> {
    fn of(list: &'a [u8]) -> Plain<'a> {
        assert!(rising(list));
        Plain { list, hashes: 0 }
    }

    fn handles(&self) -> usize {
        self.list.len() / 32
    }

    /// Whether the handle at a place of the list goes right at a depth.
    fn goes_right(&self, place: usize, depth: usize) -> bool {
        self.list[32 * place + depth / 8] << (depth % 8) & 0x80 != 0
    }

    fn hash(&mut self, message: &[u8]) -> Digest {
        self.hashes += 1;
        plain::digest(message)
    }

    /// Where those that go right begin in a part of the list whose handles agree up to a depth.
    fn middle(&self, from: usize, to: usize, depth: usize) -> usize {
        let (mut low, mut high) = (from, to);
        while low < high {
            let place = (low + high) / 2;
            if self.goes_right(place, depth) {
                high = place;
            } else {
                low = place + 1;
            }
        }
        low
    }

    /// The digest of the subtree that holds a part of the list.
    fn node(&mut self, from: usize, to: usize, depth: usize) -> Digest {
        if from == to {
            return EMPTY;
        }
        if depth == DEPTH {
            let mut message = [4; 33];
            message[1..].copy_from_slice(&self.list[32 * from..32 * to]);
            return self.hash(&message);
        }
        let middle = self.middle(from, to, depth);
        let left = self.node(from, middle, depth + 1);
        let right = self.node(middle, to, depth + 1);
        let mut message = [5; 65];
        message[1..33].copy_from_slice(&left);
        message[33..].copy_from_slice(&right);
        self.hash(&message)
    }

    fn root(&mut self) -> Digest {
        self.node(0, self.handles(), 0)
    }

    /// Writes the siblings on the way to a key, down to the first empty node or to the leaf; the
    /// proof's length, and whether the key is present.
    fn prove(&mut self, key: &[u8], out: &mut [u8; PROOF_MOST]) -> (usize, bool) {
        self.hashes += 1;
        let handle = handle(key);
        let (mut from, mut to) = (0, self.handles());
        for (depth, place) in out.chunks_exact_mut(32).enumerate() {
            if from == to {
                return (32 * depth, false);
            }
            let middle = self.middle(from, to, depth);
            let sibling = if handle[depth / 8] << (depth % 8) & 0x80 != 0 {
                let left = self.node(from, middle, depth + 1);
                from = middle;
                left
            } else {
                let right = self.node(middle, to, depth + 1);
                to = middle;
                right
            };
            place.copy_from_slice(&sibling);
        }
        (PROOF_MOST, from < to)
    }
}

/// One line of the table: both ways timed, and the hashes that the plain one makes.
fn row(name: &str, hashes: u64, ours: impl FnMut(), plain: impl FnMut()) {
    let [ours, plain] = timing::side_by_side(ROUNDS, 1, [way(ours), way(plain)]);
    let (ratio, ours, plain) = (plain.ratio, ours.time / 1e6, plain.time / 1e6);
    println!("{:<10} {:>8} {:>12.2} {:>12.2} {:>7.2}", name, hashes, ours, plain, ratio);
}

fn root_row(list: &[u8]) {
    let mut root = [0; 32];
    let mut plain = Plain::of(list);
    assert_eq!(lotlog::trie_root(list, &mut root), 0);
    assert_eq!(plain.root(), root);
    let proved = || assert_eq!(lotlog::trie_root(list, &mut [0; 32]), 0);
    row("root", plain.hashes, proved, || assert_eq!(Plain::of(list).root(), root));
}

/// Builds a proof of a kind.
type Prove = fn(&[u8], &[u8], &mut [u8]) -> lotlog::Answer;

fn proof_row(name: &str, list: &[u8], prove: Prove, lot: u64, is_present: bool) {
    let key = key(lot);
    let (mut ours, mut theirs) = ([0; PROOF_MOST], [0; PROOF_MOST]);
    let mut plain = Plain::of(list);
    let answer = prove(list, &key, &mut ours);
    assert_eq!(plain.prove(&key, &mut theirs), (answer.beside[0] as usize, is_present));
    assert_eq!(answer.number, 0);
    assert!(ours == theirs, "both give the same bytes");
    let hashes = plain.hashes;
    let proved = || assert_eq!(prove(list, &key, &mut ours).number, 0);
    row(name, hashes, proved, || {
        assert_eq!(Plain::of(list).prove(&key, &mut theirs).1, is_present);
    });
}

/// Makes the three calls on a small stack. A call that took more would end the program.
fn on_a_small_stack(list: &[u8]) {
    let list = list.to_vec();
    let calls = move || {
        let mut out = [0; PROOF_MOST];
        assert_eq!(lotlog::trie_root(&list, &mut [0; 32]), 0);
        assert_eq!(lotlog::prove_presence(&list, &key(PRESENT), &mut out).number, 0);
        assert_eq!(lotlog::prove_absence(&list, &key(ABSENT), &mut out).number, 0);
    };
    let thread = thread::Builder::new().stack_size(STACK).spawn(calls).expect("a thread");
    thread.join().expect("calls that are done");
}

fn main() {
    let mut handles: Vec<Digest> = (1..=HANDLES).map(|lot| handle(&key(lot))).collect();
    handles.sort_unstable();
    let list = handles.concat();
    println!("{} handles", HANDLES);
    println!("{:<10} {:>8} {:>12} {:>12} {:>7}", "", "hashes", "proved ms", "plain ms", "ratio");
    root_row(&list);
    proof_row("presence", &list, lotlog::prove_presence, PRESENT, true);
    proof_row("absence", &list, lotlog::prove_absence, ABSENT, false);
    on_a_small_stack(&list);
    println!("a stack of {} KiB is enough", STACK >> 10);
}
