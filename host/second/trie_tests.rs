//! The answers that document 02, A1, spells out, the trie's definition in its own words, and
//! crafted clashes under the stand-in.

use crate::hash::{Hash, Sha256, Xor};
use crate::refusal::{Refusal, NOWHERE};
use crate::trie::{
    check_absence, check_presence, clash, handle, prove, prove_absence, prove_presence, root, Kind,
    Shown, CLASH_LEAST, DEPTH, EMPTY, HANDLES_MOST, PROOF_MOST,
};
use crate::{Digest, ENTRY_MOST};

fn refused<T>(number: u64, beside: u64) -> Result<T, Refusal> {
    Err(Refusal { number, beside, place: NOWHERE })
}

/// Lots by number: all of them different.
fn key(lot: u64) -> Vec<u8> {
    format!("lot {}", lot).into_bytes()
}

fn handle_of<H: Hash>(lot: u64) -> Digest {
    handle::<H>(&key(lot)).expect("a short key")
}

/// The handles of the first so many lots, in rising order.
fn handles<H: Hash>(lots: u64) -> Vec<Digest> {
    let mut handles: Vec<Digest> = (1..=lots).map(handle_of::<H>).collect();
    handles.sort_unstable();
    handles
}

fn built<H: Hash>(kind: Kind, list: &[u8], key: &[u8]) -> Vec<u8> {
    let mut out = vec![0xEE; PROOF_MOST + 9];
    let length = prove::<H>(kind, list, key, &mut out).expect("a true kind") as usize;
    assert!(out[length..].iter().all(|&byte| byte == 0xEE), "what lies behind stays");
    out.truncate(length);
    out
}

fn checked<H: Hash>(kind: Kind, key: &[u8], root: &Digest, proof: &[u8]) -> Result<(), Refusal> {
    match kind {
        Kind::Presence => check_presence::<H>(key, root, proof),
        Kind::Absence => check_absence::<H>(key, root, proof),
    }
}

fn turned(handle: &Digest, depth: usize) -> Digest {
    let mut other = *handle;
    other[depth / 8] ^= 0x80 >> (depth % 8);
    other
}

// ---- the trie by its definition: a subtree is what its handles make it

fn subtree<H: Hash>(handles: &[Digest], depth: usize) -> Digest {
    if handles.is_empty() {
        return [0; 32];
    }
    if depth == 256 {
        return H::of(&[&[4], &handles[0][..]].concat());
    }
    let [left, right] = sides(handles, depth).map(|side| subtree::<H>(&side, depth + 1));
    H::of(&[&[5], &left[..], &right].concat())
}

/// A handle's binary digit: that of depth 0 counts most.
fn digit(handle: &Digest, depth: usize) -> u8 {
    handle[depth / 8] / (1 << (7 - depth % 8)) % 2
}

/// The handles whose digit is 0, and those whose digit is 1.
fn sides(handles: &[Digest], depth: usize) -> [Vec<Digest>; 2] {
    [0, 1].map(|side| handles.iter().copied().filter(|one| digit(one, depth) == side).collect())
}

/// A node and its sibling as left and right.
fn in_order<'a>(
    handle: &Digest,
    depth: usize,
    node: &'a Digest,
    sibling: &'a Digest,
) -> [&'a Digest; 2] {
    if digit(handle, depth) == 0 {
        [node, sibling]
    } else {
        [sibling, node]
    }
}

/// The siblings on the way to a handle, down to the first empty node on it or to the leaf.
fn siblings<H: Hash>(handles: &[Digest], to: &Digest) -> Vec<u8> {
    let mut own = handles.to_vec();
    let mut found = Vec::new();
    for depth in 0..256 {
        if own.is_empty() {
            break;
        }
        let parts = sides(&own, depth);
        let side = digit(to, depth) as usize;
        found.extend(subtree::<H>(&parts[1 - side], depth + 1));
        own = parts[side].clone();
    }
    found
}

fn holds_to_the_definition<H: Hash>(handles: &[Digest], asked: &[u64]) {
    let list = handles.concat();
    let root = root::<H>(&list).expect("a rising list");
    assert_eq!(root, subtree::<H>(handles, 0));
    for key in asked.iter().map(|&lot| key(lot)) {
        let own = handle::<H>(&key).expect("a short key");
        let (kind, other) = if handles.contains(&own) {
            (Kind::Presence, Kind::Absence)
        } else {
            (Kind::Absence, Kind::Presence)
        };
        let proof = built::<H>(kind, &list, &key);
        assert_eq!(proof, siblings::<H>(handles, &own));
        assert_eq!(checked::<H>(kind, &key, &root, &proof), Ok(()));
        let mut out = [0xEE; PROOF_MOST];
        assert_eq!(prove::<H>(other, &list, &key, &mut out), refused(15, 0));
        assert!(out == [0xEE; PROOF_MOST]);
    }
}

#[test]
fn tries_are_as_defined() {
    for lots in [0, 1, 2, 3, 9] {
        holds_to_the_definition::<Sha256>(&handles::<Sha256>(lots), &[1, 2, 9, 10, 11]);
        holds_to_the_definition::<Xor>(&handles::<Xor>(lots), &[1, 2, 9, 10, 11]);
    }
}

#[test]
fn neighbours_of_any_depth() {
    let own = handle_of::<Sha256>(1);
    for depth in [0, 1, 7, 8, 100, 254, 255] {
        let other = turned(&own, depth);
        holds_to_the_definition::<Sha256>(&[other], &[1, 2]);
        holds_to_the_definition::<Sha256>(&[own.min(other), own.max(other)], &[1, 2]);
        assert_eq!(built::<Sha256>(Kind::Absence, &other, &key(1)).len(), 32 * (depth + 1));
    }
}

#[test]
fn the_first_and_the_last_handle() {
    holds_to_the_definition::<Sha256>(&[[0; 32]], &[1]);
    holds_to_the_definition::<Sha256>(&[[0xFF; 32]], &[1]);
    holds_to_the_definition::<Sha256>(&[[0; 32], [0xFF; 32]], &[1]);
    // one handle of zeros: every node on its way is a left one
    let leaf = plain::digest(&[&[4][..], &[0; 32]].concat());
    let up = |node: Digest| plain::digest(&[&[5], &node[..], &[0; 32]].concat());
    assert_eq!(root::<Sha256>(&[0; 32]), Ok((0..256).fold(leaf, |node, _| up(node))));
}

#[test]
fn the_most_handles() {
    let all = handles::<Xor>(HANDLES_MOST as u64 + 1);
    let list = all[1..].concat();
    let root_of_most = root::<Xor>(&list).unwrap();
    assert_eq!(root_of_most, subtree::<Xor>(&all[1..], 0));
    assert_eq!(root::<Xor>(&all.concat()), refused(14, 0));
    let lots = 1..=HANDLES_MOST as u64 + 1;
    let absent = lots.clone().find(|&lot| handle_of::<Xor>(lot) == all[0]).unwrap();
    let present = lots.clone().find(|&lot| lot != absent).unwrap();
    for (kind, lot) in [(Kind::Absence, absent), (Kind::Presence, present)] {
        let proof = built::<Xor>(kind, &list, &key(lot));
        assert_eq!(checked::<Xor>(kind, &key(lot), &root_of_most, &proof), Ok(()));
    }
}

// ---- figures and refusals

#[test]
fn handles_of_keys() {
    assert_eq!(handle::<Sha256>(b""), Ok(plain::digest(&[3])));
    assert_eq!(handle::<Sha256>(b"abc"), Ok(plain::digest(b"\x03abc")));
    assert!(handle::<Sha256>(&[7; ENTRY_MOST]).is_ok());
    assert_eq!(handle::<Sha256>(&[7; ENTRY_MOST + 1]), refused(3, 0));
}

/// Computed by another maker's SHA-256, from A1's text.
#[test]
fn figures_from_outside() {
    let mut handles = [&b""[..], b"a", b"abc"].map(|key| handle::<Sha256>(key).unwrap());
    handles.sort_unstable();
    let root = root::<Sha256>(&handles.concat()).unwrap();
    let absence = built::<Sha256>(Kind::Absence, &handles.concat(), b"ab");
    let figures = [
        (handles[1], "1a60c38bbdf04315e5d12747a45f7e02d9da3ea6e7dea87270e4acf8c900d110"),
        (root, "f8edd702f566ba540ab7a26337bfc10ab8fdbcde278fc26a94463c91353d402f"),
        (
            plain::digest(&absence),
            "627a569f01021fa4dda437103bf81f45689484ae465b6f05ecb1e8596441d75b",
        ),
        (
            plain::digest(&[&[5][..], &[0; 64]].concat()),
            "6e00d7f27020c59a7c8e414f7cabbdec16c6c52f5f29faee65987e0499c0d576",
        ),
    ];
    for (digest, figure) in figures {
        let hex: String = digest.iter().map(|byte| format!("{:02x}", byte)).collect();
        assert_eq!(hex, figure);
    }
    assert_eq!(absence.len(), 3 * 32);
}

#[test]
fn broken_lists() {
    let good = handles::<Sha256>(3);
    let list = good.concat();
    let swapped = [good[1], good[0], good[2]].concat();
    let repeated = [good[0], good[1], good[1]].concat();
    for broken in [&list[..95], &[&list[..], &[0xFF]].concat(), &[0], &swapped, &repeated] {
        let mut out = [0xEE; PROOF_MOST];
        assert_eq!(root::<Sha256>(broken), refused(14, 0));
        assert_eq!(prove_presence::<Sha256>(broken, &key(1), &mut out), refused(14, 0));
        assert_eq!(prove_absence::<Sha256>(broken, &key(1), &mut out), refused(14, 0));
        assert!(out == [0xEE; PROOF_MOST]);
    }
}

#[test]
fn the_order_of_refusals_in_proving() {
    let list = handles::<Sha256>(3).concat();
    let long = [0; ENTRY_MOST + 1];
    for kind in [Kind::Presence, Kind::Absence] {
        let (true_lot, false_lot) = if kind == Kind::Presence { (1, 4) } else { (4, 1) };
        let need = built::<Sha256>(kind, &list, &key(true_lot)).len();
        let ask = |list: &[u8], key: &[u8], room| {
            let mut out = vec![0xEE; room];
            let answer = prove::<Sha256>(kind, list, key, &mut out);
            assert!(answer.is_ok() || out.iter().all(|&byte| byte == 0xEE));
            answer
        };
        assert_eq!(ask(&list[1..], &long, 0), refused(3, 0));
        assert_eq!(ask(&list[1..], &key(false_lot), 0), refused(14, 0));
        assert_eq!(ask(&list, &key(false_lot), 0), refused(15, 0));
        assert_eq!(ask(&list, &key(true_lot), need - 1), refused(6, 0));
        assert_eq!(ask(&list, &key(true_lot), need), Ok(need as u64));
    }
}

#[test]
fn the_order_of_refusals_in_checking() {
    let list = handles::<Sha256>(3).concat();
    let (root, long) = (root::<Sha256>(&list).unwrap(), [0; ENTRY_MOST + 1]);
    for (kind, lot) in [(Kind::Presence, 1), (Kind::Absence, 4)] {
        let proof = built::<Sha256>(kind, &list, &key(lot));
        let check = |key: &[u8], root, proof: &[u8]| checked::<Sha256>(kind, key, root, proof);
        let longest = [&proof[..], &[0; PROOF_MOST + 32]].concat();
        assert_eq!(check(&key(lot), &root, &proof), Ok(()));
        assert_eq!(check(&long, &EMPTY, &proof[1..]), refused(3, 0));
        assert_eq!(check(&key(lot), &EMPTY, &proof[1..]), refused(16, 0));
        assert_eq!(check(&key(lot), &EMPTY, &longest[..PROOF_MOST + 32]), refused(16, 0));
        assert_eq!(check(&key(lot), &EMPTY, &longest[..PROOF_MOST + 1]), refused(16, 0));
        assert_eq!(check(&key(lot), &EMPTY, &proof), refused(17, 0));
        assert_eq!(check(&key(lot + 1), &root, &proof), refused(17, 0));
        let fewer = if kind == Kind::Presence { 16 } else { 17 };
        assert_eq!(check(&key(lot), &root, &proof[32..]), refused(fewer, 0));
        for sibling in 0..proof.len() / 32 {
            let mut damaged = proof.clone();
            damaged[32 * sibling + 9] ^= 4;
            assert_eq!(check(&key(lot), &root, &damaged), refused(17, 0));
        }
    }
}

#[test]
fn special_roots() {
    let two_empty_sides = plain::digest(&[&[5][..], &[0; 64]].concat());
    let zeros = [0; PROOF_MOST];
    assert_eq!(root::<Sha256>(&[]), Ok(EMPTY));
    assert_eq!(built::<Sha256>(Kind::Absence, &[], &key(1)), []);
    assert_eq!(check_absence::<Sha256>(&key(1), &EMPTY, &[]), Ok(()));
    assert_eq!(check_absence::<Sha256>(&key(1), &EMPTY, &zeros[..32]), refused(17, 0));
    assert_eq!(check_presence::<Sha256>(&key(1), &EMPTY, &zeros), refused(17, 0));
    assert_eq!(check_absence::<Sha256>(&key(1), &two_empty_sides, &zeros[..32]), Ok(()));
    assert_eq!(check_absence::<Sha256>(&key(1), &two_empty_sides, &[]), refused(17, 0));
    assert_eq!(check_absence::<Sha256>(&key(1), &two_empty_sides, &zeros[..64]), refused(17, 0));
}

#[test]
fn clash_refusals() {
    let list = handles::<Sha256>(3).concat();
    let root = root::<Sha256>(&list).unwrap();
    let [presence, absence] = [(Kind::Presence, 1), (Kind::Absence, 4)]
        .map(|(kind, lot)| built::<Sha256>(kind, &list, &key(lot)));
    let ask = |key: &[u8], presence: &[u8], absence: &[u8], rooms: [usize; 2]| {
        let [mut first, mut second] = rooms.map(|room| vec![0xEE; room]);
        let shown = clash::<Sha256>(key, &root, presence, absence, [&mut first, &mut second]);
        assert!(first.iter().chain(&second).all(|&byte| byte == 0xEE));
        shown
    };
    let (enough, less) = (CLASH_LEAST, CLASH_LEAST - 1);
    assert_eq!(ask(&key(1), &[], &[], [enough, less]), refused(6, 0));
    assert_eq!(ask(&key(1), &[], &[], [less, enough]), refused(6, 0));
    assert_eq!(ask(&key(1), &presence, &absence, [enough; 2]), refused(13, 2));
    assert_eq!(ask(&key(4), &presence, &absence, [enough; 2]), refused(13, 1));
    assert_eq!(ask(&key(5), &presence, &absence, [enough; 2]), refused(13, 1));
    assert_eq!(ask(&key(1), &presence[1..], &absence, [enough; 2]), refused(13, 1));
    assert_eq!(ask(&key(1), &presence, &absence[1..], [enough; 2]), refused(13, 2));
    assert_eq!(ask(&[0; ENTRY_MOST + 1], &presence, &absence, [enough; 2]), refused(13, 1));
}

// ---- clashes, which only the stand-in lets us set up

fn xor(one: &Digest, other: &Digest) -> Digest {
    let mut both = *one;
    both.iter_mut().zip(other).for_each(|(byte, more)| *byte ^= more);
    both
}

/// A presence under the stand-in with siblings of no certain origin.
struct Presence {
    key: Vec<u8>,
    siblings: Vec<Digest>,
}

impl Presence {
    fn of(key: &[u8]) -> Presence {
        let siblings = (0..DEPTH as u64).map(|at| plain::digest(&at.to_be_bytes())).collect();
        Presence { key: key.to_vec(), siblings }
    }

    fn handle(&self) -> Digest {
        handle::<Xor>(&self.key).expect("a short key")
    }

    /// The digest of its node at a depth.
    fn node(&self, depth: usize) -> Digest {
        let leaf = Xor::of(&[&[4], &self.handle()[..]].concat());
        self.climbed(depth, leaf, &self.siblings[depth..])
    }

    /// The digest at a depth that siblings from there on lead to.
    fn climbed(&self, depth: usize, node: Digest, siblings: &[Digest]) -> Digest {
        siblings
            .iter()
            .enumerate()
            .rev()
            .fold(node, |node, (at, sibling)| Xor::of(&self.message(depth + at, &node, sibling)))
    }

    fn root(&self) -> Digest {
        self.node(0)
    }

    /// An absence that shares the siblings above a depth, has another there and then its own: the
    /// XOR of the two sides at that depth stays, so that its hash does.
    fn absence_from(&self, depth: usize, tail: &[Digest]) -> Vec<Digest> {
        let own = self.climbed(depth + 1, EMPTY, tail);
        let meeting = xor(&self.siblings[depth], &xor(&self.node(depth + 1), &own));
        [&self.siblings[..depth], &[meeting], tail].concat()
    }

    /// Changes the sibling beside the way below a depth so that the node of that depth is zeros.
    fn with_zeros_at(mut self, depth: usize) -> Presence {
        // the stand-in's inner hash is the XOR of both sides, a byte on, and 5 in its first byte
        let mut beside = self.node(depth + 1);
        beside[31] ^= 5;
        self.siblings[depth] = beside;
        assert_eq!(self.node(depth), EMPTY);
        self
    }

    /// The inner message of a depth, with this node on the way.
    fn message(&self, depth: usize, node: &Digest, sibling: &Digest) -> Vec<u8> {
        let [left, right] = in_order(&self.handle(), depth, node, sibling);
        [&[5], &left[..], right].concat()
    }

    /// What the clash with an absence shows, and the two buffers after it.
    fn clash(&self, absence: &[Digest]) -> (Shown, [Vec<u8>; 2]) {
        let root = self.root();
        let (presence, absence) = (self.siblings.concat(), absence.concat());
        assert_eq!(check_presence::<Xor>(&self.key, &root, &presence), Ok(()));
        assert_eq!(check_absence::<Xor>(&self.key, &root, &absence), Ok(()));
        let mut buffers = [vec![0xEE; CLASH_LEAST], vec![0xEE; CLASH_LEAST + 1]];
        let [first, second] = &mut buffers;
        let shown = clash::<Xor>(&self.key, &root, &presence, &absence, [first, second]);
        (shown.expect("both are accepted"), buffers)
    }
}

#[test]
fn a_clash_shows_two_messages_of_one_hash() {
    let tail: Vec<Digest> = (1..=5).map(|byte| [byte; 32]).collect();
    for (depth, tail) in [(0, &tail[..0]), (0, &tail), (7, &tail), (128, &tail[..1]), (255, &[])] {
        let presence = Presence::of(b"a lot that is and is not");
        let absence = presence.absence_from(depth, tail);
        assert_eq!(absence.len(), depth + 1 + tail.len());
        let (shown, [first, second]) = presence.clash(&absence);
        assert_eq!(shown, Shown::Pair(65, 65));
        let (ours, theirs) = (&first[..65], &second[..65]);
        let own = presence.node(depth + 1);
        assert_eq!(*ours, presence.message(depth, &own, &presence.siblings[depth]));
        let own = presence.climbed(depth + 1, EMPTY, tail);
        assert_eq!(*theirs, presence.message(depth, &own, &absence[depth]));
        assert!(ours != theirs);
        assert_eq!(Xor::of(ours), Xor::of(theirs));
        assert_eq!(second[65], 0xEE);
    }
}

#[test]
fn a_clash_shows_an_inner_message_of_hash_zeros() {
    for depth in [0, 1, 100, 255] {
        let presence = Presence::of(b"a lot").with_zeros_at(depth);
        let (shown, [first, second]) = presence.clash(&presence.siblings[..depth]);
        assert_eq!(shown, Shown::Zeros(65));
        let own = presence.node(depth + 1);
        assert_eq!(first, presence.message(depth, &own, &presence.siblings[depth]));
        assert_eq!(Xor::of(&first), EMPTY);
        assert_eq!(second, [0xEE; CLASH_LEAST + 1]);
    }
}

/// A key and its handle under the stand-in, which makes its full leaf zeros.
fn key_of_a_leaf_of_zeros() -> ([u8; 32], Digest) {
    let (mut key, mut handle) = ([0; 32], [0; 32]);
    key[30] = 4;
    key[31] = 3;
    handle[31] = 4;
    (key, handle)
}

#[test]
fn a_full_leaf_of_zeros_is_present() {
    let (key, handle) = key_of_a_leaf_of_zeros();
    assert_eq!(built::<Xor>(Kind::Presence, &handle, &key), [0; PROOF_MOST]);
    assert_eq!(prove_absence::<Xor>(&handle, &key, &mut [0; PROOF_MOST]), refused(15, 0));
}

#[test]
fn a_clash_shows_a_leaf_of_hash_zeros() {
    let (key, handle) = key_of_a_leaf_of_zeros();
    let presence = Presence::of(&key);
    assert_eq!((presence.handle(), presence.node(DEPTH)), (handle, EMPTY));
    let (shown, [first, second]) = presence.clash(&presence.siblings);
    assert_eq!(shown, Shown::Zeros(33));
    assert_eq!(first[..33], [&[4], &handle[..]].concat());
    assert_eq!(first[33..], [0xEE; 32]);
    assert_eq!(second, [0xEE; CLASH_LEAST + 1]);
}
