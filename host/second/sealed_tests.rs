//! RFC 4231's test cases, the bytes of a van's log spelled out, and the answers that document 02,
//! A6, gives to the van and to the office.

use std::iter;

use crate::hash::{Hash, Sha256, Xor};
use crate::mac::{hmac, mac, KEY_MOST, MESSAGE_MOST, RFC_4231};
use crate::refusal::Refusal;
use crate::sealed::{add, chain, check, next_key, seal, stored, BESIDE_DATA, DATA_MOST};
use crate::tests::{digest_of_hex, refused};
use crate::Digest;

// ---- HMAC

#[test]
fn rfc_4231() {
    for (key, data, value) in RFC_4231 {
        let hex: String =
            hmac::<Sha256>(key, data).iter().map(|byte| format!("{:02x}", byte)).collect();
        assert!(hex.starts_with(value));
        assert_eq!(mac::<Sha256>(key, data), Ok(hmac::<Sha256>(key, data)));
    }
    assert_eq!(RFC_4231.map(|(_, _, value)| value.len()), [64, 64, 64, 64, 32, 64, 64]);
}

#[test]
fn a_key_is_hashed_from_65_bytes_on() {
    let key = [0x5A; 66];
    for length in [65, 66] {
        let hashed = Sha256::of(&key[..length]);
        assert_eq!(hmac::<Sha256>(&key[..length], b"x"), hmac::<Sha256>(&hashed, b"x"));
    }
    let hashed = Sha256::of(&key[..64]);
    assert_ne!(hmac::<Sha256>(&key[..64], b"x"), hmac::<Sha256>(&hashed, b"x"));
    // a shorter one is filled with zeros at its end
    let filled = [&key[..9], &[0; 55]].concat();
    assert_eq!(hmac::<Sha256>(&key[..9], b"x"), hmac::<Sha256>(&filled, b"x"));
    assert_eq!(hmac::<Sha256>(&[], b"x"), hmac::<Sha256>(&[0; 64], b"x"));
}

#[test]
fn hmac_over_the_stand_in() {
    // a block of one byte throughout vanishes, and what is left is the key twice and the message
    let [key, message] = [[0xC3; 32], [0x0F; 32]];
    assert_eq!(hmac::<Xor>(&key, &message), [0x0F; 32]);
    assert_eq!(hmac::<Xor>(&[], b"ab"), Xor::of(b"ab"));
}

#[test]
fn the_limits_of_hmac() {
    assert_eq!((KEY_MOST, MESSAGE_MOST), (65_536, 65_472));
    let bytes = vec![7; 65_537];
    for (key, message, taken) in [
        (65_536, 65_472, true),
        (65_537, 65_472, false),
        (65_536, 65_473, false),
        (65_537, 65_473, false),
        (0, 65_473, false),
        (65_537, 0, false),
    ] {
        let (key, message) = (&bytes[..key], &bytes[..message]);
        let value = if taken { Ok(hmac::<Sha256>(key, message)) } else { refused(3, 0) };
        assert_eq!(mac::<Sha256>(key, message), value);
    }
}

// ---- a log spelled out

/// A(0) of the log below: the bytes 00 to 1F.
fn counting_key() -> Digest {
    let mut key = [0; 32];
    key.iter_mut().zip(0..).for_each(|(byte, value)| *byte = value);
    key
}

/// The entries of the log below.
fn entries_of_a_day() -> [(u32, Vec<u8>); 4] {
    let long = (0..4096).map(|at| (at % 251) as u8).collect();
    let (first, last) = (b"AR-30972 to van 3", b"end of the day");
    [(7, first.to_vec()), (0xFFFF_FFFE, vec![]), (0, long), (1, last.to_vec())]
}

/// The chain, the seal and the next key of each. Python made them, by hashlib.sha256 of
/// b"\x06" + y + struct.pack(">I", kind) + data, by hmac.new(a, y, "sha256") and by hashlib.sha256
/// of b"Increment Hash" + a.
const OF_A_DAY: [[&str; 3]; 4] = [
    [
        "fae9161cb1a038ccbe028a4f339c4586de4c43e07b18149f2b8699b6e9430743",
        "cba8c74034c25bb165f02f66c3d80c343f5d77636bf1b8c368646782881550c8",
        "12ba5fafe57e92706c99d9036822d4f4209d8db170e9d233124fec134a47e4b6",
    ],
    [
        "99f2eccc0edf94d94cd342bf504e9752029424bc8be8d43817a954139dc4a25e",
        "4190da269474576623948c35f91d6b709816cbd0d70e6796e7bf0f7f6a7c454b",
        "00d31999f598a0a7f421d2d01f095f0dbfc6a63694ea5fb34a6cb77eb117b629",
    ],
    [
        "b6e5c2dfb1a354759ebffd865eef211ca7896c2ebf0799bfa6c2467c74a0b84e",
        "443f302548a301e8173c97ab49e2b46b9733e65839af136d27f7901588490234",
        "1d2315a7eedb74097a038d4c5aa0d4d0e3e59312a00d828fa420bf48b74ca50e",
    ],
    [
        "30cac06c25c91a44d8663ddd963e3bed5b261763e8c80b384211fec7b7235307",
        "0f9923843f39dc8bc97500ef174c4ac3e00cacca371c1bc32b8979373cc59e39",
        // the closing entry leaves no key
        "0000000000000000000000000000000000000000000000000000000000000000",
    ],
];

/// SHA-256 of the whole log, which Python made too: of struct.pack(">IH", kind, len(data)) + data +
/// seal, one after the other.
const HASH_OF_A_DAY: &str = "6424ada18b86c23ea27fec8d4a768bc129b4431a52ecda8bd112d2ae5ca14262";

#[test]
fn a_log_by_another_maker() {
    let (mut key, mut chain, mut log) = (counting_key(), [0; 32], Vec::new());
    for ((kind, data), values) in entries_of_a_day().iter().zip(OF_A_DAY) {
        let mut out = vec![0xEE; data.len() + BESIDE_DATA];
        let length = out.len() as u64;
        assert_eq!(add::<Sha256>(&mut key, &mut chain, *kind, data, &mut out), Ok(length));
        let [wanted_chain, wanted_seal, wanted_key] = values.map(digest_of_hex);
        assert_eq!((chain, key), (wanted_chain, wanted_key));
        assert_eq!(out[out.len() - 32..], wanted_seal);
        log.extend(out);
    }
    assert_eq!(log.len(), 4279);
    assert_eq!(Sha256::of(&log), digest_of_hex(HASH_OF_A_DAY));
    assert_eq!(log[..8], [0, 0, 0, 7, 0, 17, b'A', b'R']);
    assert_eq!(log[55..61], [0xFF, 0xFF, 0xFF, 0xFE, 0, 0]);
    assert_eq!(log[93..101], [0, 0, 0, 0, 0x10, 0, 0, 1]);
    assert_eq!(check::<Sha256>(&counting_key(), &log), Ok(4));
}

// ---- the van

/// What a van lends to each call, and the log that it has written.
#[derive(Clone)]
struct Van {
    key: Digest,
    chain: Digest,
    log: Vec<u8>,
}

/// The first key of the vans below.
const FIRST_KEY: Digest = [0xA0; 32];

impl Van {
    fn begin() -> Van {
        Van { key: FIRST_KEY, chain: [0; 32], log: Vec::new() }
    }

    /// Adds an entry to an output that is longer.
    fn add<H: Hash>(&mut self, kind: u32, data: &[u8]) -> Result<u64, Refusal> {
        let mut out = vec![0xEE; data.len() + BESIDE_DATA + 9];
        let length = add::<H>(&mut self.key, &mut self.chain, kind, data, &mut out)?;
        assert!(out[length as usize..].iter().all(|&byte| byte == 0xEE), "what lies behind stays");
        self.log.extend(&out[..length as usize]);
        Ok(length)
    }

    /// A log of so many entries of which none closes, of 0, 1, 2 .. bytes.
    fn with_entries<H: Hash>(entries: u32) -> Van {
        let mut van = Van::begin();
        for at in 0..entries {
            van.add::<H>(at + 2, &vec![at as u8; at as usize]).expect("an open log");
        }
        van
    }

    /// The same, and a closing entry of five bytes behind them.
    fn closed<H: Hash>(entries: u32) -> Van {
        let mut van = Van::with_entries::<H>(entries);
        van.add::<H>(1, b"close").expect("an open log");
        van
    }
}

/// Where the entries of [`Van::closed`] begin, and the end.
fn places(entries: usize) -> Vec<usize> {
    let lengths = (0..entries).chain([5]).map(|data| data + BESIDE_DATA);
    let ends = lengths.scan(0, |end, length| {
        *end += length;
        Some(*end)
    });
    [0].into_iter().chain(ends).collect()
}

#[test]
fn a_closing_entry_overwrites_the_key_with_zeros() {
    for data in [&b""[..], b"x", &[0; DATA_MOST]] {
        let mut van = Van::with_entries::<Sha256>(2);
        assert_eq!(van.key, next_key::<Sha256>(&next_key::<Sha256>(&FIRST_KEY)));
        let wanted = chain::<Sha256>(&van.chain, 1, data);
        assert_eq!(van.add::<Sha256>(1, data), Ok(data.len() as u64 + 38));
        assert_eq!((van.key, van.chain), ([0; 32], wanted));
        assert_eq!(van.add::<Sha256>(2, b"more"), refused(23, 0));
        assert_eq!(van.add::<Sha256>(1, b""), refused(23, 0));
    }
}

#[test]
fn no_other_type_closes() {
    for kind in [0, 2, 0x0100_0000, 0x0001_0000, 0x0000_0100, 257, 0x8000_0001, u32::MAX] {
        let mut van = Van::with_entries::<Sha256>(1);
        let wanted = next_key::<Sha256>(&van.key);
        assert!(van.add::<Sha256>(kind, b"").is_ok());
        assert_eq!(van.key, wanted);
        assert_eq!(check::<Sha256>(&FIRST_KEY, &van.log), refused(25, 0));
    }
}

#[test]
fn one_bit_is_enough_for_a_key() {
    for bit in 0..256 {
        let mut key = [0; 32];
        key[bit / 8] = 1 << (bit % 8);
        assert_eq!(add::<Sha256>(&mut key, &mut [0; 32], 2, b"", &mut [0; 38]), Ok(38));
    }
}

/// Adds data of this length under a key of this length and byte, in this room. A refusal leaves
/// key, chain and output as they were.
fn adding(data: usize, key_length: usize, key_byte: u8, room: usize) -> Result<u64, Refusal> {
    let (mut key, mut chain, mut out) = (vec![key_byte; key_length], [0xCC; 32], vec![0xEE; room]);
    let answer = add::<Sha256>(&mut key, &mut chain, 1, &vec![0xDD; data], &mut out);
    if answer.is_err() {
        assert_eq!((key, chain, out), (vec![key_byte; key_length], [0xCC; 32], vec![0xEE; room]));
    }
    answer
}

/// From a call with all causes of a refusal, each one mended shows the next.
#[test]
fn the_order_of_refusals() {
    assert_eq!(adding(4097, 0, 0, 0), refused(3, 0));
    assert_eq!(adding(4096, 0, 0, 0), refused(6, 0));
    assert_eq!(adding(4096, 32, 0, 0), refused(6, 0));
    assert_eq!(adding(4096, 0, 0, 4134), refused(6, 0));
    assert_eq!(adding(4096, 32, 0, 4134), refused(23, 0));
    assert_eq!(adding(4096, 32, 7, 4134), Ok(4134));
}

#[test]
fn each_cause_alone() {
    for data in [4097, 65_535, 65_536, 70_000] {
        assert_eq!(adding(data, 32, 7, 80_000), refused(3, 0));
    }
    for key in [0, 1, 31, 33, 64] {
        assert_eq!(adding(5, key, 7, 100), refused(6, 0));
        assert_eq!(adding(5, key, 0, 100), refused(6, 0));
    }
    for room in [0, 37, 42] {
        assert_eq!(adding(5, 32, 7, room), refused(6, 0));
    }
    for data in [0, 1, 4096] {
        assert_eq!(adding(data, 32, 7, data + 37), refused(6, 0));
        assert_eq!(adding(data, 32, 7, data + 38), Ok(data as u64 + 38));
        assert_eq!(adding(data, 32, 0, data + 38), refused(23, 0));
    }
}

#[test]
fn a_refusal_on_the_way_is_not_seen_in_the_log() {
    let (mut van, plain) = (Van::with_entries::<Sha256>(3), Van::closed::<Sha256>(3));
    assert_eq!(van.add::<Sha256>(9, &[0; 4097]), refused(3, 0));
    assert_eq!(add::<Sha256>(&mut van.key, &mut van.chain, 9, b"", &mut [0; 37]), refused(6, 0));
    assert!(van.add::<Sha256>(1, b"close").is_ok());
    assert!(van.log == plain.log);
}

// ---- the office

/// "Every log the van begins and closes passes."
#[test]
fn every_closed_log_passes() {
    for entries in 0..=20 {
        let count = u64::from(entries) + 1;
        let [van, other] = [Van::closed::<Sha256>(entries), Van::closed::<Xor>(entries)];
        assert_eq!(check::<Sha256>(&FIRST_KEY, &van.log), Ok(count));
        assert_eq!(check::<Xor>(&FIRST_KEY, &other.log), Ok(count));
        let open = Van::with_entries::<Sha256>(entries);
        assert_eq!(check::<Sha256>(&FIRST_KEY, &open.log), refused(25, 0));
    }
}

#[test]
fn every_cut() {
    let van = Van::closed::<Sha256>(4);
    let places = places(4);
    for length in 0..van.log.len() {
        let whole = places.iter().filter(|&&place| place <= length).count() - 1;
        let answer = check::<Sha256>(&FIRST_KEY, &van.log[..length]);
        let between = places.contains(&length);
        assert_eq!(answer, if between { refused(25, 0) } else { refused(24, whole as u64) });
    }
}

#[test]
fn every_bit() {
    let van = Van::closed::<Sha256>(4);
    let places = places(4);
    for bit in 0..8 * van.log.len() {
        let mut log = van.log.clone();
        log[bit / 8] ^= 1 << (bit % 8);
        let entry = places.iter().filter(|&&place| place <= bit / 8).count() - 1;
        assert_eq!(check::<Sha256>(&FIRST_KEY, &log), refused(24, entry as u64));
    }
}

#[test]
fn every_bit_of_the_first_key() {
    let van = Van::closed::<Sha256>(2);
    for bit in 0..256 {
        let mut key = FIRST_KEY;
        key[bit / 8] ^= 1 << (bit % 8);
        assert_eq!(check::<Sha256>(&key, &van.log), refused(24, 0));
        assert_eq!(check::<Sha256>(&key, &[]), refused(25, 0));
    }
}

/// The entries of [`Van::closed`], one by one.
fn apart(van: &Van, entries: usize) -> Vec<Vec<u8>> {
    places(entries).windows(2).map(|ends| van.log[ends[0]..ends[1]].to_vec()).collect()
}

#[test]
fn entries_swapped_dropped_and_repeated() {
    let all = apart(&Van::closed::<Sha256>(4), 4);
    let checked = |entries: &[Vec<u8>]| check::<Sha256>(&FIRST_KEY, &entries.concat());
    assert_eq!(checked(&all), Ok(5));
    for at in 0..5 {
        let mut fewer = all.clone();
        fewer.remove(at);
        assert_eq!(checked(&fewer), if at == 4 { refused(25, 0) } else { refused(24, at as u64) });
        for place in 0..=5 {
            let mut more = all.clone();
            more.insert(place, all[at].clone());
            let bad = if place == at { at + 1 } else { place };
            assert_eq!(checked(&more), refused(24, bad as u64));
        }
        for other in at + 1..5 {
            let mut swapped = all.clone();
            swapped.swap(at, other);
            assert_eq!(checked(&swapped), refused(24, at as u64));
        }
    }
}

#[test]
fn nothing_stands_after_a_closing_entry() {
    let van = Van::closed::<Sha256>(2);
    let keys = iter::successors(Some(FIRST_KEY), |key| Some(next_key::<Sha256>(key)));
    let sealed_under = |key: &Digest, kind| {
        stored(kind, b"", &seal::<Sha256>(key, &chain::<Sha256>(&van.chain, kind, b"")))
    };
    let mut tails = vec![vec![0], vec![0; 5], vec![0xFF; 60], van.log.clone()];
    // as if the log were open yet, and as if the van went on under zeros
    for key in keys.take(4).chain([[0; 32]]) {
        tails.extend([1, 2].map(|kind| sealed_under(&key, kind)));
    }
    for tail in tails {
        assert_eq!(check::<Sha256>(&FIRST_KEY, &[&van.log[..], &tail].concat()), refused(24, 3));
    }
}

/// The first bad entry decides, of whatever kind it is and whatever follows.
#[test]
fn the_first_bad_entry_decides() {
    let all = apart(&Van::closed::<Sha256>(3), 3);
    let checked = |entries: &[Vec<u8>]| check::<Sha256>(&FIRST_KEY, &entries.concat());
    let mut bad = all.clone();
    bad[3].truncate(40);
    assert_eq!(checked(&bad), refused(24, 3));
    bad[2][7] ^= 1;
    assert_eq!(checked(&bad), refused(24, 2));
    bad[1] = all[3].clone();
    assert_eq!(checked(&bad), refused(24, 1));
    bad[0][4] = 0xFF;
    assert_eq!(checked(&bad), refused(24, 0));
    // no closing entry, and a bad one
    assert_eq!(checked(&bad[..2]), refused(24, 0));
}

/// An entry with a good seal whose length field says so much.
fn first_entry(kind: u32, length: usize) -> Vec<u8> {
    let data = vec![3; length];
    stored(kind, &data, &seal::<Sha256>(&FIRST_KEY, &chain::<Sha256>(&[0; 32], kind, &data)))
}

#[test]
fn lengths_of_data() {
    for (length, answer) in [
        (0, Ok(1)),
        (1, Ok(1)),
        (4095, Ok(1)),
        (4096, Ok(1)),
        (4097, refused(24, 0)),
        (0x1100, refused(24, 0)),
        (65_535, refused(24, 0)),
    ] {
        let log = first_entry(1, length);
        assert_eq!(check::<Sha256>(&FIRST_KEY, &log), answer);
        assert_eq!(check::<Sha256>(&FIRST_KEY, &log[..log.len() - 1]), refused(24, 0));
        assert_eq!(check::<Sha256>(&FIRST_KEY, &log[..6]), refused(24, 0));
    }
}

#[test]
fn the_office_takes_a_first_key_of_zeros() {
    let of_zeros = |before, kind| {
        let chain = chain::<Sha256>(&before, kind, b"x");
        (chain, stored(kind, b"x", &seal::<Sha256>(&[0; 32], &chain)))
    };
    assert_eq!(check::<Sha256>(&[0; 32], &of_zeros([0; 32], 1).1), Ok(1));
    // its next key is another
    let (chain, first) = of_zeros([0; 32], 2);
    assert_eq!(check::<Sha256>(&[0; 32], &[first, of_zeros(chain, 1).1].concat()), refused(24, 1));
}

/// Under the stand-in a key can be made whose next one is zeros. The van can add nothing more then,
/// though it has not closed; the office goes on.
#[test]
fn a_key_that_comes_out_as_zeros() {
    let mut first_key = [0; 32];
    first_key[18..].copy_from_slice(b"Increment Hash");
    let mut van = Van { key: first_key, ..Van::begin() };
    assert!(van.add::<Xor>(2, b"x").is_ok());
    assert_eq!(van.key, [0; 32]);
    assert_eq!(van.add::<Xor>(1, b"x"), refused(23, 0));
    assert_eq!(check::<Xor>(&first_key, &van.log), refused(25, 0));
    let last = stored(1, b"x", &seal::<Xor>(&[0; 32], &chain::<Xor>(&van.chain, 1, b"x")));
    assert_eq!(check::<Xor>(&first_key, &[van.log, last].concat()), Ok(2));
}

/// A van whose chain is not the one of its last entry does not notice; the office does.
#[test]
fn a_wrong_chain() {
    for wrong in 0..3 {
        let mut van = Van::with_entries::<Sha256>(wrong);
        van.chain[31] ^= 1;
        assert!(van.add::<Sha256>(8, b"").is_ok());
        assert!(van.add::<Sha256>(1, b"").is_ok());
        assert_eq!(check::<Sha256>(&FIRST_KEY, &van.log), refused(24, u64::from(wrong)));
    }
}
