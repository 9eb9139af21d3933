//! Times checking proofs beside a plain Rust checker that does the same work (`host/plain`):
//! bench-check OFF ON, which are two copies of OpenSSL's library. Both make the same checks in the same
//! order on the same bytes, with the same answers; so they are compared first, on each proof and on it
//! with one byte changed.
//!
//! Beside both stands the floor: the messages that the plain checker hashes, in its order and whole in
//! memory, hashed alone by the proved hash; and the same by OpenSSL, with its processor extensions off
//! and on. The floor is what a checker over that hash would take if all but the hashing cost
//! nothing. What part of the time is blocks is counted by the time of a block in a long message.
//!
//! Each workload is a thousand proofs: every member of a log of 1,000; 1,000 advances there by one
//! element, each from the state that the one before handed back; 1,000 advances to its end, from the
//! state at each count before it; of a log of 1,000,000 members here and there, and the last 1,000;
//! and 1,000 advances by 1,000 elements, going on. Both checkers take a held state as its bytes, and
//! leave there the new one.
//!
//! Both are compiled for release and for the same processor (`host/env.sh`). Each proof is checked once
//! in a round; no buffer is cleared between the calls.

mod messages;
mod openssl;
mod table;
mod timing;
mod work;

use std::fs;
use std::marker::PhantomData;
use std::process;

use checker::Hash;
use compare::calls::Checks;
use compare::library::Proved;
use lotlog::{Answer, Digest, Held};
use messages::{blocks, Messages, Recorded};
use openssl::OpenSsl;
use second::store::Log;
use table::{most, Row};
use timing::way;
use work::{entry, house, some_of, Claims, Steps, Work};

const PROOFS: u64 = 1_000;
const SMALL: u64 = 1_000;
const LARGE: u64 = 1_000_000;

const ROUNDS: usize = 41;

/// The message by which the time of a block is taken: the longest that is hashed.
static LONG: [u8; 65_536] = [0xA9; 65_536];

/// 02, A9: "within twice its time on 1,000 membership proofs from a 1,000-element log".
const ASKED: f64 = 2.0;

/// The plain checker over a hash.
struct Plain<H>(PhantomData<H>);

impl<H: Hash> Checks for Plain<H> {
    #[inline]
    fn check_membership(entry: &[u8], i: u64, n: u64, digest: &Digest, proof: &[u8]) -> Answer {
        checker::check_membership::<H>(entry, i, n, digest, proof)
    }

    #[inline]
    fn check_advancement(held: &mut Held, n: u64, digest: &Digest, proof: &[u8]) -> Answer {
        checker::check_advancement::<H>(held, n, digest, proof)
    }
}

fn proved(message: &[u8], digest: &mut Digest) {
    assert_eq!(lotlog::hash(message, digest), 0);
}

/// Hashes each message alone.
fn each(messages: &Messages, hash: impl Fn(&[u8], &mut Digest)) {
    let mut digest = [0; 32];
    messages.iter().for_each(|message| hash(message, &mut digest));
}

/// Panics unless the hashes that are timed give the same digests.
fn same_digests(messages: &Messages, [off, on]: &[OpenSsl; 2]) {
    for message in messages.iter() {
        let mut digests = [[0; 32]; 3];
        proved(message, &mut digests[0]);
        off.hash(message, &mut digests[1]);
        on.hash(message, &mut digests[2]);
        assert_eq!(digests, [plain::digest(message); 3]);
    }
}

/// Compares and times a workload.
fn row(name: &'static str, work: &impl Work, openssl: &[OpenSsl; 2]) -> Row {
    work.alike::<Proved, Plain<checker::Plain>>();
    let messages = Messages::hashed_by(|| work.check::<Plain<Recorded>>());
    same_digests(&messages, openssl);
    let [off, on] = openssl;
    // as many blocks in long messages as the work has, or a few more
    let times = messages.blocks() / blocks(LONG.len()) + 1;
    let ways = [
        way(|| work.check::<Proved>()),
        way(|| work.check::<Plain<checker::Plain>>()),
        way(|| each(&messages, proved)),
        way(|| each(&messages, |message, digest| off.hash(message, digest))),
        way(|| each(&messages, |message, digest| on.hash(message, digest))),
        way(|| (0..times).for_each(|_| proved(&LONG, &mut [0; 32]))),
    ];
    let [proved, plain, floor, off, on, long] = timing::side_by_side(ROUNDS, 1, ways);
    let long_blocks = (times * blocks(LONG.len())) as f64;
    Row {
        name,
        bytes: work.bytes(),
        messages: messages.count(),
        distinct: messages.distinct(),
        blocks: messages.blocks(),
        block: long.time / long_blocks,
        share: messages.blocks() as f64 / long_blocks / long.ratio,
        proved,
        plain,
        floor,
        off,
        on,
    }
}

fn rows(small: &Log, large: &Log, openssl: &[OpenSsl; 2]) -> [Row; 6] {
    let to_the_end = Steps::of(small, (0..SMALL).map(|i| (i, SMALL)));
    let spread = Claims::of(large, some_of(LARGE, PROOFS));
    let last = Claims::of(large, LARGE - PROOFS + 1..=LARGE);
    [
        row("members of 1,000", &Claims::of(small, 1..=SMALL), openssl),
        row("single steps", &Steps::by(small, 1), openssl),
        row("steps to the end", &to_the_end, openssl),
        row("members of 1,000,000", &spread, openssl),
        row("one morning", &last, openssl),
        row("1,000 mornings", &Steps::by(large, LARGE / PROOFS), openssl),
    ]
}

/// The processor, where the system tells its name.
fn processor() -> Option<String> {
    let told = fs::read_to_string("/proc/cpuinfo").ok()?;
    let line = told.lines().find(|line| line.starts_with("model name"))?;
    Some(line.split_once(':')?.1.trim().to_string())
}

/// What all is measured on and with.
fn print_head(openssl: &OpenSsl) {
    println!("{}", processor().unwrap_or_else(|| "a processor whose name is not told".to_string()));
    println!("{}", openssl.words());
    let [bytes, last] = [SMALL, LARGE].map(|j| entry(j).len());
    println!("{} proofs each; entries of {} bytes, that of {} of {}", PROOFS, bytes, LARGE, last);
    println!(
        "floor: the same messages hashed alone; off, on: by OpenSSL, its extensions off and on"
    );
}

fn main() {
    let openssl = openssl::off_and_on();
    print_head(&openssl[1]);
    let [small, large] = [SMALL, LARGE].map(house);
    let log = |store| Log::read(store).expect("a store in order");
    let rows = rows(&log(&small), &log(&large), &openssl);
    table::print(&rows);
    let membership = rows[0].plain.ratio;
    println!(
        "membership at {:.2} of plain Rust's time where {} is asked; at most {:.2} of it in all; \
         at most {:.2} of the floor",
        membership,
        ASKED,
        most(&rows, |row| row.plain.ratio),
        most(&rows, |row| row.floor.ratio)
    );
    if membership > ASKED {
        process::exit(1);
    }
}
