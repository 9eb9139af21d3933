//! "When the counter says no": the numbers of the table and what stands beside them.
//!
//! 1 to 13 are document 01's. "New refusals, here and later, take the next free numbers in the
//! order named", says document 02, A1, and names 14 to 17; A4 names 18 to 22, A6 names 23 to 25, A8 names 26.

/// A refused call: its number in the table, the number returned beside it, and where a proof broke.
///
/// "Numbers returned beside a refusal are 0, except the hop count with 10 and 11, the hops good
/// before a 9, the element of 12, and the 1 or 2 of 13". A6 adds the entry of 24, which the office
/// "learns".
#[derive(Debug, Clone, Copy, PartialEq, Eq)]
pub struct Refusal {
    pub number: u64,
    pub beside: u64,
    pub place: Place,
}

/// Where a proof broke. "Refusals 9 and 10 in 01 gain these two numbers: the element reached, and
/// the row for 9 or the level hopped for 10", says document 02, A5. The basis has a row for each
/// level, so the row is a level too.
#[derive(Debug, Clone, Copy, PartialEq, Eq)]
pub struct Place {
    pub element: u64,
    pub level: u64,
}

/// "All other refusals, 13 too, show 0 there."
pub const NOWHERE: Place = Place { element: 0, level: 0 };

/// What a call answers: its value, or its refusal.
pub type Answer<T> = Result<T, Refusal>;

/// "store under 16 bytes, wrong header, or damage in the state bytes or their order"
pub const DAMAGED: u64 = 1;
/// "held state over the limit, a free row not zero, or count 0 with a digest that is not T(0) of
/// its log; bad hash state"
pub const BAD_STATE: u64 = 2;
/// "entry over 4,096 bytes; hashing over 65,536"
pub const TOO_LONG: u64 = 3;
/// "membership: i = 0, i > n, or n over the limit; advancement: n < i or n over the limit; building
/// either, or reading a digest or a held state: number above the count"
pub const NO_SUCH_NUMBER: u64 = 4;
/// "no open record", or the count at the limit: "Refusals 2, 4 and 5 read from the new limit", says
/// document 02, A7
pub const NO_ROOM: u64 = 5;
/// "lent output too short"; and A6's key: "overwritten in 32 lent bytes (else 6)"
pub const OUTPUT_SHORT: u64 = 6;
/// "proof length not that of the path"
pub const PROOF_LENGTH: u64 = 7;
/// "first d is not the entry's"
pub const FIRST_D: u64 = 8;
/// "basis row differs"
pub const ROW: u64 = 9;
/// "link differs"
pub const LINK: u64 = 10;
/// "last digest differs"
pub const LAST_DIGEST: u64 = 11;
/// "audit: lowest wrong element given"
pub const WRONG_ELEMENT: u64 = 12;
/// "dispute: a proof is not accepted; 1 or 2 says which, 1 if both"
pub const NOT_ACCEPTED: u64 = 13;
/// "list broken, not rising or too long"
pub const LIST: u64 = 14;
/// "asked kind not true"
pub const KIND: u64 = 15;
/// "proof length not 256 siblings (presence) or not 0 to 256 whole ones (absence)"
pub const SIBLINGS: u64 = 16;
/// "root differs"
pub const ROOT: u64 = 17;
/// "under 53 bytes"
pub const FILE_SHORT: u64 = 18;
/// "wrong mark"
pub const FILE_MARK: u64 = 19;
/// "wrong version"
pub const FILE_VERSION: u64 = 20;
/// "count over the limit", which is the one of A7 here too: A7 raises it and keeps no other
pub const FILE_COUNT: u64 = 21;
/// "wrong length"
pub const FILE_LENGTH: u64 = 22;
/// "A key of zeros means closed: adding under it is refused."
pub const LOG_CLOSED: u64 = 23;
/// "the first entry, from 0, that is cut short, too long, wrongly sealed or after a closing one"
pub const BAD_ENTRY: u64 = 24;
/// "no closing entry stands there"
pub const NOT_CLOSED: u64 = 25;
/// "A different log number is refused with a new number"
pub const OTHER_LOG: u64 = 26;

/// A refusal with 0 beside it.
pub fn refuse<T>(number: u64) -> Answer<T> {
    refuse_with(number, 0)
}

/// A refusal with a number beside it.
pub fn refuse_with<T>(number: u64, beside: u64) -> Answer<T> {
    Err(Refusal { number, beside, place: NOWHERE })
}

/// A refusal with 9 or 10: the hops good before it, and where the proof broke.
pub fn refuse_at<T>(number: u64, hops: u64, place: Place) -> Answer<T> {
    Err(Refusal { number, beside: hops, place })
}
