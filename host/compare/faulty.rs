//! The second program with one fault at a time, to show that the comparisons notice each.
//!
//! Among the faults are the slips that document 01 has seen elsewhere.

mod copies;
mod ends;
mod sealed;

use std::sync::atomic::{AtomicUsize, Ordering};

use lotlog::{Answer, Digest, Held, Side, HELD_BYTES};
use second::hash::{Hash, Sha256};
use second::held::ROWS;
use second::proof::{components, link};
use second::saved::{file_length, FILE_LEAST, FILE_MOST};
use second::store::{HEADER, OPEN, RECORD, STATE};
use second::trie::climbed;
use second::{message, path, ENTRY_MOST, LIMIT};

use crate::calls::{AdvanceCalls, CopyCalls, HashCalls, MemberCalls, SavedCalls};
use crate::calls::{SealCalls, StoreCalls, TrieCalls};
use crate::second_calls::{held_bytes, held_of_bytes, Second};

/// The second program with one of the faults below, which is set. It is no parameter of the type, or
/// there would be as many copies to compile as there are faults.
pub enum Faulty {}

static FAULT: AtomicUsize = AtomicUsize::new(NO_FAULT);

/// Gives the copy this fault, in place of the one that it had.
pub fn set(fault: usize) {
    FAULT.store(fault, Ordering::Relaxed);
}

fn fault() -> usize {
    FAULT.load(Ordering::Relaxed)
}

/// With no fault, it must not be noticed.
pub const NO_FAULT: usize = usize::MAX;

pub const PADDING_AT_55_BYTES: usize = 0;
pub const HASHES_TOO_MUCH: usize = 1;
pub const STARTS_PAST_CAPACITY: usize = 2;
pub const TAKES_ANY_STATE_BYTE: usize = 3;
pub const CLOSES_TOO_EARLY: usize = 4;
pub const STOP_WRAPS: usize = 5;
pub const COUNT_BESIDE_A_REFUSAL: usize = 6;
pub const SKIPS_EMPTY_ENTRIES: usize = 7;
pub const NO_DIGEST_AT_0: usize = 8;
pub const AUDIT_NAMES_THE_LAST: usize = 9;
pub const CLEARS_PAST_THE_PROOF: usize = 10;
pub const IGNORES_A_TAIL: usize = 11;
pub const TAKES_ANY_ENTRY: usize = 12;
pub const NO_HOPS_WITH_11: usize = 13;
pub const NAMES_THE_SECOND_PROOF: usize = 14;
pub const DIFFERING_NEAREST_I: usize = 15;
pub const FORGETS_THE_TOP_ROW: usize = 16;
pub const NEVER_CHECKS_ROWS: usize = 17;
pub const KEEPS_A_REFUSED_DIGEST: usize = 18;
pub const ADVANCES_ONLY_FROM_1: usize = 19;
pub const HASHES_A_LONG_KEY: usize = 20;
pub const TAKES_A_REPEATED_HANDLE: usize = 21;
pub const SORTS_THE_LIST: usize = 22;
pub const TAKES_1001_HANDLES: usize = 23;
pub const TAKES_A_BROKEN_HANDLE: usize = 24;
pub const ROOM_BEFORE_THE_KIND: usize = 25;
pub const LIST_BEFORE_THE_KEY: usize = 26;
pub const BUILDS_A_FALSE_ABSENCE: usize = 27;
pub const SIBLINGS_FROM_THE_LEAF: usize = 28;
pub const ABSENCE_ONE_TOO_LONG: usize = 29;
pub const WRITES_WHAT_FITS: usize = 30;
pub const LAST_BIT_FIRST: usize = 31;
pub const SIDES_SWAPPED: usize = 32;
pub const TAIL_OF_SIBLINGS_IGNORED: usize = 33;
pub const TAKES_ANY_ROOT: usize = 34;
pub const TWO_EMPTY_SIDES_STAY_EMPTY: usize = 35;
pub const ABSENCE_NEEDS_A_SIBLING: usize = 36;
pub const NAMES_THE_ABSENCE: usize = 37;
pub const PROOFS_BEFORE_THE_BUFFERS: usize = 38;
pub const PART_OF_A_SIBLING_IGNORED: usize = 39;
pub const OPEN_IS_ZERO: usize = 40;
pub const ZERO_IS_OPEN_TOO: usize = 41;
pub const STARTS_WITH_ZEROS: usize = 42;
pub const MISSES_A_LAST_BIT: usize = 43;
pub const ROWS_HIGHEST_FIRST: usize = 44;
pub const ALL_ROWS_WRITTEN: usize = 45;
pub const ROW_BY_ITS_CONTENTS: usize = 46;
pub const LAST_ROW_LEFT_OUT: usize = 47;
pub const COUNT_LITTLE_ENDIAN: usize = 48;
pub const CLEARS_BEHIND_THE_FILE: usize = 49;
pub const WRITES_ANY_STATE: usize = 50;
pub const WRITES_OVER_THE_LIMIT: usize = 51;
pub const WRITES_ANY_LAST_ROW: usize = 52;
pub const WRITES_ANY_START: usize = 53;
pub const ROOM_BEFORE_THE_STATE: usize = 54;
pub const LENGTH_BESIDE_6: usize = 55;
pub const WRITES_A_PART: usize = 56;
pub const MARK_NOT_COMPARED: usize = 57;
pub const LAST_OF_THE_MARK_NOT_COMPARED: usize = 58;
pub const TAKES_VERSION_2: usize = 59;
pub const FIRST_OF_THE_VERSION_IGNORED: usize = 60;
pub const COUNT_OF_32_BITS: usize = 61;
pub const TAIL_OF_A_FILE_IGNORED: usize = 62;
pub const MISSING_ROWS_ARE_ZERO: usize = 63;
pub const READS_ANY_START: usize = 64;
pub const NEEDS_54_BYTES: usize = 65;
pub const MARK_BEFORE_53_BYTES: usize = 66;
pub const VERSION_BEFORE_THE_MARK: usize = 67;
pub const COUNT_BEFORE_THE_VERSION: usize = 68;
pub const LIMIT_IS_OVER: usize = 69;
pub const LENGTH_BEFORE_53_BYTES: usize = 70;
pub const NO_LIMIT_OF_THE_COUNT: usize = 71;
pub const LENGTH_BEFORE_THE_COUNT: usize = 72;
pub const START_BEFORE_THE_LENGTH: usize = 73;
pub const REFUSES_A_DIGEST_OF_ZEROS: usize = 74;
pub const REFUSES_A_ROW_OF_ZEROS: usize = 75;
pub const REFUSED_FILE_CLEARS: usize = 76;
pub const KEEPS_FREE_ROWS: usize = 77;
pub const NAMES_THE_ELEMENT_LEFT: usize = 78;
pub const LEVEL_ONE_MORE: usize = 79;
pub const LEVEL_OF_THE_ELEMENT_LEFT: usize = 80;
pub const NAMES_THE_LINK_OF_A_ROW: usize = 81;
pub const LEVEL_HOPPED_WITH_9: usize = 82;
pub const NAMES_THE_HIGHEST_ROW: usize = 83;
pub const ELEMENT_AND_LEVEL_SWAPPED: usize = 84;
pub const NAMES_THE_LAST_BAD_HOP: usize = 85;
pub const NO_PLACE_WITH_9: usize = 86;
pub const NO_PLACE_WITH_10: usize = 87;
pub const PLACE_WHEN_ACCEPTED: usize = 88;
pub const PLACE_WITH_2: usize = 89;
pub const PLACE_WITH_7: usize = 90;
pub const PLACE_WITH_8: usize = 91;
pub const PLACE_WITH_11: usize = 92;
pub const PLACE_WITH_13: usize = 93;
pub const HASHES_A_KEY_OF_64: usize = 94;
pub const LEAVES_A_KEY_OF_65: usize = 95;
pub const KEY_FILLED_IN_FRONT: usize = 96;
pub const PADS_SWAPPED: usize = 97;
pub const INNER_HASH_ALONE: usize = 98;
pub const KEY_MOST_ONE_LESS: usize = 99;
pub const KEY_MOST_ONE_MORE: usize = 100;
pub const MESSAGE_MOST_ONE_LESS: usize = 101;
pub const MESSAGE_MOST_ONE_MORE: usize = 102;
pub const MESSAGE_OF_ANY_LENGTH: usize = 103;
pub const REFUSED_MAC_IS_ZEROS: usize = 104;
pub const OLD_KEY_KEPT: usize = 105;
pub const LAST_OF_THE_OLD_KEY_STAYS: usize = 106;
pub const CLOSING_LEAVES_A_KEY: usize = 107;
pub const SEAL_OVER_THE_DATA: usize = 108;
pub const SEAL_UNDER_THE_NEXT_KEY: usize = 109;
pub const CHAIN_WITHOUT_THE_TYPE: usize = 110;
pub const CHAIN_WITHOUT_ITS_06: usize = 111;
pub const TYPE_TURNED_IN_THE_CHAIN: usize = 112;
pub const TYPE_LITTLE_ENDIAN: usize = 113;
pub const LENGTH_LITTLE_ENDIAN: usize = 114;
pub const INCREMENTS_WITH_ANOTHER_TEXT: usize = 115;
pub const TEXT_BEHIND_THE_KEY: usize = 116;
pub const CLOSES_WITHOUT_DATA_ALONE: usize = 117;
pub const CLOSES_BY_THE_LAST_BYTE: usize = 118;
pub const CLOSES_BY_TWO_BYTES: usize = 119;
pub const CLOSES_FROM_THE_OTHER_END: usize = 120;
pub const ADDS_4095_AT_MOST: usize = 121;
pub const ADDS_4097: usize = 122;
pub const TAKES_A_KEY_OF_31: usize = 123;
pub const TAKES_A_KEY_OF_33: usize = 124;
pub const ROOM_OF_ONE_LESS: usize = 125;
pub const ROOM_OF_ONE_MORE: usize = 126;
pub const ROOM_BEFORE_THE_DATA: usize = 127;
pub const CLOSED_BEFORE_THE_ROOM: usize = 128;
pub const ADDS_UNDER_ZEROS: usize = 129;
pub const CLOSED_BY_31_ZEROS: usize = 130;
pub const CHAIN_NOT_MOVED: usize = 131;
pub const CHAIN_MOVED_ON_A_REFUSAL: usize = 132;
pub const KEY_MOVED_ON_A_REFUSAL: usize = 133;
pub const WRITES_ON_A_REFUSAL: usize = 134;
pub const CLEARS_BEHIND_THE_ENTRY: usize = 135;
pub const LENGTH_BESIDE_A_REFUSAL: usize = 136;
pub const NEEDS_NO_CLOSE: usize = 137;
pub const TAKES_AN_EMPTY_LOG: usize = 138;
pub const NUMBER_BESIDE_25: usize = 139;
pub const CLOSE_BEFORE_THE_ENTRIES: usize = 140;
pub const NAMES_THE_ENTRY_BEFORE: usize = 141;
pub const NAMES_THE_ENTRY_AFTER: usize = 142;
pub const NAMES_THE_LAST_ENTRY: usize = 143;
pub const STRAY_BYTES_IGNORED: usize = 144;
pub const STOPS_AT_THE_CLOSE: usize = 145;
pub const TAKES_ENTRIES_AFTER_A_CLOSE: usize = 146;
pub const CHECKS_4095_AT_MOST: usize = 147;
pub const CHECKS_4097: usize = 148;
pub const CHECKS_ANY_LENGTH: usize = 149;
pub const REFUSES_A_FIRST_KEY_OF_ZEROS: usize = 150;
pub const LAST_OF_THE_SEAL_NOT_COMPARED: usize = 151;
pub const PART_OF_A_SEAL_TAKEN: usize = 152;
pub const PART_OF_A_HEAD_IGNORED: usize = 153;
pub const LAST_SEAL_ALONE: usize = 154;
pub const SHAPE_BEFORE_THE_SEALS: usize = 155;
pub const OFFICE_KEEPS_THE_KEY: usize = 156;
pub const COUNTS_WITHOUT_THE_CLOSE: usize = 157;
pub const NO_FAULT_AT_THE_ENDS: usize = 158;
pub const KEEPS_THE_OLD_LIMIT: usize = 159;
pub const LIMIT_ONE_LESS: usize = 160;
pub const LIMIT_ONE_MORE: usize = 161;
pub const CLAIM_ONE_MORE: usize = 162;
pub const STEP_ONE_MORE: usize = 163;
pub const OLD_LIMIT_OF_STATES: usize = 164;
pub const OLD_LIMIT_OF_FILES: usize = 165;
pub const STATE_ONE_MORE: usize = 166;
pub const FILE_ONE_MORE: usize = 167;
pub const SIGNED_LENGTHS: usize = 168;
pub const POSITION_OF_32_BITS: usize = 169;
pub const LENGTH_OF_32_BITS: usize = 170;
pub const STATE_COUNT_OF_32_BITS: usize = 171;
pub const READS_AT_32_BITS: usize = 172;
pub const BUILDS_IN_32_BITS: usize = 173;
pub const DISPUTES_IN_32_BITS: usize = 174;
pub const DIFFERING_IN_32_BITS: usize = 175;
pub const HOPS_UP_TO_LEVEL_19: usize = 176;
pub const HOPS_UP_TO_LEVEL_29: usize = 177;
pub const HOPS_UP_TO_LEVEL_30: usize = 178;
pub const HOP_SUM_OF_32_BITS: usize = 179;
pub const LINKS_UP_TO_LEVEL_19: usize = 180;
pub const LINKS_UP_TO_LEVEL_30: usize = 181;
pub const MESSAGE_OF_681: usize = 182;
pub const MESSAGE_OF_1_033: usize = 183;
pub const ELEMENT_OF_24_BITS: usize = 184;
pub const PROOF_OF_14_048: usize = 185;
pub const TELLS_38_HOPS: usize = 186;
pub const SIGNED_ELEMENT: usize = 187;
pub const KEEPS_TWENTY_ROWS: usize = 188;
pub const KEEPS_31_ROWS: usize = 189;
pub const TWENTY_ROWS_JUDGED: usize = 190;
pub const ROW_20_NOT_JUDGED: usize = 191;
pub const ROW_31_NOT_JUDGED: usize = 192;
pub const TWENTY_ROWS_COMPARED: usize = 193;
pub const ROW_30_NOT_COMPARED: usize = 194;
pub const CARRIES_TO_ROW_20: usize = 195;
pub const FILE_OF_TWENTY_ROWS: usize = 196;
pub const KEEPS_THE_OLD_CAPACITY: usize = 197;
pub const LENGTHS_BEFORE_BYTES: usize = 198;
pub const ONLY_D_COMPARED: usize = 199;
pub const ONLY_T_COMPARED: usize = 200;
pub const BYTE_0_NOT_COMPARED: usize = 201;
pub const BYTE_63_NOT_COMPARED: usize = 202;
pub const HIGH_BIT_NOT_COMPARED: usize = 203;
pub const GREATER_BYTES_ALONE: usize = 204;
pub const BYTE_FROM_1: usize = 205;
pub const BYTE_FROM_T: usize = 206;
pub const BYTE_OF_THE_STORE: usize = 207;
pub const ELEMENT_FROM_0: usize = 208;
pub const ELEMENT_AND_BYTE_SWAPPED: usize = 209;
pub const DIFFER_WITHOUT_ITS_3: usize = 210;
pub const LAST_ELEMENT_THAT_DIFFERS: usize = 211;
pub const LAST_BYTE_THAT_DIFFERS: usize = 212;
pub const LAST_OF_ALL_DIFFERENCES: usize = 213;
pub const LOWEST_BYTE_OF_ANY_ELEMENT: usize = 214;
pub const LAST_COMMON_ELEMENT_LEFT_OUT: usize = 215;
pub const FIRST_ELEMENT_LEFT_OUT: usize = 216;
pub const FIRST_32_ELEMENTS_ALONE: usize = 217;
pub const ELEMENT_OF_8_BITS: usize = 218;
pub const ELEMENT_OF_16_BITS: usize = 219;
pub const RECORDS_OF_64: usize = 220;
pub const ALL_RECORDS_COMPARED: usize = 221;
pub const RECORDS_OF_THE_LONGER_COMPARED: usize = 222;
pub const ONE_RECORD_MORE_COMPARED: usize = 223;
pub const CAPACITIES_FOR_LENGTHS: usize = 224;
pub const BYTES_FOR_LENGTHS: usize = 225;
pub const BYTES_PAST_THE_CAPACITY_COMPARED: usize = 226;
pub const SHORTER_SWAPPED: usize = 227;
pub const ALWAYS_THE_FIRST_SHORTER: usize = 228;
pub const ALWAYS_THE_SECOND_SHORTER: usize = 229;
pub const EQUAL_FOR_SHORTER: usize = 230;
pub const EQUAL_FOR_FIRST_SHORTER: usize = 231;
pub const EQUAL_FOR_SECOND_SHORTER: usize = 232;
pub const SHORTER_FOR_EQUAL: usize = 233;
pub const EMPTY_IS_EQUAL_TO_ALL: usize = 234;
pub const ELEMENT_BESIDE_SHORTER: usize = 235;
pub const LOG_NUMBERS_BEFORE_DAMAGE: usize = 236;
pub const LOG_NUMBERS_BEFORE_STATES: usize = 237;
pub const LOG_NUMBERS_AFTER_THE_RECORDS: usize = 238;
pub const LOG_NUMBERS_NOT_COMPARED: usize = 239;
pub const LOW_HALF_OF_LOG_NUMBERS: usize = 240;
pub const HIGH_HALF_OF_LOG_NUMBERS: usize = 241;
pub const FIRST_OF_LOG_NUMBERS_IGNORED: usize = 242;
pub const LOG_NUMBERS_ARE_DAMAGE: usize = 243;
pub const DIFFERENCE_BESIDE_26: usize = 244;
pub const LENGTH_BESIDE_1: usize = 245;
pub const TAKES_A_DAMAGED_FIRST: usize = 246;
pub const TAKES_A_DAMAGED_SECOND: usize = 247;
pub const STATES_OF_FIRST_NOT_READ: usize = 248;
pub const STATES_OF_SECOND_NOT_READ: usize = 249;
pub const HEADER_OF_FIRST_NOT_READ: usize = 250;
pub const HEADER_OF_SECOND_NOT_READ: usize = 251;
pub const STATES_UP_TO_AN_OPEN_ONE: usize = 252;
pub const STATES_OF_COMMON_RECORDS_ALONE: usize = 253;
pub const ONE_SOUND_STORE_IS_ENOUGH: usize = 254;
pub const COMPARES_32_KIB_AT_MOST: usize = 255;

impl Faulty {
    /// Whether the fault is one of the limit, the levels or the rows.
    fn at_the_ends() -> bool {
        (NO_FAULT_AT_THE_ENDS..=KEEPS_THE_OLD_CAPACITY).contains(&fault())
    }

    /// The copy that has such a fault.
    fn ends() -> ends::Copy {
        ends::Copy { fault: fault() }
    }
}

impl HashCalls for Faulty {
    fn hash(message: &[u8], digest: &mut Digest) -> u64 {
        let number = Second::hash(message, digest);
        match fault() {
            PADDING_AT_55_BYTES if message.len() % 64 == 55 => digest[31] ^= 1,
            HASHES_TOO_MUCH if number == 3 => return Second::hash(&message[..65_536], digest),
            MISSES_A_LAST_BIT if is_a_last_bit(message) => return Second::hash(&[0; 128], digest),
            _ => (),
        }
        number
    }
}

/// Whether a message is two blocks of zeros but for the last bit of the first.
fn is_a_last_bit(message: &[u8]) -> bool {
    message.len() == 128 && (0..128).all(|at| message[at] == u8::from(at == 63))
}

/// A store with its state bytes read otherwise.
fn read_as(store: &[u8], state: impl Fn(u8) -> u8) -> Vec<u8> {
    let mut store = store.to_vec();
    for at in (HEADER + STATE..store.len()).step_by(RECORD) {
        store[at] = state(store[at]);
    }
    store
}

impl StoreCalls for Faulty {
    fn start(store: &mut [u8], log: u64) -> u64 {
        let number = Second::start(store, log);
        match fault() {
            STARTS_PAST_CAPACITY if number == 0 && store.len() > 16 => store[store.len() - 1] = 0,
            STARTS_WITH_ZEROS if number == 0 => store.copy_from_slice(&read_as(store, |_| 0)),
            _ => (),
        }
        number
    }

    fn count(store: &[u8]) -> Answer {
        let answer = Second::count(Self::ends().read_of(store));
        match fault() {
            TAKES_ANY_STATE_BYTE if store.starts_with(b"LOT") => Answer { number: 0, ..answer },
            OPEN_IS_ZERO => Second::count(&read_as(store, |state| match state {
                0 => OPEN,
                OPEN => 0,
                _ => state,
            })),
            ZERO_IS_OPEN_TOO => {
                Second::count(&read_as(store, |state| if state == 0 { OPEN } else { state }))
            }
            _ => answer,
        }
    }

    fn append(store: &mut [u8], entry: &[u8], stop: u64) -> Answer {
        let before = Second::count(store);
        let stop = match fault() {
            CLOSES_TOO_EARLY if stop == 64 => 65,
            STOP_WRAPS if stop == u64::MAX => 0,
            SKIPS_EMPTY_ENTRIES if entry.is_empty() => 0,
            _ => stop,
        };
        let answer = Second::append(store, entry, stop);
        match fault() {
            COUNT_BESIDE_A_REFUSAL => Answer { beside: before.beside, ..answer },
            _ => answer,
        }
    }

    fn digest_at(store: &[u8], at: u64, digest: &mut Digest) -> u64 {
        let [at] = Self::ends().numbers([at], &[READS_AT_32_BITS]);
        let number = Second::digest_at(store, at, digest);
        if fault() == NO_DIGEST_AT_0 && number == 0 && at == 0 {
            *digest = [0; 32];
        }
        number
    }

    fn audit(store: &[u8]) -> Answer {
        let answer = Second::audit(store);
        match fault() {
            AUDIT_NAMES_THE_LAST if answer.number == 12 => {
                Answer { beside: Second::count(store).beside, ..answer }
            }
            _ => answer,
        }
    }
}

/// A path with its first element, whose digest is known, and the components of the others.
struct Walk<'a> {
    elements: Vec<u64>,
    known: Digest,
    components: Vec<&'a [u8]>,
}

impl<'a> Walk<'a> {
    /// The walk of a membership proof that has the length of its path.
    fn membership(i: u64, n: u64, proof: &'a [u8]) -> Walk<'a> {
        let elements = path::membership(i, n).expect("a path");
        let mut components = components(&elements, proof).expect("its length");
        let known = message::element_digest::<Sha256>(i, components.remove(0));
        Walk { elements, known, components }
    }

    /// The same of an advancement proof.
    fn advancement(held: &Held, n: u64, proof: &'a [u8]) -> Walk<'a> {
        let i = held_count(held);
        let others = path::advancement(i, n).expect("a path");
        let components = components(&others, proof).expect("its length");
        let known = held[16..48].try_into().expect("32 bytes");
        Walk { elements: [&[i][..], &others].concat(), known, components }
    }

    fn level(&self, hop: usize) -> u32 {
        (self.elements[hop + 1] - self.elements[hop]).trailing_zeros()
    }

    /// The digest before a hop, of whatever component stands there.
    fn before(&self, hop: usize) -> Digest {
        match hop {
            0 => self.known,
            _ => message::element_digest::<Sha256>(self.elements[hop], self.components[hop - 1]),
        }
    }

    /// The place of the last hop whose link differs.
    fn last_bad(&self) -> [u64; 2] {
        let bad = |hop: &usize| link(self.components[*hop], self.level(*hop)) != self.before(*hop);
        let hop = (0..self.components.len()).rev().find(bad).expect("a bad hop");
        [self.elements[hop + 1], self.level(hop).into()]
    }

    /// The highest row that differs at the first hop.
    fn highest_row(&self, held: &Held) -> u64 {
        let held_row = |row: u32| &held[48 + 32 * row as usize..][..32];
        let bad = |row: &u32| link(self.components[0], row + 1) != held_row(*row);
        let rows = self.level(0)..self.elements[1].trailing_zeros();
        rows.rev().find(bad).expect("a bad row").into()
    }
}

impl Faulty {
    /// The faults in where a proof broke.
    fn misplaced<'a>(answer: Answer, n: u64, walk: impl Fn() -> Walk<'a>) -> Answer {
        let [hops, element, level] = answer.beside;
        let hop = hops as usize;
        let [element, level] = match (fault(), answer.number) {
            (NAMES_THE_ELEMENT_LEFT, 9 | 10) => [walk().elements[hop], level],
            (LEVEL_ONE_MORE, 10) | (NAMES_THE_LINK_OF_A_ROW, 9) => [element, level + 1],
            (LEVEL_OF_THE_ELEMENT_LEFT, 10) => {
                [element, walk().elements[hop].trailing_zeros().into()]
            }
            (LEVEL_HOPPED_WITH_9, 9) => [element, walk().level(hop).into()],
            (ELEMENT_AND_LEVEL_SWAPPED, 9 | 10) => [level, element],
            (NAMES_THE_LAST_BAD_HOP, 10) => walk().last_bad(),
            (NO_PLACE_WITH_9, 9) | (NO_PLACE_WITH_10, 10) => [0, 0],
            (PLACE_WHEN_ACCEPTED, 0) | (PLACE_WITH_2, 2) | (PLACE_WITH_7, 7) => [n, 0],
            (PLACE_WITH_8, 8) | (PLACE_WITH_11, 11) => [n, 0],
            _ => return answer,
        };
        Answer { beside: [hops, element, level], ..answer }
    }
}

impl MemberCalls for Faulty {
    fn build_membership(store: &[u8], i: u64, n: u64, out: &mut [u8]) -> Answer {
        let [i, n] = Self::ends().numbers([i, n], &[BUILDS_IN_32_BITS]);
        let answer = Second::build_membership(store, i, n, out);
        if fault() == CLEARS_PAST_THE_PROOF && answer.number == 0 {
            out[answer.beside[0] as usize..].fill(0);
        }
        answer
    }

    fn check_membership(entry: &[u8], i: u64, n: u64, digest: &Digest, proof: &[u8]) -> Answer {
        if Self::at_the_ends() {
            return Self::ends().check_membership(entry, i, n, digest, proof);
        }
        let answer = Second::check_membership(entry, i, n, digest, proof);
        match (fault(), answer.number) {
            (IGNORES_A_TAIL, 7) if !proof.is_empty() => {
                let shorter = &proof[..proof.len() - 1];
                Self::check_membership(entry, i, n, digest, shorter)
            }
            (TAKES_ANY_ENTRY, 8) => Answer { number: 0, ..answer },
            (NO_HOPS_WITH_11, 11) => Answer { beside: [0; 3], ..answer },
            _ => Self::misplaced(answer, n, || Walk::membership(i, n, proof)),
        }
    }

    fn dispute(sides: [Side; 2], i: u64, n: u64, digest: &Digest, out: [&mut [u8]; 2]) -> Answer {
        let [i, n] = Self::ends().numbers([i, n], &[DISPUTES_IN_32_BITS]);
        let answer = Second::dispute(sides, i, n, digest, out);
        match fault() {
            NAMES_THE_SECOND_PROOF if answer.number == 13 => Answer { beside: [2, 0, 0], ..answer },
            PLACE_WITH_13 if answer.number == 13 => {
                let which = answer.beside[0];
                let Side { entry, proof } = sides[which as usize - 1];
                let [_, element, level] =
                    Second::check_membership(entry, i, n, digest, proof).beside;
                Answer { beside: [which, element, level], ..answer }
            }
            _ => answer,
        }
    }

    fn differing(first: &[u8], second: &[u8], i: u64, n: u64) -> Answer {
        let [i, n] = Self::ends().numbers([i, n], &[DIFFERING_IN_32_BITS]);
        let answer = Second::differing(first, second, i, n);
        match fault() {
            DIFFERING_NEAREST_I if answer.beside[1] > 0 => {
                Answer { beside: [0, answer.beside[1], 0], ..answer }
            }
            _ => answer,
        }
    }
}

impl AdvanceCalls for Faulty {
    fn held_at(store: &[u8], at: u64, held: &mut Held) -> u64 {
        let [at] = Self::ends().numbers([at], &[READS_AT_32_BITS]);
        let number = Second::held_at(store, at, held);
        if fault() == FORGETS_THE_TOP_ROW && number == 0 && at > 0 {
            let top = 63 - at.leading_zeros() as usize;
            held[48 + 32 * top..][..32].fill(0);
        }
        number
    }

    fn held_start(log: u64, held: &mut Held) -> u64 {
        Second::held_start(log, held)
    }

    fn build_advancement(store: &[u8], i: u64, n: u64, out: &mut [u8]) -> Answer {
        let [i, n] = Self::ends().numbers([i, n], &[BUILDS_IN_32_BITS]);
        let first = if fault() == ADVANCES_ONLY_FROM_1 && n > 0 { i.max(1) } else { i };
        Second::build_advancement(store, first, n, out)
    }

    fn check_advancement(held: &mut Held, n: u64, digest: &Digest, proof: &[u8]) -> Answer {
        if Self::at_the_ends() {
            return Self::ends().check_advancement(held, n, digest, proof);
        }
        let answer = Second::check_advancement(held, n, digest, proof);
        match (fault(), answer.number) {
            (NEVER_CHECKS_ROWS, 9) => return Answer { number: 0, ..answer },
            (KEEPS_A_REFUSED_DIGEST, 11) => held[16..48].copy_from_slice(digest),
            (NAMES_THE_HIGHEST_ROW, 9) if answer.beside[0] == 0 => {
                let row = Walk::advancement(held, n, proof).highest_row(held);
                return Answer { beside: [0, answer.beside[1], row], ..answer };
            }
            _ => (),
        }
        Self::misplaced(answer, n, || Walk::advancement(held, n, proof))
    }
}

/// The 32-byte parts of a list or a proof; what is left over is not among them.
fn parts(bytes: &[u8]) -> Vec<Digest> {
    bytes.chunks_exact(32).map(|part| part.try_into().expect("32 bytes")).collect()
}

/// The count of a held state, which stands behind the log number.
fn held_count(held: &Held) -> u64 {
    u64::from_be_bytes(held[8..16].try_into().expect("8 bytes"))
}

/// Whether a held state would be in order with a change.
fn would_be_in_order(held: &Held, change: impl Fn(&mut Held)) -> bool {
    let mut other = *held;
    change(&mut other);
    Second::held_write(&other, &mut [0; FILE_MOST]).number == 0
}

/// Gives a held state T(0) of its log as its digest.
fn set_start(held: &mut Held) {
    let log = u64::from_be_bytes(held[..8].try_into().expect("8 bytes"));
    held[16..48].copy_from_slice(&message::start_digest::<Sha256>(log));
}

/// Writes a file to an output.
fn put(file: &[u8], out: &mut [u8]) -> Answer {
    if out.len() < file.len() {
        return Answer { number: 6, beside: [0; 3] };
    }
    out[..file.len()].copy_from_slice(file);
    Answer { number: 0, beside: [file.len() as u64, 0, 0] }
}

/// A file with other bytes at a place, as far as it has bytes there.
fn with_bytes(file: &[u8], at: usize, bytes: &[u8]) -> Vec<u8> {
    let mut other = file.to_vec();
    other.iter_mut().skip(at).zip(bytes).for_each(|(byte, new)| *byte = *new);
    other
}

/// The number that a file is read with.
fn number_of(file: &[u8]) -> u64 {
    Second::held_read(file, &mut [0; HELD_BYTES])
}

/// The length that the count of a file asks for. The file has its 53 bytes.
fn length_asked(file: &[u8]) -> usize {
    file_length(u64::from_be_bytes(file[13..21].try_into().expect("8 bytes")))
}

impl Faulty {
    /// The file of a held state, in order or not, with the faults in its form.
    fn file(held: &Held) -> Vec<u8> {
        let in_use = |row: usize| held_count(held) >> row & 1 == 1;
        let has = |row: usize, bytes: &[u8]| match fault() {
            ALL_ROWS_WRITTEN => true,
            ROW_BY_ITS_CONTENTS => bytes != [0; 32],
            LAST_ROW_LEFT_OUT => in_use(row) && row < ROWS - 1,
            _ => in_use(row),
        };
        let rows = held[48..].chunks(32).enumerate().filter(|(row, bytes)| has(*row, bytes));
        let mut rows: Vec<&[u8]> = rows.map(|(_, bytes)| bytes).collect();
        if fault() == ROWS_HIGHEST_FIRST {
            rows.reverse();
        }
        let mut file = [b"HLD\x00\x01", &held[..48], &rows.concat()].concat();
        if fault() == COUNT_LITTLE_ENDIAN {
            file[13..21].reverse();
        }
        file
    }

    /// Whether a state that is not in order is written all the same.
    fn takes_state(held: &Held) -> bool {
        match fault() {
            WRITES_ANY_STATE => true,
            WRITES_OVER_THE_LIMIT => held_count(held) > LIMIT,
            WRITES_ANY_LAST_ROW => {
                would_be_in_order(held, |other| other[HELD_BYTES - 32..].fill(0))
            }
            WRITES_ANY_START => would_be_in_order(held, set_start),
            _ => false,
        }
    }

    /// The file that a fault takes a file for, which has this number.
    fn taken_for(file: &[u8], number: u64) -> Option<Vec<u8>> {
        Some(match (fault(), number) {
            (ROWS_HIGHEST_FIRST, 0) => {
                let mut rows = parts(&file[FILE_LEAST..]);
                rows.reverse();
                [&file[..FILE_LEAST], &rows.concat()].concat()
            }
            (COUNT_LITTLE_ENDIAN, 0 | 21 | 22) => {
                let turned: Vec<u8> = file[13..21].iter().rev().copied().collect();
                with_bytes(file, 13, &turned)
            }
            (MARK_NOT_COMPARED, 19) => with_bytes(file, 0, b"HLD"),
            (LAST_OF_THE_MARK_NOT_COMPARED, 19) => with_bytes(file, 2, b"D"),
            (TAKES_VERSION_2, 20) if file[3..5] == [0, 2] => with_bytes(file, 4, &[1]),
            (FIRST_OF_THE_VERSION_IGNORED, 20) => with_bytes(file, 3, &[0]),
            (COUNT_OF_32_BITS, 21) => with_bytes(file, 13, &[0; 4]),
            (TAIL_OF_A_FILE_IGNORED, 22) if file.len() > length_asked(file) => {
                file[..length_asked(file)].to_vec()
            }
            (MISSING_ROWS_ARE_ZERO, 22) if file.len() < length_asked(file) => {
                [file, &vec![0; length_asked(file) - file.len()]].concat()
            }
            _ => return None,
        })
    }

    /// The number that a fault gives for a file which has this one.
    fn number_for(file: &[u8], number: u64) -> u64 {
        let marked = with_bytes(file, 0, b"HLD");
        let versioned = with_bytes(file, 3, &[0, 1]);
        let row_of_zeros = || parts(&file[FILE_LEAST..]).contains(&[0; 32]);
        match (fault(), number) {
            (NEEDS_54_BYTES, 0) if file.len() == FILE_LEAST => 18,
            (MARK_BEFORE_53_BYTES, 18) if !file.starts_with(b"HLD") => 19,
            (VERSION_BEFORE_THE_MARK, 19) if number_of(&marked) == 20 => 20,
            (COUNT_BEFORE_THE_VERSION, 20) if number_of(&versioned) == 21 => 21,
            (LIMIT_IS_OVER, 0) if file[13..21] == LIMIT.to_be_bytes() => 21,
            (LENGTH_BEFORE_53_BYTES, 18) | (NO_LIMIT_OF_THE_COUNT, 21) => 22,
            (LENGTH_BEFORE_THE_COUNT, 21) if file.len() != length_asked(file) => 22,
            (START_BEFORE_THE_LENGTH, 22) if number_of(&file[..FILE_LEAST]) == 2 => 2,
            (REFUSES_A_DIGEST_OF_ZEROS, 0) if file[21..FILE_LEAST] == [0; 32] => 2,
            (REFUSES_A_ROW_OF_ZEROS, 0) if row_of_zeros() => 2,
            _ => number,
        }
    }
}

impl SavedCalls for Faulty {
    fn held_write(held: &Held, out: &mut [u8]) -> Answer {
        if Self::at_the_ends() {
            return Self::ends().held_write(held, out);
        }
        let answer = Second::held_write(held, out);
        let need = file_length(held_count(held));
        match (fault(), answer.number) {
            (ROWS_HIGHEST_FIRST | ALL_ROWS_WRITTEN | ROW_BY_ITS_CONTENTS, 0)
            | (LAST_ROW_LEFT_OUT | COUNT_LITTLE_ENDIAN, 0) => put(&Self::file(held), out),
            (CLEARS_BEHIND_THE_FILE, 0) => {
                out[need..].fill(0);
                answer
            }
            (_, 2) if Self::takes_state(held) => put(&Self::file(held), out),
            (ROOM_BEFORE_THE_STATE, 2) if out.len() < need => Answer { number: 6, ..answer },
            (LENGTH_BESIDE_6, 6) => Answer { beside: [need as u64, 0, 0], ..answer },
            (WRITES_A_PART, 6) => {
                out.copy_from_slice(&Self::file(held)[..out.len()]);
                answer
            }
            _ => answer,
        }
    }

    fn held_read(file: &[u8], held: &mut Held) -> u64 {
        if Self::at_the_ends() {
            return Self::ends().held_read(file, held);
        }
        let mut state = *held;
        let number = Second::held_read(file, &mut state);
        if let Some(other) = Self::taken_for(file, number) {
            return Second::held_read(&other, held);
        }
        match (fault(), number) {
            (READS_ANY_START, 2) => {
                state = [0; HELD_BYTES];
                state[..48].copy_from_slice(&file[5..FILE_LEAST]);
                *held = state;
                return 0;
            }
            (REFUSED_FILE_CLEARS, 1..) => *held = [0; HELD_BYTES],
            (KEEPS_FREE_ROWS, 0) => {
                let count = held_count(&state);
                for row in (0..ROWS).filter(|row| count >> row & 1 == 0) {
                    let place = 48 + 32 * row..80 + 32 * row;
                    state[place.clone()].copy_from_slice(&held[place]);
                }
            }
            _ => (),
        }
        let given = Self::number_for(file, number);
        if given == 0 {
            *held = state;
        }
        given
    }
}

/// A presence proof checked by other turns at the inner nodes: those of another handle.
fn checked_along(way: impl Fn(Digest) -> Digest, key: &[u8], root: &Digest, proof: &[u8]) -> u64 {
    let mut handle = [0; 32];
    Second::handle(key, &mut handle);
    let leaf = Sha256::of(&message::leaf(&handle));
    let reached = climbed::<Sha256>(&way(handle), leaf, &parts(proof));
    if reached == *root {
        0
    } else {
        17
    }
}

impl Faulty {
    /// The faults in proving either kind.
    fn proved(answer: Answer, handles: &[u8], out: &mut [u8]) -> Answer {
        match (fault(), answer.number) {
            (ROOM_BEFORE_THE_KIND, 15) if out.is_empty() => return Answer { number: 6, ..answer },
            (LIST_BEFORE_THE_KEY, 3) if handles.len() % 32 != 0 => {
                return Answer { number: 14, ..answer }
            }
            (WRITES_WHAT_FITS, 6) => out.fill(0),
            (SIBLINGS_FROM_THE_LEAF, 0) => {
                let proof = &mut out[..answer.beside[0] as usize];
                let mut siblings = parts(proof);
                siblings.reverse();
                proof.copy_from_slice(&siblings.concat());
            }
            _ => (),
        }
        answer
    }
}

impl TrieCalls for Faulty {
    fn handle(key: &[u8], handle: &mut Digest) -> u64 {
        if fault() == HASHES_A_LONG_KEY && key.len() == ENTRY_MOST + 1 {
            *handle = Sha256::of(&message::key(key));
            return 0;
        }
        Second::handle(key, handle)
    }

    fn trie_root(handles: &[u8], root: &mut Digest) -> u64 {
        let mut list = parts(handles);
        match fault() {
            TAKES_A_REPEATED_HANDLE if handles.len() % 32 == 0 => list.dedup(),
            SORTS_THE_LIST if handles.len() % 32 == 0 => list.sort_unstable(),
            TAKES_1001_HANDLES if list.len() == 1001 => list.truncate(1000),
            TAKES_A_BROKEN_HANDLE => (),
            _ => return Second::trie_root(handles, root),
        }
        Second::trie_root(&list.concat(), root)
    }

    fn prove_presence(handles: &[u8], key: &[u8], out: &mut [u8]) -> Answer {
        Self::proved(Second::prove_presence(handles, key, out), handles, out)
    }

    fn prove_absence(handles: &[u8], key: &[u8], out: &mut [u8]) -> Answer {
        let answer = Second::prove_absence(handles, key, out);
        let end = answer.beside[0] as usize;
        match (fault(), answer.number) {
            (BUILDS_A_FALSE_ABSENCE, 15) => Second::prove_presence(handles, key, out),
            (ABSENCE_ONE_TOO_LONG, 0) if out.len() >= end + 32 => {
                out[end..end + 32].fill(0);
                Answer { beside: [answer.beside[0] + 32, 0, 0], ..answer }
            }
            _ => Self::proved(answer, handles, out),
        }
    }

    fn check_presence(key: &[u8], root: &Digest, proof: &[u8]) -> u64 {
        let number = Second::check_presence(key, root, proof);
        match (fault(), number) {
            (LAST_BIT_FIRST, 0 | 17) => {
                checked_along(|handle| handle.map(u8::reverse_bits), key, root, proof)
            }
            (SIDES_SWAPPED, 0 | 17) => {
                checked_along(|handle| handle.map(|byte| !byte), key, root, proof)
            }
            (TAIL_OF_SIBLINGS_IGNORED, 16) if proof.len() > 8192 => {
                Second::check_presence(key, root, &proof[..8192])
            }
            _ => number,
        }
    }

    fn check_absence(key: &[u8], root: &Digest, proof: &[u8]) -> u64 {
        let number = Second::check_absence(key, root, proof);
        match fault() {
            TAKES_ANY_ROOT if number == 17 => 0,
            ABSENCE_NEEDS_A_SIBLING if number != 3 && proof.is_empty() => 16,
            PART_OF_A_SIBLING_IGNORED => Second::check_absence(key, root, &parts(proof).concat()),
            TWO_EMPTY_SIDES_STAY_EMPTY if number != 16 => {
                let mut siblings = parts(proof);
                while siblings.last() == Some(&[0; 32]) {
                    siblings.pop();
                }
                Second::check_absence(key, root, &siblings.concat())
            }
            _ => number,
        }
    }

    fn trie_clash(
        key: &[u8],
        root: &Digest,
        presence: &[u8],
        absence: &[u8],
        out: [&mut [u8]; 2],
    ) -> Answer {
        let answer = Second::trie_clash(key, root, presence, absence, out);
        match (fault(), answer.number) {
            (NAMES_THE_ABSENCE, 13) => Answer { beside: [2, 0, 0], ..answer },
            (PROOFS_BEFORE_THE_BUFFERS, 6) => {
                let (mut first, mut second) = ([0; 65], [0; 65]);
                Second::trie_clash(key, root, presence, absence, [&mut first, &mut second])
            }
            _ => answer,
        }
    }
}
