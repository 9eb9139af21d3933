//! The faults of comparing two stores. They lie in so many parts that the call is written out here, as a
//! scan of the elements with a scan of their bytes inside it; with no fault it must not be noticed
//! either.
//!
//! That a state byte is compared with the 64 before it is no fault that can be seen: in what both stores
//! have, each of them is 1, or the store is damaged.

use super::*;

/// What is read of one store.
struct Side<'a> {
    bytes: &'a [u8],
    log: u64,
    count: u64,
}

/// Which of the two stores it is.
#[derive(Clone, Copy, PartialEq, Eq)]
enum Which {
    First,
    Second,
}

/// The faults of one store alone: that of the first, or that of the second.
fn is_fault_of(which: Which, first: usize, second: usize) -> bool {
    fault() == if which == Which::First { first } else { second }
}

impl Side<'_> {
    /// The byte of an element, within its 64; beyond the store there is none.
    fn byte(&self, element: u64, at: usize) -> Option<u8> {
        let record = if fault() == RECORDS_OF_64 { 64 } else { RECORD };
        self.bytes.get(HEADER + record * (element as usize - 1) + at).copied()
    }

    /// How many elements there are, for whoever asks which store is shorter.
    fn length(&self) -> u64 {
        match fault() {
            CAPACITIES_FOR_LENGTHS => capacity(self.bytes),
            BYTES_FOR_LENGTHS => self.bytes.len() as u64,
            _ => self.count,
        }
    }

    /// What lies past the last whole record.
    fn past(&self) -> &[u8] {
        &self.bytes[HEADER + RECORD * capacity(self.bytes) as usize..]
    }
}

/// The whole records of a store, of however few bytes.
fn capacity(store: &[u8]) -> u64 {
    (store.len().saturating_sub(HEADER) / RECORD) as u64
}

/// The log number of a store, if it has as many bytes.
fn log_number(store: &[u8]) -> Option<u64> {
    store.get(8..HEADER).map(|bytes| u64::from_be_bytes(bytes.try_into().expect("8 bytes")))
}

impl Faulty {
    /// Whether a header is taken.
    fn takes_header(store: &[u8], which: Which) -> bool {
        let any = is_fault_of(which, HEADER_OF_FIRST_NOT_READ, HEADER_OF_SECOND_NOT_READ);
        store.len() >= HEADER && (any || store[..8] == *b"LOT\x00\x01\x00\x00\x00")
    }

    /// The closed records that stand first, and whether all state bytes of the first so many records are
    /// in order. The fault of reading 0 as open is that of the other calls.
    fn states(store: &[u8], records: u64) -> (u64, bool) {
        let state = |j: u64| match (fault(), store[HEADER + RECORD * (j as usize - 1) + STATE]) {
            (OPEN_IS_ZERO | ZERO_IS_OPEN_TOO, 0) => OPEN,
            (OPEN_IS_ZERO, OPEN) => 0,
            (_, state) => state,
        };
        let count =
            (1..=capacity(store)).find(|j| state(*j) != 1).map_or(capacity(store), |j| j - 1);
        let rest = match fault() {
            // the one that ends the count is looked at, and no other
            STATES_UP_TO_AN_OPEN_ONE => count + 1..=records.min(count + 1),
            _ => count + 1..=records,
        };
        (count, rest.into_iter().all(|j| state(j) == OPEN))
    }

    /// A store as it is read, if it is taken.
    fn side<'a>(store: &'a [u8], which: Which, other: &[u8]) -> Option<Side<'a>> {
        let records = match fault() {
            STATES_OF_COMMON_RECORDS_ALONE => capacity(store).min(capacity(other)),
            _ => capacity(store),
        };
        let (count, in_order) = Self::states(store, records);
        let unread = is_fault_of(which, STATES_OF_FIRST_NOT_READ, STATES_OF_SECOND_NOT_READ);
        if Self::takes_header(store, which) && (in_order || unread) {
            return Some(Side { bytes: store, log: log_number(store)?, count });
        }
        let log = log_number(store).or_else(|| log_number(other)).unwrap_or(0);
        is_fault_of(which, TAKES_A_DAMAGED_FIRST, TAKES_A_DAMAGED_SECOND).then(|| Side {
            bytes: store,
            log,
            count,
        })
    }

    /// Whether the log numbers are taken for the same.
    fn same_log(one: u64, other: u64) -> bool {
        match fault() {
            LOG_NUMBERS_NOT_COMPARED => true,
            LOW_HALF_OF_LOG_NUMBERS => one as u32 == other as u32,
            HIGH_HALF_OF_LOG_NUMBERS => one >> 32 == other >> 32,
            FIRST_OF_LOG_NUMBERS_IGNORED => one << 8 == other << 8,
            _ => one == other,
        }
    }

    /// Whether a byte of both is taken for different. What only one of them has is no difference.
    fn differs(one: &Side, other: &Side, element: u64, at: usize) -> bool {
        match (one.byte(element, at), other.byte(element, at)) {
            (Some(ours), Some(theirs)) => match fault() {
                HIGH_BIT_NOT_COMPARED => (ours ^ theirs) & 0x7F != 0,
                GREATER_BYTES_ALONE => ours > theirs,
                _ => ours != theirs,
            },
            _ => false,
        }
    }

    /// The elements that are compared.
    fn compared(one: &Side, other: &Side) -> std::ops::RangeInclusive<u64> {
        let common = one.count.min(other.count);
        let room = capacity(one.bytes).min(capacity(other.bytes));
        match fault() {
            ALL_RECORDS_COMPARED => 1..=room,
            RECORDS_OF_THE_LONGER_COMPARED => 1..=room.min(one.count.max(other.count)),
            ONE_RECORD_MORE_COMPARED => 1..=room.min(common + 1),
            LAST_COMMON_ELEMENT_LEFT_OUT => 1..=common.max(1) - 1,
            FIRST_ELEMENT_LEFT_OUT => 2..=common,
            FIRST_32_ELEMENTS_ALONE => 1..=common.min(32),
            LENGTHS_BEFORE_BYTES if one.count != other.count => 1..=0,
            _ => 1..=common,
        }
    }

    /// Where the two scans are left: the element, and the byte within its 64.
    fn place_left(one: &Side, other: &Side) -> Option<(u64, usize)> {
        let bytes = match fault() {
            ONLY_D_COMPARED => 0..32,
            ONLY_T_COMPARED => 32..64,
            BYTE_0_NOT_COMPARED => 1..64,
            BYTE_63_NOT_COMPARED => 0..63,
            _ => 0..64,
        };
        let mut left: Option<(u64, usize)> = None;
        'elements: for element in Self::compared(one, other) {
            for at in bytes.clone() {
                if !Self::differs(one, other, element, at) {
                    continue;
                }
                match fault() {
                    // the inner scan alone is left
                    LAST_ELEMENT_THAT_DIFFERS => {
                        left = Some((element, at));
                        break;
                    }
                    // the outer one alone is left, when the inner is through
                    LAST_BYTE_THAT_DIFFERS => {
                        if left.map_or(true, |(first, _)| first == element) {
                            left = Some((element, at));
                        }
                    }
                    LAST_OF_ALL_DIFFERENCES => left = Some((element, at)),
                    LOWEST_BYTE_OF_ANY_ELEMENT => {
                        if left.map_or(true, |(_, lowest)| at < lowest) {
                            left = Some((element, at));
                        }
                    }
                    _ => {
                        left = Some((element, at));
                        break 'elements;
                    }
                }
            }
        }
        left
    }

    /// The numbers that say where two stores differ.
    fn told(element: u64, at: usize) -> [u64; 3] {
        let byte = at as u64;
        let element = match fault() {
            ELEMENT_FROM_0 => element - 1,
            ELEMENT_OF_8_BITS => u64::from(element as u8),
            ELEMENT_OF_16_BITS => u64::from(element as u16),
            _ => element,
        };
        match fault() {
            BYTE_FROM_1 => [3, element, byte + 1],
            BYTE_FROM_T => [3, element, byte % 32],
            BYTE_OF_THE_STORE => [3, element, 16 + 65 * (element - 1) + byte],
            ELEMENT_AND_BYTE_SWAPPED => [3, byte, element],
            DIFFER_WITHOUT_ITS_3 => [0, element, byte],
            _ => [3, element, byte],
        }
    }

    /// What is said of two stores that do not differ in what is compared.
    fn by_length(one: &Side, other: &Side) -> [u64; 3] {
        use std::cmp::Ordering::{Equal, Greater, Less};
        let order = one.length().cmp(&other.length());
        let goes_on =
            if fault() == ELEMENT_BESIDE_SHORTER { one.count.min(other.count) + 1 } else { 0 };
        let is_empty = one.count == 0 || other.count == 0;
        let kind = match (fault(), order) {
            (BYTES_PAST_THE_CAPACITY_COMPARED, Equal) if one.past() < other.past() => 1,
            (BYTES_PAST_THE_CAPACITY_COMPARED, Equal) if one.past() > other.past() => 2,
            (SHORTER_FOR_EQUAL, Equal) => 1,
            (_, Equal) | (EQUAL_FOR_SHORTER, _) => 0,
            (EQUAL_FOR_FIRST_SHORTER, Less) | (EQUAL_FOR_SECOND_SHORTER, Greater) => 0,
            (EMPTY_IS_EQUAL_TO_ALL, _) if is_empty => 0,
            (SHORTER_SWAPPED, Less) | (ALWAYS_THE_SECOND_SHORTER, _) => 2,
            (SHORTER_SWAPPED, Greater) | (ALWAYS_THE_FIRST_SHORTER, _) => 1,
            (_, Less) => 1,
            (_, Greater) => 2,
        };
        [kind, if kind == 0 { 0 } else { goes_on }, 0]
    }

    /// The log numbers of two stores of which one may be damaged, where a fault compares them first.
    fn other_log_first(first: &[u8], second: &[u8]) -> bool {
        let headers =
            Self::takes_header(first, Which::First) && Self::takes_header(second, Which::Second);
        let asked = match fault() {
            LOG_NUMBERS_BEFORE_DAMAGE => true,
            LOG_NUMBERS_BEFORE_STATES => headers,
            _ => false,
        };
        match (log_number(first), log_number(second)) {
            (Some(one), Some(other)) => asked && one != other,
            _ => false,
        }
    }
}

impl CopyCalls for Faulty {
    fn compare(first: &[u8], second: &[u8]) -> Answer {
        let refused = |number| Answer { number, beside: [0; 3] };
        if fault() == COMPARES_32_KIB_AT_MOST && first.len().max(second.len()) > 32_768 {
            return refused(1);
        }
        if Self::other_log_first(first, second) {
            return refused(26);
        }
        let sides =
            [Self::side(first, Which::First, second), Self::side(second, Which::Second, first)];
        let [one, other] = match sides {
            [Some(one), Some(other)] => [one, other],
            // the sound one stands for both
            [None, Some(_)] if fault() == ONE_SOUND_STORE_IS_ENOUGH => {
                return Self::compare(second, second)
            }
            [Some(_), None] if fault() == ONE_SOUND_STORE_IS_ENOUGH => {
                return Self::compare(first, first)
            }
            _ if fault() == LENGTH_BESIDE_1 => return Answer { number: 1, beside: [1, 0, 0] },
            _ => return refused(1),
        };
        let beside = match Self::place_left(&one, &other) {
            Some((element, at)) => Self::told(element, at),
            None => Self::by_length(&one, &other),
        };
        let same_log = Self::same_log(one.log, other.log);
        match fault() {
            _ if same_log => Answer { number: 0, beside },
            LOG_NUMBERS_AFTER_THE_RECORDS if beside[0] == 3 => Answer { number: 0, beside },
            LOG_NUMBERS_ARE_DAMAGE => refused(1),
            DIFFERENCE_BESIDE_26 => Answer { number: 26, beside },
            _ => refused(26),
        }
    }
}
