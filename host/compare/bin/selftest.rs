//! The harness's own test: a copy of the second program agrees with it in every group, and each
//! faulty copy is noticed by its group.

use std::panic;

use compare::both::{Both, BothAdvance, BothMember};
use compare::faulty::{self, Faulty};
use compare::{advance, copies, ends, hash, member, places};
use compare::{saved, sealed, store, trie, whole, Scale};
use lotlog::{Answer, Place};

const SEED: u64 = 4;
const CALLS: u64 = 20_000;

/// Runs each group on one fault, and collects the names of the faults that no group noticed.
macro_rules! unnoticed {
    ($($group:ident: $($fault:ident)*;)*) => {
        [$($((stringify!($fault), noticed(|| {
            faulty::set(faulty::$fault);
            $group::run(&mut Both::<Faulty>::default(), Scale::Small)
        })),)*)*]
        .iter().filter(|(_, noticed)| !noticed).map(|(fault, _)| *fault).collect::<Vec<_>>()
    };
}

fn noticed(run: impl FnOnce() + panic::UnwindSafe) -> bool {
    panic::catch_unwind(run).is_err()
}

/// The words for an answer say where a proof broke, and for no other number a place.
fn words() {
    let answer = |number, beside| Answer { number, beside };
    let place = Some(Place { element: 8, level: 1 });
    for (answer, place, words) in [
        (answer(9, [0, 8, 1]), place, "basis row differs at element 8, row 1"),
        (answer(10, [1, 8, 1]), place, "link differs at element 8, level 1"),
        (answer(11, [3, 0, 0]), None, "last digest differs"),
        (answer(13, [1, 0, 0]), None, "proof not accepted"),
        (answer(26, [0, 0, 0]), None, "log numbers differ"),
        (answer(0, [3, 12, 63]), None, "done"),
        (answer(0, [3, 0, 0]), None, "done"),
    ] {
        assert_eq!((answer.place(), answer.meaning().as_str()), (place, words));
    }
}

/// A copy with no fault agrees with the second program in every group.
fn agreed() -> Both<Faulty> {
    faulty::set(faulty::NO_FAULT);
    let mut both = Both::default();
    hash::run(&mut both, Scale::Small);
    store::run(&mut both, Scale::Small);
    member::run(&mut both, Scale::Small);
    advance::run(&mut both, Scale::Small);
    saved::run(&mut both, Scale::Small);
    ends::run(&mut both, Scale::Small);
    trie::run(&mut both, Scale::Small);
    sealed::run(&mut both, Scale::Small);
    copies::run(&mut both, Scale::Small);
    whole::run(&mut both, SEED, CALLS);
    told_of_members::run(&mut both, Scale::Small);
    told_of_steps::run(&mut both, Scale::Small);
    told_of_ends::run(&mut both, Scale::Small);
    written_out();
    both
}

/// So does the one whose checkers are written out.
fn written_out() {
    faulty::set(faulty::NO_FAULT_AT_THE_ENDS);
    let mut both = Both::<Faulty>::default();
    member::run(&mut both, Scale::Small);
    advance::run(&mut both, Scale::Small);
    saved::run(&mut both, Scale::Small);
    ends::run(&mut both, Scale::Small);
}

/// The faults of proofs, and of where they broke, that are not noticed.
fn unnoticed_of_proofs() -> Vec<&'static str> {
    unnoticed! {
        member: CLEARS_PAST_THE_PROOF IGNORES_A_TAIL TAKES_ANY_ENTRY NO_HOPS_WITH_11
            NAMES_THE_SECOND_PROOF DIFFERING_NEAREST_I NAMES_THE_ELEMENT_LEFT LEVEL_ONE_MORE
            LEVEL_OF_THE_ELEMENT_LEFT ELEMENT_AND_LEVEL_SWAPPED NAMES_THE_LAST_BAD_HOP
            NO_PLACE_WITH_10 PLACE_WHEN_ACCEPTED PLACE_WITH_7 PLACE_WITH_8 PLACE_WITH_11
            PLACE_WITH_13;
        advance: FORGETS_THE_TOP_ROW NEVER_CHECKS_ROWS KEEPS_A_REFUSED_DIGEST ADVANCES_ONLY_FROM_1
            NAMES_THE_ELEMENT_LEFT LEVEL_ONE_MORE LEVEL_OF_THE_ELEMENT_LEFT NAMES_THE_LINK_OF_A_ROW
            LEVEL_HOPPED_WITH_9 NAMES_THE_HIGHEST_ROW ELEMENT_AND_LEVEL_SWAPPED
            NAMES_THE_LAST_BAD_HOP NO_PLACE_WITH_9 NO_PLACE_WITH_10 PLACE_WHEN_ACCEPTED
            PLACE_WITH_2 PLACE_WITH_7 PLACE_WITH_11;
        told_of_members: NO_HOPS_WITH_11 NAMES_THE_SECOND_PROOF NAMES_THE_ELEMENT_LEFT
            LEVEL_ONE_MORE LEVEL_OF_THE_ELEMENT_LEFT ELEMENT_AND_LEVEL_SWAPPED
            NAMES_THE_LAST_BAD_HOP NO_PLACE_WITH_10 PLACE_WHEN_ACCEPTED PLACE_WITH_7 PLACE_WITH_8
            PLACE_WITH_11 PLACE_WITH_13;
        told_of_steps: NEVER_CHECKS_ROWS KEEPS_A_REFUSED_DIGEST NAMES_THE_ELEMENT_LEFT
            LEVEL_ONE_MORE LEVEL_OF_THE_ELEMENT_LEFT NAMES_THE_LINK_OF_A_ROW LEVEL_HOPPED_WITH_9
            NAMES_THE_HIGHEST_ROW ELEMENT_AND_LEVEL_SWAPPED NAMES_THE_LAST_BAD_HOP NO_PLACE_WITH_9
            NO_PLACE_WITH_10 PLACE_WHEN_ACCEPTED PLACE_WITH_2 PLACE_WITH_7 PLACE_WITH_11;
    }
}

/// Runs a group on each fault of the vans' logs.
macro_rules! unnoticed_of_sealed {
    ($group:ident) => {
        unnoticed! {
            $group: HASHES_A_KEY_OF_64 LEAVES_A_KEY_OF_65 KEY_FILLED_IN_FRONT PADS_SWAPPED
                INNER_HASH_ALONE KEY_MOST_ONE_LESS KEY_MOST_ONE_MORE MESSAGE_MOST_ONE_LESS
                MESSAGE_MOST_ONE_MORE MESSAGE_OF_ANY_LENGTH REFUSED_MAC_IS_ZEROS OLD_KEY_KEPT
                LAST_OF_THE_OLD_KEY_STAYS CLOSING_LEAVES_A_KEY SEAL_OVER_THE_DATA
                SEAL_UNDER_THE_NEXT_KEY CHAIN_WITHOUT_THE_TYPE CHAIN_WITHOUT_ITS_06
                TYPE_TURNED_IN_THE_CHAIN TYPE_LITTLE_ENDIAN LENGTH_LITTLE_ENDIAN
                INCREMENTS_WITH_ANOTHER_TEXT TEXT_BEHIND_THE_KEY CLOSES_WITHOUT_DATA_ALONE
                CLOSES_BY_THE_LAST_BYTE CLOSES_BY_TWO_BYTES CLOSES_FROM_THE_OTHER_END ADDS_4095_AT_MOST
                ADDS_4097 TAKES_A_KEY_OF_31 TAKES_A_KEY_OF_33 ROOM_OF_ONE_LESS ROOM_OF_ONE_MORE
                ROOM_BEFORE_THE_DATA CLOSED_BEFORE_THE_ROOM ADDS_UNDER_ZEROS CLOSED_BY_31_ZEROS
                CHAIN_NOT_MOVED CHAIN_MOVED_ON_A_REFUSAL KEY_MOVED_ON_A_REFUSAL WRITES_ON_A_REFUSAL
                CLEARS_BEHIND_THE_ENTRY LENGTH_BESIDE_A_REFUSAL NEEDS_NO_CLOSE TAKES_AN_EMPTY_LOG
                NUMBER_BESIDE_25 CLOSE_BEFORE_THE_ENTRIES NAMES_THE_ENTRY_BEFORE NAMES_THE_ENTRY_AFTER
                NAMES_THE_LAST_ENTRY STRAY_BYTES_IGNORED STOPS_AT_THE_CLOSE TAKES_ENTRIES_AFTER_A_CLOSE
                CHECKS_4095_AT_MOST CHECKS_4097 CHECKS_ANY_LENGTH REFUSES_A_FIRST_KEY_OF_ZEROS
                LAST_OF_THE_SEAL_NOT_COMPARED PART_OF_A_SEAL_TAKEN PART_OF_A_HEAD_IGNORED
                LAST_SEAL_ALONE SHAPE_BEFORE_THE_SEALS OFFICE_KEEPS_THE_KEY COUNTS_WITHOUT_THE_CLOSE;
        }
    };
}

/// The faults of the vans' logs that are not noticed.
fn unnoticed_of_sealed() -> Vec<&'static str> {
    [unnoticed_of_sealed!(sealed), unnoticed_of_sealed!(told_of_seals)].concat()
}

/// Runs a group on each fault of comparing two stores.
macro_rules! unnoticed_of_copies {
    ($group:ident) => {
        unnoticed! {
            $group: LENGTHS_BEFORE_BYTES ONLY_D_COMPARED ONLY_T_COMPARED BYTE_0_NOT_COMPARED
                BYTE_63_NOT_COMPARED HIGH_BIT_NOT_COMPARED GREATER_BYTES_ALONE BYTE_FROM_1
                BYTE_FROM_T BYTE_OF_THE_STORE ELEMENT_FROM_0 ELEMENT_AND_BYTE_SWAPPED
                DIFFER_WITHOUT_ITS_3 LAST_ELEMENT_THAT_DIFFERS LAST_BYTE_THAT_DIFFERS
                LAST_OF_ALL_DIFFERENCES LOWEST_BYTE_OF_ANY_ELEMENT LAST_COMMON_ELEMENT_LEFT_OUT
                FIRST_ELEMENT_LEFT_OUT FIRST_32_ELEMENTS_ALONE ELEMENT_OF_8_BITS ELEMENT_OF_16_BITS
                RECORDS_OF_64 ALL_RECORDS_COMPARED RECORDS_OF_THE_LONGER_COMPARED
                ONE_RECORD_MORE_COMPARED CAPACITIES_FOR_LENGTHS BYTES_FOR_LENGTHS
                BYTES_PAST_THE_CAPACITY_COMPARED SHORTER_SWAPPED ALWAYS_THE_FIRST_SHORTER
                ALWAYS_THE_SECOND_SHORTER EQUAL_FOR_SHORTER EQUAL_FOR_FIRST_SHORTER
                EQUAL_FOR_SECOND_SHORTER SHORTER_FOR_EQUAL EMPTY_IS_EQUAL_TO_ALL
                ELEMENT_BESIDE_SHORTER LOG_NUMBERS_BEFORE_DAMAGE LOG_NUMBERS_BEFORE_STATES
                LOG_NUMBERS_AFTER_THE_RECORDS LOG_NUMBERS_NOT_COMPARED LOW_HALF_OF_LOG_NUMBERS
                HIGH_HALF_OF_LOG_NUMBERS FIRST_OF_LOG_NUMBERS_IGNORED LOG_NUMBERS_ARE_DAMAGE
                DIFFERENCE_BESIDE_26 LENGTH_BESIDE_1 TAKES_A_DAMAGED_FIRST TAKES_A_DAMAGED_SECOND
                STATES_OF_FIRST_NOT_READ STATES_OF_SECOND_NOT_READ HEADER_OF_FIRST_NOT_READ
                HEADER_OF_SECOND_NOT_READ STATES_UP_TO_AN_OPEN_ONE STATES_OF_COMMON_RECORDS_ALONE
                ONE_SOUND_STORE_IS_ENOUGH COMPARES_32_KIB_AT_MOST OPEN_IS_ZERO ZERO_IS_OPEN_TOO;
        }
    };
}

/// The faults of comparing two stores that are not noticed.
fn unnoticed_of_copies() -> Vec<&'static str> {
    [unnoticed_of_copies!(copies), unnoticed_of_copies!(told_of_copies)].concat()
}

/// Runs a group on each fault of the limit, the levels and the rows, and on those of files that have
/// to do with these.
macro_rules! unnoticed_of_ends {
    ($group:ident) => {
        unnoticed! {
            $group: KEEPS_THE_OLD_LIMIT LIMIT_ONE_LESS LIMIT_ONE_MORE CLAIM_ONE_MORE STEP_ONE_MORE
                OLD_LIMIT_OF_STATES OLD_LIMIT_OF_FILES STATE_ONE_MORE FILE_ONE_MORE SIGNED_LENGTHS POSITION_OF_32_BITS
                LENGTH_OF_32_BITS STATE_COUNT_OF_32_BITS READS_AT_32_BITS BUILDS_IN_32_BITS
                DISPUTES_IN_32_BITS DIFFERING_IN_32_BITS HOPS_UP_TO_LEVEL_19 HOPS_UP_TO_LEVEL_29
                HOPS_UP_TO_LEVEL_30 HOP_SUM_OF_32_BITS LINKS_UP_TO_LEVEL_19 LINKS_UP_TO_LEVEL_30
                MESSAGE_OF_681 MESSAGE_OF_1_033 ELEMENT_OF_24_BITS PROOF_OF_14_048 TELLS_38_HOPS
                SIGNED_ELEMENT KEEPS_TWENTY_ROWS KEEPS_31_ROWS TWENTY_ROWS_JUDGED ROW_20_NOT_JUDGED
                ROW_31_NOT_JUDGED TWENTY_ROWS_COMPARED ROW_30_NOT_COMPARED CARRIES_TO_ROW_20
                FILE_OF_TWENTY_ROWS LAST_ROW_LEFT_OUT WRITES_ANY_LAST_ROW COUNT_OF_32_BITS LIMIT_IS_OVER
                NO_LIMIT_OF_THE_COUNT LENGTH_BEFORE_THE_COUNT;
        }
    };
}

/// The faults of the limit, the levels and the rows that are not noticed.
fn unnoticed_of_ends() -> Vec<&'static str> {
    [unnoticed_of_ends!(ends), unnoticed_of_ends!(told_of_ends)].concat()
}

/// The other faults that are not noticed.
fn unnoticed_of_others() -> Vec<&'static str> {
    unnoticed! {
        hash: PADDING_AT_55_BYTES HASHES_TOO_MUCH MISSES_A_LAST_BIT;
        store: STARTS_PAST_CAPACITY TAKES_ANY_STATE_BYTE CLOSES_TOO_EARLY STOP_WRAPS
            COUNT_BESIDE_A_REFUSAL SKIPS_EMPTY_ENTRIES NO_DIGEST_AT_0 AUDIT_NAMES_THE_LAST
            OPEN_IS_ZERO ZERO_IS_OPEN_TOO STARTS_WITH_ZEROS KEEPS_THE_OLD_CAPACITY;
        saved: ROWS_HIGHEST_FIRST ALL_ROWS_WRITTEN ROW_BY_ITS_CONTENTS LAST_ROW_LEFT_OUT
            COUNT_LITTLE_ENDIAN CLEARS_BEHIND_THE_FILE WRITES_ANY_STATE WRITES_OVER_THE_LIMIT
            WRITES_ANY_LAST_ROW WRITES_ANY_START ROOM_BEFORE_THE_STATE LENGTH_BESIDE_6
            WRITES_A_PART MARK_NOT_COMPARED LAST_OF_THE_MARK_NOT_COMPARED TAKES_VERSION_2
            FIRST_OF_THE_VERSION_IGNORED COUNT_OF_32_BITS TAIL_OF_A_FILE_IGNORED
            MISSING_ROWS_ARE_ZERO READS_ANY_START NEEDS_54_BYTES MARK_BEFORE_53_BYTES
            VERSION_BEFORE_THE_MARK COUNT_BEFORE_THE_VERSION LIMIT_IS_OVER LENGTH_BEFORE_53_BYTES
            NO_LIMIT_OF_THE_COUNT LENGTH_BEFORE_THE_COUNT START_BEFORE_THE_LENGTH
            REFUSES_A_DIGEST_OF_ZEROS REFUSES_A_ROW_OF_ZEROS REFUSED_FILE_CLEARS KEEPS_FREE_ROWS
            OLD_LIMIT_OF_FILES FILE_ONE_MORE STATE_COUNT_OF_32_BITS FILE_OF_TWENTY_ROWS
            ROW_20_NOT_JUDGED;
        trie: HASHES_A_LONG_KEY TAKES_A_REPEATED_HANDLE SORTS_THE_LIST TAKES_1001_HANDLES
            TAKES_A_BROKEN_HANDLE ROOM_BEFORE_THE_KIND LIST_BEFORE_THE_KEY BUILDS_A_FALSE_ABSENCE
            SIBLINGS_FROM_THE_LEAF ABSENCE_ONE_TOO_LONG WRITES_WHAT_FITS LAST_BIT_FIRST
            SIDES_SWAPPED TAIL_OF_SIBLINGS_IGNORED TAKES_ANY_ROOT TWO_EMPTY_SIDES_STAY_EMPTY
            ABSENCE_NEEDS_A_SIBLING PART_OF_A_SIBLING_IGNORED NAMES_THE_ABSENCE
            PROOFS_BEFORE_THE_BUFFERS;
        everything: PADDING_AT_55_BYTES CLOSES_TOO_EARLY IGNORES_A_TAIL NEVER_CHECKS_ROWS
            ROWS_HIGHEST_FIRST TAIL_OF_A_FILE_IGNORED TAKES_ANY_ROOT NAMES_THE_LINK_OF_A_ROW
            OLD_KEY_KEPT NAMES_THE_ENTRY_AFTER HASHES_A_KEY_OF_64 KEEPS_THE_OLD_LIMIT LIMIT_ONE_MORE
            HOPS_UP_TO_LEVEL_19 KEEPS_TWENTY_ROWS LENGTHS_BEFORE_BYTES BYTE_FROM_1 SHORTER_SWAPPED
            LOG_NUMBERS_NOT_COMPARED TAKES_A_DAMAGED_SECOND;
    }
}

fn main() {
    words();
    let Both { calls, told, .. } = agreed();
    panic::set_hook(Box::new(|_| ()));
    let unnoticed = [
        unnoticed_of_proofs(),
        unnoticed_of_ends(),
        unnoticed_of_sealed(),
        unnoticed_of_copies(),
        unnoticed_of_others(),
    ]
    .concat();
    if !unnoticed.is_empty() {
        eprintln!("faults that were not noticed: {}", unnoticed.join(", "));
        std::process::exit(1);
    }
    let agreed = format!("{} calls of a copy agree, {} of them as told beforehand", calls, told);
    println!("{}, every fault is noticed", agreed);
}

/// The group `whole` in the shape of the others.
mod everything {
    use super::*;
    use compare::whole::AllCalls;

    pub fn run<C: AllCalls>(both: &mut Both<C>, _: Scale) {
        whole::run(both, SEED, CALLS);
    }
}

/// What is told beforehand of broken proofs, with the second program nowhere: one copy on both sides,
/// so that what is told must notice the fault.
mod told_of_members {
    use super::*;
    use compare::calls::MemberCalls;
    use compare::logs::sound;
    use compare::member::Claim;

    pub fn run<C: MemberCalls>(_: &mut Both<C>, scale: Scale) {
        let alone: &mut dyn BothMember = &mut Both::<C, C>::default();
        places::run::<Claim, _>(alone, &sound(300, 0), scale);
        places::disputes(alone, scale);
    }
}

/// The same of steps.
mod told_of_steps {
    use super::*;
    use compare::advance::Step;
    use compare::calls::AdvanceCalls;
    use compare::logs::sound;

    pub fn run<C: AdvanceCalls>(_: &mut Both<C>, scale: Scale) {
        let alone: &mut dyn BothAdvance = &mut Both::<C, C>::default();
        places::run::<Step, _>(alone, &sound(300, 0), scale);
    }
}

/// The same of all that has to do with the limit.
mod told_of_ends {
    use super::*;
    use compare::calls::{AdvanceCalls, MemberCalls, SavedCalls, StoreCalls};

    pub fn run<C>(_: &mut Both<C>, scale: Scale)
    where
        C: StoreCalls + MemberCalls + AdvanceCalls + SavedCalls,
    {
        ends::run(&mut Both::<C, C>::default(), scale);
    }
}

/// The same of two stores that should agree.
mod told_of_copies {
    use super::*;
    use compare::calls::CopyCalls;

    pub fn run<C: CopyCalls>(_: &mut Both<C>, scale: Scale) {
        copies::run(&mut Both::<C, C>::default(), scale);
    }
}

/// The same of a van's log and of what it is told.
mod told_of_seals {
    use super::*;
    use compare::calls::SealCalls;

    pub fn run<C: SealCalls>(_: &mut Both<C>, scale: Scale) {
        sealed::run(&mut Both::<C, C>::default(), scale);
    }
}
