//! The answers that document 02, A8, gives to two copies of a log, worked out by hand on stores whose
//! bytes are spelled out; and the lines of its program.

use crate::copies::{compare, Compared};
use crate::hash::Sha256;
use crate::message::entry_digest;
use crate::program::{compare_line, FILE_MOST};
use crate::refusal::Refusal;
use crate::store::{append, count, place, store_of, HEADER, RECORD, STATE};
use crate::tests::{entry, log7, refused};

use Compared::{Differ, Equal, FirstShorter, SecondShorter};

/// The header of log 7, as document 01 prints it.
const HEAD: [u8; 16] =
    [0x4C, 0x4F, 0x54, 0x00, 0x01, 0, 0, 0, 0x00, 0x00, 0x00, 0x00, 0x00, 0x00, 0x00, 0x07];

/// A store of log 7: a closed record of each of these bytes, and an open one of each of those.
fn made(closed: &[u8], open: &[u8]) -> Vec<u8> {
    let mut store = HEAD.to_vec();
    closed.iter().for_each(|&byte| store.extend([[byte; 64].to_vec(), vec![1]].concat()));
    open.iter().for_each(|&byte| store.extend([[byte; 64].to_vec(), vec![255]].concat()));
    store
}

/// The store with bits of one byte of an element turned.
fn changed(store: &[u8], element: u64, byte: usize) -> Vec<u8> {
    let mut store = store.to_vec();
    store[place(element) + byte] ^= 0x40;
    store
}

/// The same two stores in the other order.
fn turned(answer: Result<Compared, Refusal>) -> Result<Compared, Refusal> {
    answer.map(|compared| match compared {
        FirstShorter => SecondShorter,
        SecondShorter => FirstShorter,
        _ => compared,
    })
}

/// Holds an answer to what is wanted, in both orders.
fn compared(first: &[u8], second: &[u8], wanted: Result<Compared, Refusal>) {
    assert_eq!(compare(first, second), wanted);
    assert_eq!(compare(second, first), turned(wanted));
}

fn differ(element: u64, byte: u64) -> Result<Compared, Refusal> {
    Ok(Differ { element, byte })
}

// ---- the calls

#[test]
fn stores_of_one_byte_each() {
    compared(&made(b"", b""), &made(b"", b""), Ok(Equal));
    compared(&made(b"ABC", b""), &made(b"ABC", b""), Ok(Equal));
    compared(&made(b"", b""), &made(b"A", b""), Ok(FirstShorter));
    compared(&made(b"AB", b""), &made(b"ABC", b""), Ok(FirstShorter));
    compared(&made(b"ABC", b""), &made(b"ABD", b""), differ(3, 0));
    compared(&made(b"ABC", b""), &made(b"XBC", b""), differ(1, 0));
    // "the first element at which they differ"
    compared(&made(b"ABC", b""), &made(b"AXY", b""), differ(2, 0));
    // a difference in what both hold decides before their lengths do
    compared(&made(b"AB", b""), &made(b"AXCDE", b""), differ(2, 0));
}

#[test]
fn open_room_does_not_count() {
    compared(&made(b"AB", b""), &made(b"AB", b"C"), Ok(Equal));
    compared(&made(b"AB", b"CCC"), &made(b"AB", b"D"), Ok(Equal));
    compared(&made(b"", b"C"), &made(b"", b"D"), Ok(Equal));
    // whether it holds what the other has there, or not
    compared(&made(b"AB", b"C"), &made(b"ABC", b""), Ok(FirstShorter));
    compared(&made(b"AB", b"X"), &made(b"ABC", b""), Ok(FirstShorter));
    compared(&made(b"AB", b"CCCCC"), &made(b"ABC", b""), Ok(FirstShorter));
}

#[test]
fn bytes_past_the_capacity_do_not_count() {
    let store = made(b"AB", b"C");
    for past in [1, 30, 64] {
        for byte in [0, 1, 0x43, 255] {
            let longer = [&store[..], &vec![byte; past]].concat();
            compared(&store, &longer, Ok(Equal));
            compared(&longer, &made(b"ABC", b""), Ok(FirstShorter));
            compared(&longer, &made(b"AC", b""), differ(2, 0));
        }
    }
    // a record that is not whole is no record
    let store = made(b"ABC", b"");
    for missing in 1..=65 {
        compared(&store[..store.len() - missing], &store, Ok(FirstShorter));
    }
    compared(&store[..store.len() - 66], &made(b"A", b""), Ok(Equal));
}

#[test]
fn each_byte_of_an_element() {
    for elements in [1, 2, 3, 12] {
        let store = log7::<Sha256>(elements);
        for element in 1..=elements {
            for byte in 0..64 {
                let other = changed(&store, element, byte);
                compared(&store, &other, differ(element, byte as u64));
                // the last state byte opened: the last element is not compared any more
                let mut shorter = store.clone();
                shorter[place(elements) + STATE] = 255;
                let wanted = if element == elements {
                    Ok(FirstShorter)
                } else {
                    differ(element, byte as u64)
                };
                compared(&shorter, &other, wanted);
            }
        }
    }
}

#[test]
fn the_first_of_several_differences() {
    let store = log7::<Sha256>(9);
    for (changes, element, byte) in [
        ([(3, 40), (3, 41)], 3, 40),
        ([(3, 63), (3, 0)], 3, 0),
        ([(3, 63), (4, 0)], 3, 63),
        ([(9, 0), (1, 63)], 1, 63),
        ([(2, 31), (2, 32)], 2, 31),
    ] {
        let other = changes.iter().fold(store.clone(), |other, &(at, b)| changed(&other, at, b));
        compared(&store, &other, differ(element, byte));
        // one change on each side
        let [one, other] = changes.map(|(at, b)| changed(&store, at, b));
        compared(&one, &other, differ(element, byte));
    }
}

#[test]
fn other_entries_from_some_place_on() {
    for place in 1..=12 {
        let other = |j: u64| if j < place { entry(j) } else { vec![0xB7; 3] };
        let one = log7::<Sha256>(12);
        let second = store_of::<Sha256>(7, 15, (1..=14).map(other));
        let d = [entry(place), vec![0xB7; 3]].map(|entry| entry_digest::<Sha256>(&entry));
        let byte = (0..32).find(|&at| d[0][at] != d[1][at]).expect("two digests");
        compared(&one, &second, differ(place, byte as u64));
    }
}

#[test]
fn an_append_makes_the_copy_before_it_the_start() {
    let mut store = store_of::<Sha256>(7, 6, (1..=2).map(entry));
    for elements in 3..=6 {
        let before = store.clone();
        // cut off before its last byte it is no difference
        assert_eq!(append::<Sha256>(&mut store, &entry(elements), 64), Ok(elements - 1));
        compared(&before, &store, Ok(Equal));
        assert_eq!(append::<Sha256>(&mut store, &entry(elements), 65), Ok(elements));
        compared(&before, &store, Ok(FirstShorter));
        compared(&store, &store, Ok(Equal));
    }
}

#[test]
fn another_log_number_is_refused_with_26() {
    let store = log7::<Sha256>(3);
    for byte in 8..16 {
        for bit in 0..8 {
            let mut other = store.clone();
            other[byte] ^= 1 << bit;
            compared(&store, &other, refused(26, 0));
            compared(&other, &other, Ok(Equal));
            // 26 before a difference, and before a length
            compared(&changed(&store, 1, 0), &other, refused(26, 0));
            compared(&log7::<Sha256>(2), &other, refused(26, 0));
            compared(&made(b"", b""), &other, refused(26, 0));
        }
    }
}

#[test]
fn damage_is_refused_with_1_before_all_else() {
    let store = log7::<Sha256>(3);
    let mut other_log = store.clone();
    other_log[15] = 8;
    let mut damaged: Vec<Vec<u8>> = (0..16).map(|length| store[..length].to_vec()).collect();
    for byte in 0..8 {
        let mut bent = store.clone();
        bent[byte] ^= 1;
        damaged.push(bent);
    }
    for j in 1..=3 {
        for state in [0, 2, 3, 254] {
            let mut bent = store.clone();
            bent[place(j) + STATE] = state;
            damaged.push(bent);
        }
    }
    // closed after open
    let mut bent = store.clone();
    bent[place(2) + STATE] = 255;
    damaged.push(bent);
    // open as document 01 had it
    let mut bent = made(b"AB", b"C");
    bent[place(3) + STATE] = 0;
    damaged.push(bent);
    for bent in &damaged {
        assert_eq!(count(bent), refused(1, 0));
        for other in [&store, &other_log, &log7::<Sha256>(1), &changed(&store, 1, 0), bent] {
            compared(bent, other, refused(1, 0));
        }
        compared(bent, &damaged[0], refused(1, 0));
    }
}

#[test]
fn no_length_is_too_long_for_the_call() {
    let store = log7::<Sha256>(600);
    assert_eq!(store.len(), 39_016);
    compared(&store, &store, Ok(Equal));
    compared(&store, &changed(&store, 600, 63), differ(600, 63));
    compared(&store[..HEADER + 599 * RECORD], &store, Ok(FirstShorter));
}

// ---- the program

/// The line for two files that can be read.
fn line(first: &[u8], second: &[u8]) -> String {
    compare_line(&[Some(first), Some(second)])
}

#[test]
fn the_lines() {
    let store = log7::<Sha256>(12);
    assert_eq!(line(&store, &store), "equal\n");
    assert_eq!(line(&log7::<Sha256>(11), &store), "first shorter\n");
    assert_eq!(line(&store, &log7::<Sha256>(11)), "second shorter\n");
    assert_eq!(line(&store, &changed(&store, 12, 0)), "differ 12 0\n");
    assert_eq!(line(&store, &changed(&store, 1, 63)), "differ 1 63\n");
    assert_eq!(line(&store, b""), "refused 1\n");
    assert_eq!(line(b"", b""), "refused 1\n");
    let mut other = store.clone();
    other[8] = 1;
    assert_eq!(line(&store, &other), "refused 26\n");
}

#[test]
fn what_is_unread() {
    assert_eq!(FILE_MOST, 32_768);
    let store = log7::<Sha256>(2);
    let sized = |length: usize| {
        let mut file = store.clone();
        file.resize(length, 255);
        file
    };
    let [most, longer] = [sized(32_768), sized(32_769)];
    assert_eq!(line(&most, &store), "equal\n");
    assert_eq!(line(&most, &most), "equal\n");
    let (store, most, longer) = (Some(&store[..]), Some(&most[..]), Some(&longer[..]));
    let none: Option<&[u8]> = None;
    for named in [
        &[][..],
        &[store],
        &[longer],
        &[none],
        &[store, none],
        &[none, store],
        &[none, none],
        &[store, longer],
        &[longer, most],
        &[longer, longer],
        &[longer, none],
        // before damage
        &[Some(b""), none],
        &[longer, Some(b"")],
        &[store, store, store],
        &[store, store, none],
    ] {
        assert_eq!(compare_line(named), "unread\n");
    }
    // a file of rubbish that is not too long is damaged
    assert_eq!(line(&[9; 32_768], &[9; 32_768]), "refused 1\n");
    assert_eq!(line(&[9; 32_769], &[9; 32_768]), "unread\n");
}
