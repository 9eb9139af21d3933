//! "a small program that reads a store from standard input, audits it and writes one line"; and
//! document 02, A8: "a program that reads both from named files, at most 32 KiB each, and writes one
//! line".

use crate::copies::{compare, Compared};
use crate::hash::Hash;
use crate::refusal::{Refusal, WRONG_ELEMENT};
use crate::store::audit;

/// "for more than 65,536 bytes, `too long`"
pub const INPUT_MOST: usize = 65_536;

/// What the program writes for its whole input: "`sound N` with the count, `wrong N` with the
/// element, `refused 1`, or, for more than 65,536 bytes, `too long`", and a line feed.
pub fn line<H: Hash>(input: &[u8]) -> String {
    if input.len() > INPUT_MOST {
        return "too long\n".to_string();
    }
    match audit::<H>(input) {
        Ok(count) => format!("sound {}\n", count),
        Err(Refusal { number: WRONG_ELEMENT, beside, .. }) => format!("wrong {}\n", beside),
        Err(Refusal { number, .. }) => format!("refused {}\n", number),
    }
}

/// "at most 32 KiB each"
pub const FILE_MOST: usize = 32 * 1024;

/// What the program of A8 writes, and a line feed. It is given what each of the names that it was
/// called with stands for: the bytes of a file, or none if that can't be read. "`equal`, `first
/// shorter`, `second shorter`, `differ N B` with B from 0, `refused N`, or `unread` for a file
/// unreadable or longer"; and `unread` too if it was not called with two names.
pub fn compare_line(named: &[Option<&[u8]>]) -> String {
    let within = |file: &Option<&[u8]>| file.map_or(false, |bytes| bytes.len() <= FILE_MOST);
    let (first, second) = match named {
        [Some(first), Some(second)] if named.iter().all(within) => (first, second),
        _ => return "unread\n".to_string(),
    };
    match compare(first, second) {
        Ok(Compared::Equal) => "equal\n".to_string(),
        Ok(Compared::FirstShorter) => "first shorter\n".to_string(),
        Ok(Compared::SecondShorter) => "second shorter\n".to_string(),
        Ok(Compared::Differ { element, byte }) => format!("differ {} {}\n", element, byte),
        Err(Refusal { number, .. }) => format!("refused {}\n", number),
    }
}
