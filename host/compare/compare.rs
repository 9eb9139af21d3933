//! Compares the proved library with the second program, call by call.
//!
//! Both get the same arguments. What is compared is all that a caller can see: the number of
//! documents 01 and 02, the numbers beside it, and every byte of lent memory after the call, with
//! guard bytes around it. The calls come in groups (`hash`, `store`, `member`, `advance`, `saved`,
//! `ends`, `trie`, `sealed`, `copies`) and all together (`whole`), and a group is a function over any
//! implementation of its calls. So the second program can be held to itself, and to faulty copies of
//! itself, each of which a group must notice (`faulty`). Where a proof broke is also told beforehand,
//! without the second program (`places`), and so is what comes of damage to a van's log (`sealed`) and
//! where two stores differ (`copies`). Lengths that no store has are tried on logs that are made up
//! (`made`). The plain checker that the library is timed beside goes through the same groups in the
//! place of the library's own checks (`plain`).
//!
//! A difference panics with the call and its arguments.

// an answer that comes back from a comparison has been looked at
#![allow(unused_must_use)]

pub mod advance;
pub mod both;
pub mod calls;
pub mod copies;
pub mod damage;
pub mod ends;
pub mod faulty;
pub mod hash;
pub mod library;
pub mod logs;
pub mod made;
pub mod member;
pub mod places;
pub mod plain;
pub mod random;
pub mod saved;
pub mod sealed;
pub mod second_calls;
pub mod store;
pub mod trie;
pub mod whole;

/// How much a group tries: all that it is for, or a small part for the harness's own test.
#[derive(Clone, Copy, PartialEq, Eq)]
pub enum Scale {
    Full,
    Small,
}

impl Scale {
    /// The one for a full run, or the other for a small one.
    pub fn pick<T>(self, full: T, small: T) -> T {
        match self {
            Scale::Full => full,
            Scale::Small => small,
        }
    }
}
