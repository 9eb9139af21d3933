//! Compares the library's dictionary with the second program's: handles, roots, proofs of presence
//! and of absence, and clashes.

use compare::{both::Both, library::Library, trie, Scale};

fn main() {
    let mut both = Both::<Library>::default();
    trie::run(&mut both, Scale::Full);
    println!("{} calls agree", both.calls);
}
