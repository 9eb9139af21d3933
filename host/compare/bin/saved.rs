//! Compares the library's files of held states with the second program's.

use compare::{both::Both, library::Library, saved, Scale};

fn main() {
    let mut both = Both::<Library>::default();
    saved::run(&mut both, Scale::Full);
    println!("{} calls agree", both.calls);
}
