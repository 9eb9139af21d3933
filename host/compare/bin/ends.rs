//! Compares the library's proofs, states and files up to the limit of the elements, and past it,
//! with the second program's.

use compare::{both::Both, ends, library::Library, Scale};

fn main() {
    let mut both = Both::<Library>::default();
    ends::run(&mut both, Scale::Full);
    println!("{} calls agree, {} of them as told beforehand", both.calls, both.told);
}
