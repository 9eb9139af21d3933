//! Compares the library's HMAC and its logs of the vans with the second program's.

use compare::{both::Both, library::Library, sealed, Scale};

fn main() {
    let mut both = Both::<Library>::default();
    sealed::run(&mut both, Scale::Full);
    println!("{} calls agree, {} of them as told beforehand", both.calls, both.told);
}
