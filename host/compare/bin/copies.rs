//! Compares the library's comparison of two stores with the second program's.

use compare::{both::Both, copies, library::Library, Scale};

fn main() {
    let mut both = Both::<Library>::default();
    copies::run(&mut both, Scale::Full);
    println!("{} calls agree, {} of them as told beforehand", both.calls, both.told);
}
