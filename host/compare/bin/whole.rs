//! Compares every call of the library with the second program's, at random: with a fixed seed and
//! with a fresh one, or with the seed that is given as an argument.

use std::env;

use compare::{both::Both, library::Library, random, whole};

fn run(seed: u64) {
    println!("seed {}", seed);
    let mut both = Both::<Library>::default();
    whole::run(&mut both, seed, whole::CALLS);
    println!("{} calls agree, seed {}", both.calls, seed);
}

fn main() {
    match env::args().nth(1) {
        Some(seed) => run(seed.parse().expect("a seed is a number")),
        None => {
            run(whole::SEED);
            run(random::fresh_seed());
        }
    }
}
