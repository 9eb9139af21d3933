//! The plain checker of `host/plain`, to stand in the place of the library's checks.
//!
//! A group over it makes the calls that it makes over the library, with the same seed, and holds each
//! answer to the second program. So on every proof of the tests, good and damaged, the library and the
//! plain checker have answered alike: the number, the hops, the place, and the state that is left.
//!
//! The answers are counted, so that a run in which one of them never came does not pass.

use std::cell::Cell;
use std::thread::LocalKey;

use lotlog::{Answer, Digest, Held};

use crate::calls::Checks;

/// The plain checker, whose answers are counted.
pub enum Plain {}

/// One more than the highest number that a check answers with.
const NUMBERS: usize = 12;

/// The numbers with which each check can refuse.
const REFUSALS_OF_MEMBERSHIP: [usize; 6] = [3, 4, 7, 8, 10, 11];
const REFUSALS_OF_ADVANCEMENT: [usize; 6] = [2, 4, 7, 9, 10, 11];

/// How often each number was answered.
#[derive(Clone, Copy, Default)]
pub struct Tally([u64; NUMBERS]);

thread_local! {
    /// The answers of the plain checker in this thread.
    static MEMBERSHIP: Cell<Tally> = Cell::default();
    static ADVANCEMENT: Cell<Tally> = Cell::default();
}

fn counted(answers: &'static LocalKey<Cell<Tally>>, answer: Answer) -> Answer {
    answers.with(|answers| {
        let mut tally = answers.get();
        tally.0[answer.number as usize] += 1;
        answers.set(tally);
    });
    answer
}

impl Checks for Plain {
    fn check_membership(entry: &[u8], i: u64, n: u64, digest: &Digest, proof: &[u8]) -> Answer {
        let answer = checker::check_membership::<checker::Plain>(entry, i, n, digest, proof);
        counted(&MEMBERSHIP, answer)
    }

    fn check_advancement(held: &mut Held, n: u64, digest: &Digest, proof: &[u8]) -> Answer {
        let answer = checker::check_advancement::<checker::Plain>(held, n, digest, proof);
        counted(&ADVANCEMENT, answer)
    }
}

impl Tally {
    /// The checks of membership so far. Panics unless each answer that there can be has come.
    pub fn of_membership() -> Tally {
        MEMBERSHIP.with(Cell::get).with_all("membership", &REFUSALS_OF_MEMBERSHIP)
    }

    /// The same of advancement.
    pub fn of_advancement() -> Tally {
        ADVANCEMENT.with(Cell::get).with_all("advancement", &REFUSALS_OF_ADVANCEMENT)
    }

    fn with_all(self, check: &str, refusals: &[usize]) -> Tally {
        for number in [&[0], refusals].concat() {
            assert!(self.0[number] > 0, "no check of {} was answered with {}", check, number);
        }
        self
    }

    pub fn and(mut self, other: Tally) -> Tally {
        for (times, more) in self.0.iter_mut().zip(other.0) {
            *times += more;
        }
        self
    }

    /// Words like "5 checks, 3 of them refused (7: 1, 11: 2)".
    pub fn words(&self) -> String {
        let by_number: Vec<String> = (1..NUMBERS)
            .filter(|number| self.0[*number] > 0)
            .map(|number| format!("{}: {}", number, self.0[number]))
            .collect();
        let checks: u64 = self.0.iter().sum();
        let refused = checks - self.0[0];
        format!("{} checks, {} of them refused ({})", checks, refused, by_number.join(", "))
    }
}
