//! A log of any length up to the limit, made up as far as proofs show it.
//!
//! No store of 4,294,967,295 records is made here. But a proof shows few elements: those of its path,
//! with their links. So a log that has these alone will do: the digest of each is that of its
//! component, and the digests of all others are made up, always the same for one number. A checker
//! can't tell such a log from a whole one, and neither can a second proof over the same elements.

use std::collections::HashMap;

use lotlog::{Digest, Held};
use second::hash::Sha256;
use second::held::{self, in_use, ROWS};
use second::message::{element_digest, entry_digest, start_digest};

use crate::advance::Step;
use crate::logs::{entry, Source, LOG};
use crate::member::Claim;
use crate::places::Way;
use crate::random::Random;
use crate::second_calls::held_bytes;

/// A made-up log. The entry of element j is that of all logs here.
pub struct Made {
    seed: u64,
    shown: HashMap<u64, Digest>,
}

impl Made {
    /// The log that has all elements which proofs between two of these lengths show.
    pub fn between(lengths: &[u64], seed: u64) -> Made {
        let pairs = lengths.iter().flat_map(|i| lengths.iter().map(move |n| (*i, *n)));
        let paths = pairs.filter(|(i, n)| i <= n).map(|(i, n)| Way::new(i, n, false));
        let mut elements: Vec<u64> = paths.flat_map(|way| way.elements().to_vec()).collect();
        elements.sort_unstable();
        elements.dedup();
        let mut log = Made { seed, shown: HashMap::new() };
        for j in elements.into_iter().filter(|j| *j > 0) {
            // the links go to lower elements, which are there by now if they are shown at all
            let digest = element_digest::<Sha256>(j, &log.component(j));
            log.shown.insert(j, digest);
        }
        log
    }

    fn digest(&self, j: u64) -> Digest {
        let made_up = || Random::new(self.seed ^ j.rotate_left(32)).bytes(32);
        match self.shown.get(&j) {
            _ if j == 0 => start_digest::<Sha256>(LOG),
            Some(digest) => *digest,
            None => made_up().try_into().expect("32 bytes"),
        }
    }

    fn component(&self, j: u64) -> Vec<u8> {
        let links = (0..=j.trailing_zeros()).map(|level| self.digest(j - (1 << level)));
        [vec![entry_digest::<Sha256>(&entry(j))], links.collect()].concat().concat()
    }

    fn proof(&self, elements: &[u64]) -> Vec<u8> {
        elements.iter().flat_map(|j| self.component(*j)).collect()
    }
}

impl Source for Made {
    fn claim(&self, i: u64, n: u64) -> Claim {
        let proof = self.proof(Way::new(i, n, false).elements());
        Claim { entry: entry(i), i, n, digest: self.digest(n), proof }
    }

    fn step(&self, i: u64, n: u64) -> Step {
        let proof = self.proof(&Way::new(i, n, true).elements()[1..]);
        Step { held: self.held(i), n, digest: self.digest(n), proof }
    }

    fn held(&self, at: u64) -> Held {
        let mut rows = [[0; 32]; ROWS];
        for row in (0..ROWS).filter(|row| in_use(at, *row)) {
            rows[row] = self.digest(at - at % (2 << row));
        }
        held_bytes(&held::Held { log: LOG, count: at, digest: self.digest(at), rows })
    }
}
