//! What a store must hold, by the second program.

use compare::logs::{entry, LOG};
use second::hash::Sha256;
use second::store::{append, start, HEADER, RECORD, STATE};

/// The store of the log whose element j is `entry(j)`, grown as elements are seen.
pub struct Expected {
    pub store: Vec<u8>,
    pub count: u64,
}

impl Expected {
    pub fn fresh(room: usize) -> Expected {
        let mut store = vec![0; HEADER + RECORD * room];
        start(&mut store, LOG).expect("a store in order");
        Expected { store, count: 0 }
    }

    /// Appends up to that count.
    pub fn grow(&mut self, count: u64) {
        while self.count < count {
            self.count += 1;
            let held = append::<Sha256>(&mut self.store, &entry(self.count), RECORD as u64);
            assert_eq!(held, Ok(self.count));
        }
    }

    /// Holds a store to the log of one of the counts, and gives that count. Any bytes may stand as d
    /// and T of the first open record, as a cut append leaves them; every other byte is decided.
    pub fn judge(&mut self, store: &[u8], least: u64, most: u64) -> Result<u64, String> {
        let counted = lotlog::count(store);
        let count = counted.beside[0];
        if counted.number != 0 || count < least || most < count {
            return Err(format!("{:?}, where {} to {} are right", counted, least, most));
        }
        let audited = lotlog::audit(store);
        if audited != counted {
            return Err(format!("the audit of {} elements answers {:?}", count, audited));
        }
        self.grow(count);
        let open = HEADER + RECORD * count as usize;
        let behind = (open + STATE).min(store.len());
        if store[..open] != self.store[..open] || store[behind..] != self.store[behind..] {
            return Err(format!("the bytes of the log of {} elements are others", count));
        }
        Ok(count)
    }
}
