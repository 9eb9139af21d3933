//! The faults of the limit, of the levels and of the rows, which document 02, A7, moves. They lie in
//! so many parts that the checkers are written out here, as walks along a path that may be a wrong
//! one; with no fault they must not be noticed either.

use super::*;
use crate::logs::OLD_LIMIT;
use second::held;

/// The copy that has one of these faults.
pub struct Copy {
    pub fault: usize,
}

/// The low 32 bits of a number.
fn low(number: u64) -> u64 {
    number & 0xFFFF_FFFF
}

fn refused(number: u64) -> Answer {
    Answer { number, beside: [0; 3] }
}

/// A component's link of a level, if it has one.
fn link_of(component: &[u8], level: usize) -> &[u8] {
    component.get(32 * (level + 1)..32 * (level + 2)).unwrap_or(&[])
}

/// What has a limit: the length of a claim or of a step, and the count of a state or of a file.
enum Of {
    Claim,
    Step,
    State,
    File,
}

/// A hop that is found bad: 9 or 10, the element reached, and the row or the level.
type Bad = [u64; 3];

impl Copy {
    fn is(&self, faults: &[usize]) -> bool {
        faults.contains(&self.fault)
    }

    /// The highest number that is taken for one of these.
    fn limit(&self, of: Of) -> u64 {
        match (self.fault, of) {
            (KEEPS_THE_OLD_LIMIT, _) => OLD_LIMIT,
            (OLD_LIMIT_OF_STATES, Of::State) | (OLD_LIMIT_OF_FILES, Of::File) => OLD_LIMIT,
            (LIMIT_ONE_LESS, _) => LIMIT - 1,
            (LIMIT_ONE_MORE, _) => LIMIT + 1,
            (CLAIM_ONE_MORE, Of::Claim) | (STEP_ONE_MORE, Of::Step) => LIMIT + 1,
            (STATE_ONE_MORE, Of::State) | (FILE_ONE_MORE, Of::File) => LIMIT + 1,
            (SIGNED_LENGTHS, Of::Claim | Of::Step) => LIMIT >> 1,
            _ => LIMIT,
        }
    }

    /// The level of the next hop.
    fn level(&self, i: u64, n: u64) -> u32 {
        let top = match self.fault {
            HOPS_UP_TO_LEVEL_19 => 19,
            HOPS_UP_TO_LEVEL_29 => 29,
            HOPS_UP_TO_LEVEL_30 => 30,
            LIMIT_ONE_MORE | CLAIM_ONE_MORE | STEP_ONE_MORE => 32,
            _ => 31,
        };
        let reached = |level: u32| match self.fault {
            HOP_SUM_OF_32_BITS => low(i + (1 << level)),
            _ => i + (1 << level),
        };
        let can = |level: &u32| i % (1 << level) == 0 && reached(*level) <= n;
        (0..=top).rev().find(can).unwrap_or(0)
    }

    /// The path, which may hop past n.
    fn path(&self, i: u64, n: u64) -> Vec<u64> {
        let mut elements = vec![i];
        let mut at = i;
        while at < n {
            at += 1 << self.level(at, n);
            elements.push(at);
        }
        elements
    }

    fn component_length(&self, j: u64) -> usize {
        let top = match self.fault {
            LINKS_UP_TO_LEVEL_19 => 19,
            LINKS_UP_TO_LEVEL_30 => 30,
            _ => 63,
        };
        32 * (j.trailing_zeros().min(top) as usize + 2)
    }

    /// The components of a proof that has the length of these elements.
    fn components<'a>(&self, elements: &[u64], proof: &'a [u8]) -> Option<Vec<&'a [u8]>> {
        let lengths = elements.iter().map(|j| self.component_length(*j));
        if lengths.clone().sum::<usize>() != proof.len()
            || self.fault == PROOF_OF_14_048 && proof.len() > 14_048
        {
            return None;
        }
        let mut rest = proof;
        let mut next = |length| {
            let (part, after) = rest.split_at(length);
            rest = after;
            part
        };
        Some(lengths.map(&mut next).collect())
    }

    fn digest(&self, j: u64, component: &[u8]) -> Digest {
        let mut message = message::element(j, component);
        match self.fault {
            MESSAGE_OF_681 => message.truncate(681),
            MESSAGE_OF_1_033 => message.truncate(1_033),
            ELEMENT_OF_24_BITS => message[1..6].fill(0),
            _ => (),
        }
        Sha256::of(&message)
    }

    /// The answer to so many good hops and a bad one.
    fn broken(&self, hops: usize, [number, element, level]: Bad) -> Answer {
        let element = match self.fault {
            SIGNED_ELEMENT => element as u32 as i32 as u64,
            _ => element,
        };
        Answer { number, beside: [self.hops(hops), element, level] }
    }

    fn hops(&self, hops: usize) -> u64 {
        let most = if self.fault == TELLS_38_HOPS { 38 } else { usize::MAX };
        hops.min(most) as u64
    }

    /// The answer at the end of the path.
    fn ended(&self, hops: usize, is_claimed: bool) -> Answer {
        Answer { number: if is_claimed { 0 } else { 11 }, beside: [self.hops(hops), 0, 0] }
    }

    pub fn check_membership(
        &self,
        entry: &[u8],
        i: u64,
        n: u64,
        digest: &Digest,
        proof: &[u8],
    ) -> Answer {
        let i = if self.fault == POSITION_OF_32_BITS { low(i) } else { i };
        let n = if self.fault == LENGTH_OF_32_BITS { low(n) } else { n };
        if entry.len() > ENTRY_MOST {
            return refused(3);
        }
        if i == 0 || i > n || n > self.limit(Of::Claim) {
            return refused(4);
        }
        let elements = self.path(i, n);
        let parts = match self.components(&elements, proof) {
            Some(parts) => parts,
            None => return refused(7),
        };
        if parts[0][..32] != Sha256::of(&message::entry(entry)) {
            return refused(8);
        }
        let mut computed = self.digest(i, parts[0]);
        for hop in 1..elements.len() {
            let level = (elements[hop] - elements[hop - 1]).trailing_zeros();
            if *link_of(parts[hop], level as usize) != computed {
                return self.broken(hop - 1, [10, elements[hop], level.into()]);
            }
            computed = self.digest(elements[hop], parts[hop]);
        }
        self.ended(elements.len() - 1, computed == *digest)
    }

    /// Whether a held state is in order.
    fn in_order(&self, state: &held::Held) -> bool {
        let judged = |row: usize| match self.fault {
            TWENTY_ROWS_JUDGED => row < 20,
            ROW_20_NOT_JUDGED => row != 20,
            ROW_31_NOT_JUDGED => row != 31,
            _ => true,
        };
        let free = (0..ROWS).filter(|row| !held::in_use(state.count, *row));
        state.count <= self.limit(Of::State)
            && free.filter(|row| judged(*row)).all(|row| state.rows[row] == [0; 32])
            && (state.count > 0 || state.digest == message::start_digest::<Sha256>(state.log))
    }

    /// A held state as it is read from its bytes.
    fn state(&self, held: &Held) -> held::Held {
        let mut state = held_of_bytes(held);
        if self.fault == STATE_COUNT_OF_32_BITS {
            state.count = low(state.count);
        }
        state
    }

    /// The rows after a hop, or the one that differs.
    fn carried(
        &self,
        state: &held::Held,
        level: usize,
        component: &[u8],
    ) -> Result<Vec<Digest>, usize> {
        let compared = |row: usize| match self.fault {
            TWENTY_ROWS_COMPARED => row < 20,
            ROW_30_NOT_COMPARED => row != 30,
            _ => true,
        };
        // one row more than there is, for a hop past the limit
        let mut rows = [&state.rows[..], &[[0; 32]]].concat();
        let (mut moving, mut row) = (state.digest, level);
        while held::in_use(state.count, row) && (self.fault != CARRIES_TO_ROW_20 || row < 20) {
            if compared(row) && *link_of(component, row + 1) != rows[row] {
                return Err(row);
            }
            moving = rows[row];
            rows[row] = [0; 32];
            row += 1;
        }
        rows[row] = moving;
        Ok(rows)
    }

    /// One hop of a state, or how it is found bad.
    fn hop(&self, state: &held::Held, n: u64, component: &[u8]) -> Result<held::Held, Bad> {
        let level = self.level(state.count, n);
        let count = state.count + (1 << level);
        let rows =
            self.carried(state, level as usize, component).map_err(|row| [9, count, row as u64])?;
        if *link_of(component, level as usize) != state.digest {
            return Err([10, count, level.into()]);
        }
        let digest = self.digest(count, component);
        let rows = rows[..ROWS].try_into().expect("all rows");
        Ok(held::Held { log: state.log, count, digest, rows })
    }

    pub fn check_advancement(
        &self,
        held: &mut Held,
        n: u64,
        digest: &Digest,
        proof: &[u8],
    ) -> Answer {
        let n = if self.fault == LENGTH_OF_32_BITS { low(n) } else { n };
        let mut state = self.state(held);
        if !self.in_order(&state) {
            return refused(2);
        }
        if n < state.count || n > self.limit(Of::Step) {
            return refused(4);
        }
        let elements = self.path(state.count, n);
        let parts = match self.components(&elements[1..], proof) {
            Some(parts) => parts,
            None => return refused(7),
        };
        for (hops, component) in parts.iter().enumerate() {
            state = match self.hop(&state, n, component) {
                Ok(next) => next,
                Err(bad) => return self.broken(hops, bad),
            };
        }
        let answer = self.ended(parts.len(), state.digest == *digest);
        if answer.number == 0 && n > held_count(held) {
            let kept = match self.fault {
                KEEPS_TWENTY_ROWS => 20,
                KEEPS_31_ROWS => 31,
                _ => ROWS,
            };
            state.rows[kept..].fill([0; 32]);
            *held = held_bytes(&state);
        }
        answer
    }

    pub fn held_write(&self, held: &Held, out: &mut [u8]) -> Answer {
        let state = self.state(held);
        if !self.in_order(&state) {
            return refused(2);
        }
        let written = if self.fault == FILE_OF_TWENTY_ROWS { 20 } else { ROWS };
        let rows = (0..written).filter(|row| held::in_use(state.count, *row));
        let rows: Vec<Digest> = rows.map(|row| state.rows[row]).collect();
        let head = [&state.log.to_be_bytes()[..], &state.count.to_be_bytes()].concat();
        put(&[b"HLD\x00\x01", &head[..], &state.digest, &rows.concat()].concat(), out)
    }

    pub fn held_read(&self, file: &[u8], held: &mut Held) -> u64 {
        let mut state = *held;
        let number = Second::held_read(file, &mut state);
        if !matches!(number, 0 | 21 | 22) {
            return number;
        }
        let count = u64::from_be_bytes(file[13..21].try_into().expect("8 bytes"));
        if count > self.limit(Of::File) {
            return 21;
        }
        let counted = if self.fault == FILE_OF_TWENTY_ROWS { count & OLD_LIMIT } else { count };
        if file.len() != file_length(counted) {
            return 22;
        }
        // a count of one more has no rows, and neither have those that are left out
        if number != 0 {
            state = [0; HELD_BYTES];
            state[..48].copy_from_slice(&file[5..FILE_LEAST]);
        }
        *held = state;
        0
    }

    /// The numbers that a call on a store or on two proofs takes in place of these.
    pub fn numbers<const N: usize>(&self, numbers: [u64; N], cut_by: &[usize]) -> [u64; N] {
        numbers.map(|number| if self.is(cut_by) { low(number) } else { number })
    }

    /// The part of a store that is read.
    pub fn read_of<'a>(&self, store: &'a [u8]) -> &'a [u8] {
        let most = HEADER + RECORD * OLD_LIMIT as usize;
        match self.fault {
            KEEPS_THE_OLD_CAPACITY => &store[..store.len().min(most)],
            _ => store,
        }
    }
}
