//! What adding an entry leaves of the van's key on the stack, and that clearing takes it away.
//!
//! `seal_add` is called on a stack that is painted beforehand. Then the old key is looked for there, as
//! it is and as HMAC's two pads make it, four bytes in a row at a time. Once more with `clear_stack`
//! behind it: then no such bytes are left, and all that the call had written below its caller is 0.

use std::ptr;

const STACK: usize = 1 << 16;

/// The bytes at the top of the stack that may be the caller's own: its frame and the return addresses.
const CALLER: usize = 128;

/// How many bytes of a key in a row are a find.
const IN_A_ROW: usize = 4;

type Call = extern "C" fn(*const u8, usize, *mut u8) -> u64;

extern "C" {
    fn on_other_stack(
        call: Call,
        data: *const u8,
        length: usize,
        key: *mut u8,
        top: *mut u8,
    ) -> u64;
}

#[repr(align(16))]
struct Stack([u8; STACK]);

static mut CHAIN: lotlog::Digest = [0; 32];
static mut OUT: [u8; 4_134] = [0; 4_134];

/// Adds an entry under the key: a closing one if the data is of no bytes.
#[inline(always)]
fn add(data: *const u8, length: usize, key: *mut u8) -> u64 {
    let kind = if length == 0 { lotlog::CLOSING } else { 2 };
    unsafe {
        let data = std::slice::from_raw_parts(data, length);
        let key = std::slice::from_raw_parts_mut(key, 32);
        let (chain, out) = (&mut *ptr::addr_of_mut!(CHAIN), &mut *ptr::addr_of_mut!(OUT));
        lotlog::seal_add(key, chain, kind, data, out).number
    }
}

extern "C" fn adds(data: *const u8, length: usize, key: *mut u8) -> u64 {
    add(data, length, key)
}

extern "C" fn adds_and_clears(data: *const u8, length: usize, key: *mut u8) -> u64 {
    let number = add(data, length, key);
    lotlog::clear_stack();
    number
}

/// The stack after a call, painted in a colour before it, and the key that was lent, after it.
fn after(call: Call, data: &[u8], key: [u8; 32], colour: u8) -> (Vec<u8>, [u8; 32]) {
    let mut stack = Box::new(Stack([colour; STACK]));
    let mut lent = key;
    let number = unsafe {
        let top = stack.0.as_mut_ptr().add(STACK);
        on_other_stack(call, data.as_ptr(), data.len(), lent.as_mut_ptr(), top)
    };
    assert_eq!(number, 0, "the entry is added");
    (stack.0.to_vec(), lent)
}

/// How many places of the stack have bytes of the key in a row, as they are or with a pad.
fn finds(stack: &[u8], key: &[u8; 32]) -> usize {
    let mut found = 0;
    for pad in [0, 0x36, 0x5C] {
        let padded = key.map(|byte| byte ^ pad);
        let swapped: Vec<u8> =
            padded.chunks(4).flat_map(|word| word.iter().rev().copied()).collect();
        for part in padded.windows(IN_A_ROW).chain(swapped.chunks(IN_A_ROW)) {
            found += stack.windows(IN_A_ROW).filter(|place| *place == part).count();
        }
    }
    found
}

/// How far down the call changed the stack that was painted in a colour.
fn depth(stack: &[u8], colour: u8) -> usize {
    STACK - stack.iter().take_while(|byte| **byte == colour).count()
}

/// A key whose bytes all differ, also with the pads.
fn some_key() -> [u8; 32] {
    let mut key = [0; 32];
    for (place, byte) in key.iter_mut().enumerate() {
        *byte = (0x81 + 73 * place * place + 5 * place) as u8;
    }
    key
}

fn main() {
    let key = some_key();
    let (mut deepest, mut left) = (0, 0);
    for length in [0, 1, 19, 4_096] {
        let data = vec![b'd'; length];
        // two colours, since a byte of the first may be what the call writes
        for colour in [0xA5, 0x5A] {
            let (stack, lent) = after(adds, &data, key, colour);
            assert!(lent != key && finds(&lent, &key) == 0, "the old key is gone from lent memory");
            assert!(length > 0 || lent == [0; 32], "a closing entry leaves zeros");
            deepest = deepest.max(depth(&stack, colour));
            left = left.max(finds(&stack, &key));
        }
    }
    assert!(finds(&key, &key) >= 29, "a key that is there is found");
    assert!(deepest <= lotlog::SEAL_STACK_MOST, "adding takes {} bytes of stack", deepest);
    for length in [0, 1, 19, 4_096] {
        let (stack, _) = after(adds_and_clears, &vec![b'd'; length], key, 0xA5);
        assert_eq!(finds(&stack, &key), 0, "of the old key nothing is left");
        let below = &stack[STACK - deepest..STACK - CALLER];
        assert!(below.iter().all(|byte| *byte == 0), "what the call wrote is cleared");
    }
    println!(
        "{} bytes, and parts of the old key are left at {} places; after clearing at none",
        deepest, left
    );
}
