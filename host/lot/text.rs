//! Bytes and numbers as they stand in a line.

use std::ffi::OsStr;
use std::os::unix::ffi::OsStrExt;

/// A name or a key as it stands in a line: whatever would not show, or would end the line, as an
/// escape.
pub fn shown(name: &OsStr) -> String {
    let mut shown = String::new();
    let mut bytes = name.as_bytes();
    while !bytes.is_empty() {
        let (good, bad) = match std::str::from_utf8(bytes) {
            Ok(text) => (text, 0),
            Err(error) => {
                let good = &bytes[..error.valid_up_to()];
                let bad = error.error_len().unwrap_or(bytes.len() - good.len());
                (std::str::from_utf8(good).unwrap_or_default(), bad)
            }
        };
        good.chars().for_each(|letter| put_shown(&mut shown, letter));
        let rest = &bytes[good.len()..];
        rest[..bad].iter().for_each(|byte| shown.push_str(&format!("\\x{:02x}", byte)));
        bytes = &rest[bad..];
    }
    shown
}

fn put_shown(shown: &mut String, letter: char) {
    match letter {
        '\\' => shown.push_str("\\\\"),
        '\n' => shown.push_str("\\n"),
        '\r' => shown.push_str("\\r"),
        '\t' => shown.push_str("\\t"),
        letter if letter.is_control() => {
            let mut bytes = [0; 4];
            for byte in letter.encode_utf8(&mut bytes).bytes() {
                shown.push_str(&format!("\\x{:02x}", byte));
            }
        }
        letter => shown.push(letter),
    }
}

/// Bytes as hex digits.
pub fn hex(bytes: &[u8]) -> String {
    bytes.iter().map(|byte| format!("{:02x}", byte)).collect()
}

/// A number of hops in words.
pub fn hops(number: u64) -> String {
    format!("{} hop{}", number, if number == 1 { "" } else { "s" })
}
