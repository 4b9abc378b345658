//! What the program says: messages on standard error, one line a call, and refusals. A write that
//! fails is noted, and ends nothing.

use std::io::{stderr, Write};
use std::sync::atomic::{AtomicBool, Ordering};

/// Why a run ends before it sets anything, and with which status.
#[derive(Debug, PartialEq, Eq)]
pub struct Refusal {
    pub status: u8,
    pub text: String,
}

pub type Outcome<T> = Result<T, Refusal>;

pub const USAGE: u8 = 2;

pub fn refusal(text: impl Into<String>) -> Refusal {
    Refusal { status: USAGE, text: text.into() }
}

pub fn refuse<T>(text: impl Into<String>) -> Outcome<T> {
    Err(refusal(text))
}

static IS_APPLY: AtomicBool = AtomicBool::new(false);
static FAILED: AtomicBool = AtomicBool::new(false);
static PROGRESS: AtomicBool = AtomicBool::new(false);

/// From here on messages are those of relabel-apply.
pub fn be_apply() {
    IS_APPLY.store(true, Ordering::Relaxed);
}

pub fn name() -> &'static str {
    match IS_APPLY.load(Ordering::Relaxed) {
        true => "relabel-apply",
        false => "relabel-tree",
    }
}

/// Whether all that was said could be written.
pub fn is_all_written() -> bool {
    !FAILED.load(Ordering::Relaxed)
}

pub fn note_unwritten() {
    FAILED.store(true, Ordering::Relaxed);
}

/// A line of progress stands, or none does; the next message wipes it away.
pub fn set_progress(stands: bool) {
    PROGRESS.store(stands, Ordering::Relaxed);
}

pub const WIPE: &str = "\r\x1b[K";

/// One message, in one write, so that those of several threads don't mix.
pub fn say(text: &str) {
    let wipe = if PROGRESS.swap(false, Ordering::Relaxed) { WIPE } else { "" };
    if stderr().write_all(format!("{wipe}{}: {text}\n", name()).as_bytes()).is_err() {
        note_unwritten();
    }
}

fn push_octal(to: &mut Vec<u8>, byte: u8) {
    to.extend([b'\\', b'0' + (byte >> 6), b'0' + (byte >> 3 & 7), b'0' + (byte & 7)]);
}

/// A name as relabel reports it: bytes below 32, byte 127 and the backslash as three octal digits.
pub fn push_reported(to: &mut Vec<u8>, name: &[u8]) {
    for &byte in name {
        match byte {
            0..=31 | 127 | b'\\' => push_octal(to, byte),
            _ => to.push(byte),
        }
    }
}

/// The same, and all bytes beyond ASCII, so that nothing can fool a reader of a terminal.
pub fn plain(name: &[u8]) -> String {
    let mut text = Vec::with_capacity(name.len());
    for &byte in name {
        match byte {
            32..=126 if byte != b'\\' => text.push(byte),
            _ => push_octal(&mut text, byte),
        }
    }
    String::from_utf8(text).unwrap_or_default()
}

#[cfg(test)]
mod tests {
    use super::*;

    #[test]
    fn names_are_shown_in_octal_digits() {
        assert_eq!(plain(b"a b\n\\\xff"), "a b\\012\\134\\377");
        let mut reported = Vec::new();
        push_reported(&mut reported, b"a\x7f\xff\\");
        assert_eq!(reported, b"a\\177\xff\\134");
    }
}
