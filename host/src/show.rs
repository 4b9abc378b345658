//! What a run shows on standard output: the lines of the report, in their order, each change once
//! it is done.

use crate::json::{self, Value};
use crate::records::is_plain;
use crate::say::{note_unwritten, plain, push_reported, set_progress, WIPE};
use crate::sys::process::is_terminal;
use crate::words::{Mode, Words};
use std::io::{stdout, Write};
use std::sync::atomic::{AtomicU8, Ordering};
use std::sync::Mutex;

/// What has become of a change.
pub const WAITS: u8 = 0;
pub const DONE: u8 = 1;
pub const FAILED: u8 = 2;

/// A line of the report, or the number of a change.
pub enum Item<'a> {
    Line(&'a [u8]),
    Change(usize),
}

/// One change, as it is shown.
pub struct Shown<'a> {
    pub path: &'a [u8],
    pub from: &'a [u8],
    pub to: &'a [u8],
}

/// How it is shown.
#[derive(Clone, Copy)]
pub struct Style {
    pub json: bool,
    sets: bool,
    is_terminal: bool,
}

impl Style {
    pub fn of(words: &Words) -> Style {
        let sets = words.mode == Mode::Set;
        Style { json: words.json, sets, is_terminal: is_terminal(1) }
    }
    pub fn write(&self, text: &[u8]) {
        if text.is_empty() {
            return;
        }
        let mut out = stdout().lock();
        if self.is_terminal {
            set_progress(false);
            let _ = out.write_all(WIPE.as_bytes());
        }
        if out.write_all(text).and_then(|()| out.flush()).is_err() {
            note_unwritten();
        }
    }
    fn push_line(&self, to: &mut Vec<u8>, line: &[u8]) {
        if self.json {
            to.extend(json::line(&[("report", Value::Name(line))]).into_bytes());
            return;
        }
        if self.is_terminal {
            push_plain(to, line, false);
        } else {
            to.extend_from_slice(line);
        }
        to.push(b'\n');
    }
    fn push_change(&self, to: &mut Vec<u8>, shown: &Shown) {
        if self.json {
            let fields = [
                ("name", Value::Name(shown.path)),
                ("from", Value::Name(shown.from)),
                ("to", Value::Name(shown.to)),
            ];
            to.extend(json::line(&fields).into_bytes());
            return;
        }
        to.extend_from_slice(if self.sets { b"Relabeled " } else { b"Would relabel " });
        let mut name = Vec::new();
        push_reported(&mut name, shown.path);
        match self.is_terminal {
            true => push_plain(to, &name, true),
            false => to.extend_from_slice(&name),
        }
        to.extend_from_slice(b" from ");
        match shown.from {
            b"" => to.extend_from_slice(b"<no context>"),
            from if is_plain(from) => to.extend_from_slice(from),
            from => to.extend(plain(from).replace(' ', "\\040").into_bytes()),
        }
        to.extend_from_slice(b" to ");
        to.extend_from_slice(shown.to);
        to.push(b'\n');
    }
    /// A name that isn't set, for `--json`.
    pub fn tell_unset(&self, path: &[u8], why: &str) {
        if self.json {
            let fields = [("name", Value::Name(path)), ("not set", Value::Text(why))];
            self.write(json::line(&fields).as_bytes());
        }
    }
}

/// The octal digits of bytes that aren't plain ASCII, of a backslash none, since that of the report
/// is one already; and of blanks where they could be taken for the end of a name.
fn push_plain(to: &mut Vec<u8>, text: &[u8], blanks: bool) {
    for &byte in text {
        match byte {
            b' ' if blanks => to.extend_from_slice(b"\\040"),
            b'\\' | b' ' => to.push(byte),
            _ => to.extend_from_slice(plain(&[byte]).as_bytes()),
        }
    }
}

/// Shows items as far as the changes among them are done.
pub struct Shower<'a, F: Fn(usize) -> Shown<'a> + Sync> {
    pub style: Style,
    pub items: &'a [Item<'a>],
    pub answers: &'a [AtomicU8],
    pub shown: F,
    next: Mutex<usize>,
}

const AT_ONCE: usize = 1 << 16;

impl<'a, F: Fn(usize) -> Shown<'a> + Sync> Shower<'a, F> {
    pub fn new(style: Style, items: &'a [Item<'a>], answers: &'a [AtomicU8], shown: F) -> Self {
        Shower { style, items, answers, shown, next: Mutex::new(0) }
    }
    /// Shows what is next, unless another thread does so now.
    pub fn go_on(&self) {
        if let Ok(mut next) = self.next.try_lock() {
            self.show(&mut next, false);
        }
    }
    /// Shows the rest, without what wasn't done.
    pub fn finish(&self) {
        if let Ok(mut next) = self.next.lock() {
            self.show(&mut next, true);
        }
    }
    fn show(&self, next: &mut usize, is_last: bool) {
        let mut text = Vec::new();
        while let Some(item) = self.items.get(*next) {
            match item {
                Item::Line(line) => self.style.push_line(&mut text, line),
                Item::Change(number) => match self.answers[*number].load(Ordering::Acquire) {
                    DONE => self.style.push_change(&mut text, &(self.shown)(*number)),
                    WAITS if !is_last => break,
                    _ => {}
                },
            }
            *next += 1;
            if text.len() >= AT_ONCE {
                self.style.write(&text);
                text.clear();
            }
        }
        self.style.write(&text);
    }
}
