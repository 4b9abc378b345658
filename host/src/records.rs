//! Records of entries, as relabel reads them, and how they get there: a full pipe makes nobody
//! wait, until there is much that waits.

use crate::sys::process::{stopping, wait_for};
use crate::tree::{Entry, LONGEST_PATH};
use std::collections::VecDeque;
use std::fs::File;
use std::io::{ErrorKind, Result, Write};
use std::os::unix::io::RawFd;

/// So many bytes go into the pipe at once.
pub const AT_ONCE: usize = 1 << 17;
/// So many bytes may wait.
const MOST_WAITING: usize = 1 << 26;

/// A label that the format of records can't hold, or that could be taken for something else, isn't
/// told: to relabel it is as good as none, since it is no context.
pub fn is_plain(label: &[u8]) -> bool {
    label != b"?" && label.iter().all(|&byte| (33..127).contains(&byte))
}

fn push_number(to: &mut Vec<u8>, number: u64) {
    let mut digits = [0; 20];
    let mut at = digits.len();
    let mut rest = number;
    loop {
        at -= 1;
        digits[at] = b'0' + (rest % 10) as u8;
        rest /= 10;
        if rest == 0 {
            break;
        }
    }
    to.extend_from_slice(&digits[at..]);
    to.push(b' ');
}

/// Adds a record; the path is that of the directory and a name within it.
pub fn push(to: &mut Vec<u8>, entry: &Entry, links: bool, label: &[u8], path: &[u8], name: &[u8]) {
    to.push(entry.kind.letter());
    to.push(b' ');
    push_number(to, entry.device);
    push_number(to, entry.inode);
    if links {
        push_number(to, entry.links.into());
    }
    if is_plain(label) {
        to.extend_from_slice(label);
    }
    to.push(b' ');
    to.extend_from_slice(path);
    to.push(b'/');
    to.extend_from_slice(name);
    to.push(0);
    debug_assert!(path.len() + name.len() < LONGEST_PATH + 1);
}

/// The way of the records to relabel.
pub struct Outlet {
    pipe: File,
    wakes: RawFd,
    waiting: VecDeque<Vec<u8>>,
    /// How much of the first is written.
    written: usize,
    bytes: usize,
    /// A buffer that was written, for the next records.
    spare: Vec<u8>,
}

impl Outlet {
    /// The pipe doesn't block.
    pub fn new(pipe: File, wakes: RawFd) -> Outlet {
        let (waiting, spare) = (VecDeque::new(), Vec::new());
        Outlet { pipe, wakes, waiting, written: 0, bytes: 0, spare }
    }
    /// Hands over whole records, and leaves a buffer for the next ones.
    pub fn send(&mut self, records: &mut Vec<u8>) -> Result<()> {
        let mut room = std::mem::take(&mut self.spare);
        room.clear();
        room.reserve(AT_ONCE + 2 * LONGEST_PATH);
        let records = std::mem::replace(records, room);
        self.bytes += records.len();
        self.waiting.push_back(records);
        self.write(MOST_WAITING)
    }
    /// Writes all that waits.
    pub fn finish(mut self) -> Result<()> {
        self.write(0)
    }
    /// Writes what the pipe takes, and waits for it while more than so many bytes are left.
    fn write(&mut self, left: usize) -> Result<()> {
        while let Some(first) = self.waiting.front() {
            if self.written == first.len() {
                self.spare = self.waiting.pop_front().unwrap_or_default();
                self.written = 0;
                continue;
            }
            match self.pipe.write(&first[self.written..]) {
                Ok(count) => {
                    self.written += count;
                    self.bytes -= count;
                }
                Err(error) if error.kind() == ErrorKind::Interrupted => {}
                Err(error) if error.kind() != ErrorKind::WouldBlock => return Err(error),
                Err(_) if self.bytes <= left => return Ok(()),
                Err(_) => wait_for(self.wakes, &self.pipe, true)?,
            }
            if stopping().is_some() {
                return Err(ErrorKind::Interrupted.into());
            }
        }
        Ok(())
    }
}

#[cfg(test)]
mod tests {
    use super::*;

    #[test]
    fn labels_that_could_be_mistaken_are_not_plain() {
        for label in [&b"evil /x"[..], b"?", b"a\0b", b"a\nb", b"\xc3\xa9", b"a\tb"] {
            assert!(!is_plain(label));
        }
        assert!(is_plain(b"system_u:object_r:etc_t:s0"));
    }
    #[test]
    fn numbers_have_a_blank_behind_them() {
        let mut text = Vec::new();
        push_number(&mut text, 0);
        push_number(&mut text, u64::MAX);
        assert_eq!(text, b"0 18446744073709551615 ");
    }
}
