//! One run at a time for a root: a file in /run that only root may open, named by the device and
//! the inode of the root. In it stands whether a run that sets was stopped in its middle.

use crate::say::{refusal, refuse, say, Outcome};
use crate::sys::files::{lock, Status};
use crate::sys::process::stopping;
use crate::sys::{is, reason};
use std::fs::{File, OpenOptions};
use std::io::{self, Read, Seek, Write};
use std::os::unix::fs::{MetadataExt, OpenOptionsExt};

const FOLDER: &str = "/run";
const AT_WORK: &[u8] = b"at work\n";

/// The lock, as long as it stands.
pub struct Lock(File);

impl Lock {
    /// Waits for another run, and says so; none where a signal asks to stop.
    pub fn take(root: &Status) -> Outcome<Option<Lock>> {
        let path = format!("{FOLDER}/relabel-tree.{:x}-{:x}.lock", root.device, root.inode);
        let failed = |error: io::Error| refusal(format!("{path}: {}", reason(&error)));
        let file = OpenOptions::new()
            .read(true)
            .write(true)
            .create(true)
            .mode(0o600)
            .custom_flags(libc::O_NOFOLLOW | libc::O_NONBLOCK)
            .open(&path)
            .map_err(failed)?;
        let found = file.metadata().map_err(failed)?;
        if !found.is_file() || found.uid() != 0 || found.mode() & 0o077 != 0 {
            return refuse(format!("{path}: not a file of root alone"));
        }
        if !lock(&file, false).map_err(failed)? {
            say("another run is at work here; this one waits for it");
            loop {
                match lock(&file, true) {
                    Ok(_) => break,
                    Err(_) if stopping().is_some() => return Ok(None),
                    Err(error) if is(&error, libc::EINTR) => {}
                    Err(error) => return Err(failed(error)),
                }
            }
        }
        Ok(Some(Lock(file)))
    }
    /// Whether the last run was stopped in its middle.
    pub fn was_stopped(&mut self) -> bool {
        let mut text = Vec::new();
        let read = self.0.rewind().and_then(|()| self.0.read_to_end(&mut text));
        read.is_ok() && text == AT_WORK
    }
    /// From here on labels are set.
    pub fn note_begun(&mut self) {
        let _ = self.0.set_len(0);
        let _ = self.0.rewind().and_then(|()| self.0.write_all(AT_WORK));
    }
    pub fn note_done(&mut self) {
        let _ = self.0.set_len(0);
    }
}
