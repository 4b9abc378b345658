//! Has relabel decide: starts it, gives it records by a pipe, and takes its report and its dump.

use crate::records::Outlet;
use crate::say::{plain, refusal, say, Outcome, Refusal};
use crate::sys::files::{memory_file, widen};
use crate::sys::process::{end_group, start_apart, stopping, wait_for};
use crate::sys::reason;
use std::ffi::{CStr, OsStr, OsString};
use std::fs::File;
use std::io::{self, ErrorKind, Read, Seek, Write};
use std::os::unix::ffi::OsStrExt;
use std::os::unix::io::{AsRawFd, OwnedFd, RawFd};
use std::os::unix::process::ExitStatusExt;
use std::path::PathBuf;
use std::process::{Child, ChildStdout, Command, ExitStatus, Stdio};

/// relabel takes no more workers.
const MOST_WORKERS: usize = 64;

/// How relabel is asked.
pub struct Decider {
    pub program: PathBuf,
    pub spec: Vec<u8>,
    pub types: Vec<u8>,
    pub forces: bool,
    pub keeps: bool,
    pub workers: usize,
    pub wakes: RawFd,
}

/// relabel at work.
pub struct Running {
    child: Child,
    report: ChildStdout,
    dump: File,
    wakes: RawFd,
    /// Until relabel has ended, since it opens this by the number.
    _known: Option<File>,
}

/// What relabel says.
pub struct Answer {
    pub report: Vec<u8>,
    pub dump: Vec<u8>,
    pub status: ExitStatus,
}

fn by_number(file: &File) -> OsString {
    OsString::from(format!("/proc/self/fd/{}", file.as_raw_fd()))
}

fn memory(name: &'static [u8]) -> io::Result<File> {
    memory_file(CStr::from_bytes_with_nul(name).unwrap_or_default())
}

fn cannot_start(error: io::Error) -> Refusal {
    refusal(format!("relabel can't be started: {}", reason(&error)))
}

impl Decider {
    /// Starts it, with the digests that it may take as known.
    pub fn start(&self, known: Option<&[u8]>) -> Outcome<(Running, Outlet)> {
        self.start_with(known).map_err(cannot_start)
    }
    fn start_with(&self, known: Option<&[u8]>) -> io::Result<(Running, Outlet)> {
        let dump = memory(b"dump\0")?;
        let known = match known {
            Some(known) => {
                let mut file = memory(b"digests\0")?;
                file.write_all(known)?;
                Some(file)
            }
            None => None,
        };
        let mut command = Command::new(&self.program);
        command.args(["restorecon", "-R", "-i", "-v", "-C", "-T"]);
        command.arg(self.workers.min(MOST_WORKERS).to_string());
        command.arg("-S").arg(OsStr::from_bytes(&self.spec));
        if self.keeps {
            command.args(["-2", "-D"]);
        }
        if self.forces {
            command.arg("-F");
        }
        if let Some(known) = &known {
            command.arg("-K").arg(by_number(known));
        }
        command.arg("-o").arg(by_number(&dump)).args(["--", "/"]);
        command.env("RELABEL_CUSTOMIZABLE_TYPES", OsStr::from_bytes(&self.types));
        command.current_dir("/").stdin(Stdio::piped()).stdout(Stdio::piped());
        let mut child = start_apart(&mut command)?;
        let pipes = child.stdin.take().zip(child.stdout.take());
        let (input, report) = pipes.ok_or_else(|| io::Error::from(ErrorKind::BrokenPipe))?;
        let input = File::from(OwnedFd::from(input));
        widen(&input)?;
        let outlet = Outlet::new(input, self.wakes);
        Ok((Running { child, report, dump, wakes: self.wakes, _known: known }, outlet))
    }
}

impl Running {
    /// Ends it, where nobody wants its answer any more.
    pub fn end(mut self) {
        end_group(&self.child);
        let _ = self.child.wait();
    }
    /// Its answer, or none where a signal asks to stop.
    pub fn finish(mut self) -> Outcome<Option<Answer>> {
        let mut report = Vec::new();
        let read = self.read_report(&mut report);
        if stopping().is_some() {
            self.end();
            return Ok(None);
        }
        let status = read.and_then(|()| self.child.wait());
        let mut dump = Vec::new();
        let whole = status.and_then(|status| {
            self.dump.rewind()?;
            self.dump.read_to_end(&mut dump)?;
            Ok(status)
        });
        match whole {
            Ok(status) => Ok(Some(Answer { report, dump, status })),
            Err(error) => {
                let told = format!("relabel's answer can't be read: {}", reason(&error));
                self.end();
                Err(refusal(told))
            }
        }
    }
    fn read_report(&mut self, report: &mut Vec<u8>) -> io::Result<()> {
        let mut room = vec![0; 1 << 16];
        loop {
            wait_for(self.wakes, &self.report, false)?;
            if stopping().is_some() {
                return Ok(());
            }
            match self.report.read(&mut room) {
                Ok(0) => return Ok(()),
                Ok(length) => report.extend_from_slice(&room[..length]),
                Err(error) if error.kind() == ErrorKind::Interrupted => {}
                Err(error) => return Err(error),
            }
        }
    }
}

impl Answer {
    /// Whether it refuses the records, since one path has two that differ.
    pub fn tells_two(&self) -> bool {
        self.status.code() == Some(255)
            && self.report.starts_with(b"relabel: records ")
            && self.report.ends_with(b": one path, two entries\n")
    }
    /// Refuses the answer where relabel refused something; else says whether it met an error.
    pub fn check(&self, was_set: bool) -> Outcome<()> {
        let status = match (self.status.code(), self.status.signal()) {
            (Some(0 | 1), _) => return Ok(()),
            (Some(status), _) => u8::try_from(status).unwrap_or(crate::say::USAGE),
            (None, signal) => {
                say(&format!("relabel was ended by signal {}", signal.unwrap_or_default()));
                crate::say::USAGE
            }
        };
        let line = self.report.split(|&byte| byte == b'\n').next().unwrap_or_default();
        let line = plain(line);
        if !line.is_empty() {
            say(&line);
        }
        if let Some(hint) = hint(status, &line) {
            say(hint);
        }
        let text = if was_set { "what was set stays" } else { "nothing was set" };
        Err(Refusal { status, text: text.into() })
    }
}

/// What can be done about a refusal.
fn hint(status: u8, line: &str) -> Option<&'static str> {
    let is_limit = line.ends_with("limit: records") || line.ends_with("limit: bytes of input");
    match status {
        254 => Some("too much at once: name the folders one after the other, as /usr, then /var"),
        255 if is_limit => {
            Some("too much at once: name the folders one after the other, as /usr, then /var")
        }
        255 if line.contains(": line ") => {
            Some("mend that line of the policy, or name another by -t or -p")
        }
        252 => Some("relabel can't write: is memory full, or the size of files limited?"),
        251 => Some("SPEC is not UTF-8; name the policy by another path"),
        _ => None,
    }
}

#[cfg(test)]
mod tests {
    use super::*;

    #[test]
    fn refusals_have_hints() {
        assert!(hint(255, "relabel: limit: records").unwrap().contains("too much"));
        assert!(hint(255, "relabel: /a: line 1: bad type").unwrap().contains("mend"));
        assert!(hint(251, "").unwrap().contains("UTF-8"));
        assert_eq!(hint(255, "relabel: record 1: missing field"), None);
    }
}
