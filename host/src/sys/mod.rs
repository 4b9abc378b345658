//! The system calls, and the only unsafe code of the program. Each has a safe face: what it is
//! given are references and descriptors that live as long as the call, and what it fills is read
//! only as far as the kernel says that it was filled.

pub mod attributes;
pub mod files;
pub mod process;

use std::ffi::CString;
use std::io;

/// The answer of a call that gives -1 for a failure.
fn checked(answer: i64) -> io::Result<usize> {
    usize::try_from(answer).map_err(|_| io::Error::last_os_error())
}

/// A name for the kernel; one with a NUL in it can't exist.
pub fn c_name(name: &[u8]) -> io::Result<CString> {
    CString::new(name).map_err(|_| io::Error::from_raw_os_error(libc::EINVAL))
}

/// What a failed call says, without the number.
pub fn reason(error: &io::Error) -> String {
    let text = error.to_string();
    match text.find(" (os error ") {
        Some(end) => text[..end].to_string(),
        None => text,
    }
}

pub fn is(error: &io::Error, number: i32) -> bool {
    error.raw_os_error() == Some(number)
}

#[cfg(test)]
mod tests {
    use super::*;

    #[test]
    fn a_reason_has_no_number() {
        let error = io::Error::from_raw_os_error(libc::EPERM);
        assert_eq!(reason(&error), "Operation not permitted");
    }
}
