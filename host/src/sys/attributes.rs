//! Extended attributes: by a name in the working folder, by an open descriptor, and through
//! `/proc/self/fd`, where the working folder is that one and a descriptor's number is its name.

use super::checked;
use std::ffi::CStr;
use std::io;
use std::os::unix::io::{AsRawFd, RawFd};

/// The attributes of this program.
#[derive(Clone, Copy, PartialEq, Eq, Debug)]
pub enum Attribute {
    Label,
    Digest,
}

impl Attribute {
    fn name(self) -> &'static CStr {
        let bytes: &[u8] = match self {
            Attribute::Label => b"security.selinux\0",
            Attribute::Digest => b"security.sehash\0",
        };
        CStr::from_bytes_with_nul(bytes).unwrap_or_default()
    }
}

/// The number of a descriptor as a name within `/proc/self/fd`.
pub struct Number([u8; 12], usize);

impl Number {
    pub fn of(descriptor: &impl AsRawFd) -> Number {
        Number::from(descriptor.as_raw_fd())
    }
    fn from(descriptor: RawFd) -> Number {
        let mut digits = [0; 12];
        let mut at = digits.len() - 1;
        let mut rest = descriptor.max(0);
        loop {
            at -= 1;
            digits[at] = b'0' + (rest % 10) as u8;
            rest /= 10;
            if rest == 0 {
                return Number(digits, at);
            }
        }
    }
    pub fn name(&self) -> &CStr {
        CStr::from_bytes_with_nul(&self.0[self.1..]).unwrap_or_default()
    }
}

/// The value of the attribute of a file in the working folder, without following a link.
pub fn get_by_name(name: &CStr, which: Attribute, room: &mut [u8]) -> io::Result<usize> {
    // SAFETY: both names end with a NUL, and the kernel writes at most `room.len()` bytes there.
    checked(unsafe {
        libc::lgetxattr(name.as_ptr(), which.name().as_ptr(), room.as_mut_ptr().cast(), room.len())
    } as i64)
}

/// The value of the attribute of an open file, by a descriptor that isn't a mere place.
pub fn get_open(file: &impl AsRawFd, which: Attribute, room: &mut [u8]) -> io::Result<usize> {
    // SAFETY: the name ends with a NUL, and the kernel writes at most `room.len()` bytes.
    checked(unsafe {
        libc::fgetxattr(
            file.as_raw_fd(),
            which.name().as_ptr(),
            room.as_mut_ptr().cast(),
            room.len(),
        )
    } as i64)
}

/// The value of the attribute of what a descriptor stands for; the working folder is
/// `/proc/self/fd`.
pub fn get_at(place: &Number, which: Attribute, room: &mut [u8]) -> io::Result<usize> {
    // SAFETY: both names end with a NUL, and the kernel writes at most `room.len()` bytes there.
    checked(unsafe {
        libc::getxattr(
            place.name().as_ptr(),
            which.name().as_ptr(),
            room.as_mut_ptr().cast(),
            room.len(),
        )
    } as i64)
}

/// Sets the attribute of what a descriptor stands for; the working folder is `/proc/self/fd`.
pub fn set_at(place: &Number, which: Attribute, value: &[u8]) -> io::Result<()> {
    // SAFETY: both names end with a NUL, and the kernel reads `value.len()` bytes of the value.
    checked(unsafe {
        libc::setxattr(
            place.name().as_ptr(),
            which.name().as_ptr(),
            value.as_ptr().cast(),
            value.len(),
            0,
        )
    } as i64)
    .map(|_| ())
}

/// Removes the attribute of what a descriptor stands for; the working folder is `/proc/self/fd`.
pub fn remove_at(place: &Number, which: Attribute) -> io::Result<()> {
    // SAFETY: both names end with a NUL.
    checked(unsafe { libc::removexattr(place.name().as_ptr(), which.name().as_ptr()) } as i64)
        .map(|_| ())
}

#[cfg(test)]
mod tests {
    use super::*;

    #[test]
    fn a_number_is_a_name() {
        for (number, name) in [(0, "0"), (7, "7"), (10, "10"), (i32::MAX, "2147483647")] {
            assert_eq!(Number::from(number).name().to_bytes(), name.as_bytes());
        }
    }
}
