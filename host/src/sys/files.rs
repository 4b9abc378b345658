//! Files and folders: opening by steps, what is known of a file, the names in a folder.

use super::{checked, is};
use std::ffi::CStr;
use std::io;
use std::mem::MaybeUninit;
use std::os::unix::io::{AsRawFd, FromRawFd, OwnedFd, RawFd};

/// What is opened: a folder to be read, or a place that is neither read nor written.
#[derive(Clone, Copy, PartialEq, Eq, Debug)]
pub enum Open {
    Folder,
    FolderPlace,
    Place,
}

/// Opens a name within a folder, never through a link. To read a folder leaves its access time,
/// where this process may ask for that.
pub fn open_in(folder: &impl AsRawFd, name: &CStr, how: Open) -> io::Result<OwnedFd> {
    const FOLDER: i32 = libc::O_RDONLY | libc::O_DIRECTORY | libc::O_NONBLOCK;
    match how {
        Open::Folder => match open_by(folder, name, FOLDER | libc::O_NOATIME) {
            Err(error) if is(&error, libc::EPERM) => open_by(folder, name, FOLDER),
            opened => opened,
        },
        Open::FolderPlace => open_by(folder, name, libc::O_PATH | libc::O_DIRECTORY),
        Open::Place => open_by(folder, name, libc::O_PATH),
    }
}

fn open_by(folder: &impl AsRawFd, name: &CStr, flags: i32) -> io::Result<OwnedFd> {
    let flags = flags | libc::O_NOFOLLOW | libc::O_CLOEXEC;
    // SAFETY: the name ends with a NUL.
    let opened = unsafe { libc::openat(folder.as_raw_fd(), name.as_ptr(), flags) };
    checked(opened.into())?;
    // SAFETY: the call gave this descriptor, and nothing else owns it.
    Ok(unsafe { OwnedFd::from_raw_fd(opened) })
}

/// Opens a file for reading that has to be a regular one; a pipe or a device isn't waited for.
pub fn open_regular(path: &CStr) -> io::Result<std::fs::File> {
    let flags = libc::O_RDONLY | libc::O_NONBLOCK | libc::O_NOCTTY | libc::O_CLOEXEC;
    // SAFETY: the path ends with a NUL.
    let opened = unsafe { libc::open(path.as_ptr(), flags) };
    checked(opened.into())?;
    // SAFETY: the call gave this descriptor, and nothing else owns it.
    let file = std::fs::File::from(unsafe { OwnedFd::from_raw_fd(opened) });
    if file.metadata()?.is_file() {
        Ok(file)
    } else {
        Err(io::Error::new(io::ErrorKind::Other, "not a regular file"))
    }
}

/// What tells one file from another.
#[derive(Clone, Copy, PartialEq, Eq, Debug, Default)]
pub struct Status {
    pub device: u64,
    pub inode: u64,
    pub mode: u32,
    pub links: u32,
    /// When it was made, in nanoseconds; of a file system that doesn't keep it the hash of its
    /// handle, which holds the generation of the inode; and zero where there is neither.
    pub birth: u64,
}

/// The status of a name within a folder, of a link its own, and never one that mounts anything.
pub fn status_in(folder: RawFd, name: &CStr) -> io::Result<Status> {
    status_by(folder, name, 0)
}

/// The status of what is open.
pub fn status_of(file: &impl AsRawFd) -> io::Result<Status> {
    status_by(file.as_raw_fd(), EMPTY, libc::AT_EMPTY_PATH)
}

/// How many inodes are in use on the file system of a file, where it keeps count.
pub fn inodes_in_use(file: &impl AsRawFd) -> Option<u64> {
    let mut found = MaybeUninit::<libc::statvfs>::zeroed();
    // SAFETY: the kernel fills the whole of `found`.
    checked(unsafe { libc::fstatvfs(file.as_raw_fd(), found.as_mut_ptr()) }.into()).ok()?;
    // SAFETY: it was zeroed, which is a value of this type, and then filled.
    let found = unsafe { found.assume_init() };
    found.f_files.checked_sub(found.f_ffree).filter(|_| found.f_files > 0)
}

/// The working folder, in place of a descriptor.
pub const HERE: RawFd = libc::AT_FDCWD;

/// A folder within itself.
// SAFETY: the last byte is a NUL, and no other.
pub const DOT: &CStr = unsafe { CStr::from_bytes_with_nul_unchecked(b".\0") };
// SAFETY: one byte that is a NUL, and no other.
const EMPTY: &CStr = unsafe { CStr::from_bytes_with_nul_unchecked(b"\0") };

fn status_by(folder: RawFd, name: &CStr, flags: i32) -> io::Result<Status> {
    let flags = flags | libc::AT_SYMLINK_NOFOLLOW | libc::AT_NO_AUTOMOUNT;
    let wanted = libc::STATX_TYPE | libc::STATX_NLINK | libc::STATX_INO | libc::STATX_BTIME;
    let mut found = MaybeUninit::<libc::statx>::zeroed();
    // SAFETY: the name ends with a NUL, and the kernel fills the whole of `found`.
    let answer = unsafe { libc::statx(folder, name.as_ptr(), flags, wanted, found.as_mut_ptr()) };
    checked(answer.into())?;
    // SAFETY: it was zeroed, which is a value of this type, and then filled.
    let found = unsafe { found.assume_init() };
    let birth = match found.stx_mask & libc::STATX_BTIME {
        0 => handle_hash(folder, name, flags & libc::AT_EMPTY_PATH),
        _ => moment(found.stx_btime.tv_sec, found.stx_btime.tv_nsec),
    };
    Ok(Status {
        device: libc::makedev(found.stx_dev_major, found.stx_dev_minor),
        inode: found.stx_ino,
        mode: u32::from(found.stx_mode),
        links: found.stx_nlink,
        birth,
    })
}

/// Never zero, which stands for none.
fn moment(seconds: i64, nanoseconds: u32) -> u64 {
    let moment = seconds as u64;
    moment.wrapping_mul(1_000_000_000).wrapping_add(nanoseconds.into()).max(1)
}

const HANDLE_ROOM: usize = 128;

#[repr(C)]
struct Handle {
    length: u32,
    kind: i32,
    bytes: [u8; HANDLE_ROOM],
}

/// The hash of a file's handle, or zero.
fn handle_hash(folder: RawFd, name: &CStr, flags: i32) -> u64 {
    let mut handle = Handle { length: HANDLE_ROOM as u32, kind: 0, bytes: [0; HANDLE_ROOM] };
    let mut mount = 0i32;
    // SAFETY: the name ends with a NUL; `handle` has the layout of the kernel's file_handle with
    // as much room behind it as it says, and `mount` is an int.
    let answer = unsafe {
        libc::syscall(
            libc::SYS_name_to_handle_at,
            folder,
            name.as_ptr(),
            &mut handle as *mut Handle,
            &mut mount as *mut i32,
            flags,
        )
    };
    let length = handle.length as usize;
    if answer != 0 || length > HANDLE_ROOM {
        return 0;
    }
    hash_of(&handle.bytes[..length]).max(1)
}

/// FNV-1a: it tells apart what nobody chooses.
fn hash_of(bytes: &[u8]) -> u64 {
    bytes.iter().fold(0xcbf2_9ce4_8422_2325, |hash, &byte| {
        (hash ^ u64::from(byte)).wrapping_mul(0x100_0000_01b3)
    })
}

/// Fills the buffer with entries of an open folder, and says how many bytes of it; none at the end.
pub fn read_names(folder: &impl AsRawFd, room: &mut [u8]) -> io::Result<usize> {
    // SAFETY: the kernel writes at most `room.len()` bytes there.
    checked(unsafe {
        libc::syscall(libc::SYS_getdents64, folder.as_raw_fd(), room.as_mut_ptr(), room.len())
    })
}

/// Makes an open folder the working folder of this thread, or of the process where its threads
/// share one.
pub fn enter(folder: &impl AsRawFd) -> io::Result<()> {
    // SAFETY: the call takes a number alone.
    checked(unsafe { libc::fchdir(folder.as_raw_fd()) }.into()).map(|_| ())
}

/// Gives this thread a working folder of its own.
pub fn part_from_others() -> io::Result<()> {
    // SAFETY: the call takes a number alone.
    checked(unsafe { libc::unshare(libc::CLONE_FS) }.into()).map(|_| ())
}

/// A file in memory that programs started from here have open too.
pub fn memory_file(name: &CStr) -> io::Result<std::fs::File> {
    // SAFETY: the name ends with a NUL.
    let made = unsafe { libc::memfd_create(name.as_ptr(), 0) };
    checked(made.into())?;
    // SAFETY: the call gave this descriptor, and nothing else owns it.
    Ok(std::fs::File::from(unsafe { OwnedFd::from_raw_fd(made) }))
}

/// Takes the lock of a file, without waiting where `waits` isn't set; false where another has it.
pub fn lock(file: &impl AsRawFd, waits: bool) -> io::Result<bool> {
    let how = libc::LOCK_EX | if waits { 0 } else { libc::LOCK_NB };
    // SAFETY: the call takes numbers alone.
    match checked(unsafe { libc::flock(file.as_raw_fd(), how) }.into()) {
        Ok(_) => Ok(true),
        Err(error) if is(&error, libc::EWOULDBLOCK) => Ok(false),
        Err(error) => Err(error),
    }
}

/// Gives a pipe more room, if it may have it, and makes writes to it end where it is full.
pub fn widen(pipe: &impl AsRawFd) -> io::Result<()> {
    // SAFETY: these calls take numbers alone.
    unsafe {
        libc::fcntl(pipe.as_raw_fd(), libc::F_SETPIPE_SZ, 1 << 20);
        let flags = libc::fcntl(pipe.as_raw_fd(), libc::F_GETFL);
        checked(flags.into())?;
        let answer = libc::fcntl(pipe.as_raw_fd(), libc::F_SETFL, flags | libc::O_NONBLOCK);
        checked(answer.into()).map(|_| ())
    }
}

#[cfg(test)]
mod tests {
    use super::*;

    #[test]
    fn a_folder_is_read() {
        let root = std::fs::File::open("/").unwrap();
        let mut room = vec![0; 1 << 16];
        assert!(read_names(&root, &mut room).unwrap() > 0);
        let status = status_of(&root).unwrap();
        assert_eq!(status.mode & libc::S_IFMT, libc::S_IFDIR);
    }
    #[test]
    fn a_place_has_the_birth_of_its_name() {
        let root = std::fs::File::open("/").unwrap();
        let name = CStr::from_bytes_with_nul(b"proc\0").unwrap();
        let place = open_in(&root, name, Open::Place).unwrap();
        assert_eq!(status_in(root.as_raw_fd(), name).unwrap(), status_of(&place).unwrap());
    }
    #[test]
    fn a_pipe_is_not_waited_for() {
        let path = CStr::from_bytes_with_nul(b"/dev/null\0").unwrap();
        assert!(open_regular(path).is_err());
    }
}
