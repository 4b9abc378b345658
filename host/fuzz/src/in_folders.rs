//! Paths and mounts. Paths are resolved in the folder that FUZZ_ROOT names, beside the kernel.

use crate::mounts::{is_at_or_below, left_out_by, names, parse, Asked, Cause, Special};
use crate::paths::{as_path, is_plain, without_nested, Root};
use crate::sys::c_name;
use crate::tree::LONGEST_PATH;
use std::os::unix::fs::MetadataExt;
use std::os::unix::io::{AsRawFd, FromRawFd};
use std::sync::OnceLock;

/// The names in what getdents64(2) tells.
pub fn kernel_names(input: &[u8]) {
    let mut length = 0;
    for name in crate::scan::names_in(input) {
        let name = name.to_bytes_with_nul();
        assert!(!matches!(name, b"\0" | b".\0" | b"..\0"));
        assert!(input.windows(name.len()).any(|window| window == name));
        length += name.len();
    }
    assert!(length <= input.len());
}

pub fn plain_paths(input: &[u8]) {
    let all: Vec<Vec<u8>> = input
        .split(|&byte| byte == b'\n')
        .filter(|path| path.first() == Some(&b'/') && is_plain(path))
        .map(<[u8]>::to_vec)
        .collect();
    for path in &all {
        assert!(!names(path).any(|name| matches!(name, b"." | b"..")));
    }
    let kept = without_nested(all.clone());
    for path in &all {
        let mut above = names_below(&kept, path);
        assert!(above.next().is_some() && above.next().is_none());
    }
}

/// Of the paths those at or above another one.
fn names_below<'a>(kept: &'a [Vec<u8>], path: &'a [u8]) -> impl Iterator<Item = &'a Vec<u8>> + 'a {
    kept.iter().filter(move |above| {
        let mut steps = names(path);
        names(above).all(|name| steps.next() == Some(name))
    })
}

/// The table of mounts; its first line tells what is asked for: letters, the root, the paths.
pub fn mounts(input: &[u8]) {
    let end = input.iter().position(|&byte| byte == b'\n').unwrap_or(input.len());
    let (head, table) = input.split_at(end);
    let mut head = head.split(|&byte| byte == b' ');
    let letters = head.next().unwrap_or_default();
    let at = head.next().filter(|at| at.first() == Some(&b'/') && at.len() > 1);
    let absolute = |path: &&[u8]| path.first() == Some(&b'/') && is_plain(path);
    let mut paths = without_nested(head.filter(absolute).map(<[u8]>::to_vec).collect());
    if paths.is_empty() {
        paths.push(b"/".to_vec());
    }
    let asked = Asked {
        at: at.unwrap_or_default(),
        paths: &paths,
        one_system: letters.contains(&b'x'),
        sets: letters.contains(&b's'),
    };
    let table = parse(table);
    let left_out = left_out_by(&table, &asked);
    let special = Special::tree(&left_out);
    for (path, cause) in left_out.iter().filter(|(path, _)| path.len() <= LONGEST_PATH) {
        assert!(special.cause_at(path).is_some());
        assert!(!matches!(cause, Cause::Second(first) if first == path));
        assert!(!cause.text().is_empty());
    }
    assert!(left_out_by(&table, &asked) == left_out);
}

/// A folder in which paths are resolved.
struct Place {
    root: Root,
    opened: std::fs::File,
}

fn place() -> &'static Place {
    static PLACE: OnceLock<Place> = OnceLock::new();
    PLACE.get_or_init(|| {
        let named = std::env::var("FUZZ_ROOT").expect("FUZZ_ROOT names a folder");
        let opened = std::fs::File::open(&named).expect("no such folder");
        Place { root: Root::of(named.as_bytes()).expect("no such folder"), opened }
    })
}

#[repr(C)]
struct How {
    flags: u64,
    mode: u64,
    resolve: u64,
}

const RESOLVE_IN_ROOT: u64 = 0x10;

/// The device and the inode that the kernel finds within the root, or the error's number.
fn found_by_kernel(root: &std::fs::File, path: &[u8]) -> Result<(u64, u64), i32> {
    let path = c_name(path).map_err(|_| libc::EINVAL)?;
    let flags = (libc::O_PATH | libc::O_NOFOLLOW | libc::O_CLOEXEC) as u64;
    let how = How { flags, mode: 0, resolve: RESOLVE_IN_ROOT };
    // SAFETY: the path ends with a NUL, and the kernel reads `how` as far as it is told.
    let opened = unsafe {
        libc::syscall(
            libc::SYS_openat2,
            root.as_raw_fd(),
            path.as_ptr(),
            &how as *const How,
            std::mem::size_of::<How>(),
        )
    };
    if opened < 0 {
        return Err(std::io::Error::last_os_error().raw_os_error().unwrap_or_default());
    }
    // SAFETY: the call gave this descriptor, and nothing else owns it.
    let file = unsafe { std::fs::File::from_raw_fd(opened as i32) };
    let found = file.metadata().map_err(|_| libc::EIO)?;
    Ok((found.dev(), found.ino()))
}

/// A path of the command line or of fixfiles_exclude_dirs, as seen from within a root.
pub fn path(input: &[u8]) {
    let Place { root, opened } = place();
    let end = input.iter().rposition(|&byte| byte != b'/').map_or(0, |last| last + 1);
    let trimmed = if end == 0 { &b"/"[..] } else { &input[..end] };
    let by_kernel = found_by_kernel(opened, trimmed);
    if by_kernel == Err(libc::ENOSYS) {
        panic!("openat2 is needed");
    }
    let found = root.path_of(input);
    if let Ok(path) = &found {
        assert!(
            path.starts_with(b"/") && (is_plain(path) && !path.ends_with(b"/") || path == b"/")
        );
        let at = root.outside(path);
        assert!(is_at_or_below(&at, &root.at));
        let metadata = std::fs::symlink_metadata(as_path(&at)).expect("not there");
        assert_eq!(by_kernel, Ok((metadata.dev(), metadata.ino())));
    } else if input.first() == Some(&b'/') && is_plain(input) {
        assert!(by_kernel.is_err(), "what is there isn't found");
    }
    if let Ok(path) = root.excluded(input) {
        assert!(path.starts_with(b"/"));
        assert!(!names(&path).any(|name| matches!(name, b"." | b"..")));
    }
}
