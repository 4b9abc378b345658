//! The paths that a run is given: absolute, as seen from within the root, with the links on the way
//! to the last name resolved there.

use crate::mounts::names;
use crate::say::{plain, refuse, Outcome};
use std::ffi::OsStr;
use std::fs::File;
use std::io;
use std::os::unix::ffi::{OsStrExt, OsStringExt};
use std::path::{Path, PathBuf};

/// The root of a tree, and how paths are seen from within it.
pub struct Root {
    /// Without a slash at its end: nothing for that of this system.
    pub at: Vec<u8>,
}

pub fn as_path(bytes: &[u8]) -> &Path {
    Path::new(OsStr::from_bytes(bytes))
}

impl Root {
    pub fn of(word: &[u8]) -> Outcome<Root> {
        let told = plain(word);
        let found = std::fs::canonicalize(as_path(word));
        match found.map(PathBuf::into_os_string) {
            Ok(path) if Path::new(&path).is_dir() => {
                let path = path.into_vec();
                Ok(Root { at: if path == b"/" { Vec::new() } else { path } })
            }
            _ => refuse(format!("-r {told}: no such folder; name the one that holds etc")),
        }
    }
    pub fn is_other(&self) -> bool {
        !self.at.is_empty()
    }
    pub fn open(&self) -> io::Result<File> {
        File::open(as_path(if self.is_other() { &self.at } else { b"/" }))
    }
    /// The same path as seen from here.
    pub fn outside(&self, path: &[u8]) -> Vec<u8> {
        match path {
            b"/" if self.at.is_empty() => b"/".to_vec(),
            b"/" => self.at.clone(),
            _ => [&self.at[..], path].concat(),
        }
    }
    /// The path of a word, which has to be there.
    pub fn path_of(&self, word: &[u8]) -> Outcome<Vec<u8>> {
        let path = self.absolute(word)?;
        let outside = self.outside(&path);
        match std::fs::symlink_metadata(as_path(&outside)) {
            Ok(_) => Ok(path),
            Err(_) => refuse(format!("{}: not found", plain(&outside))),
        }
    }
    /// The path of a word that may not be there.
    pub fn excluded(&self, word: &[u8]) -> Outcome<Vec<u8>> {
        if word.first() == Some(&b'/') {
            if !is_plain(word) {
                let word = plain(word);
                return refuse(format!("-e {word}: not a plain path; give it without . and .."));
            }
            let plain = joined(&names(word).collect::<Vec<_>>());
            return Ok(self.resolved(&plain).unwrap_or(plain));
        }
        self.absolute(word)
    }
    fn absolute(&self, word: &[u8]) -> Outcome<Vec<u8>> {
        let told = plain(word);
        if self.is_other() {
            if word.first() != Some(&b'/') {
                return refuse(format!(
                    "{told}: with -r a path begins with /, as seen from within ROOT"
                ));
            }
            if !is_plain(word) {
                return refuse(format!("{told}: not a plain path; give it without . and .."));
            }
        }
        let mut path = word.to_vec();
        if word.first() != Some(&b'/') {
            let here = std::env::current_dir().map(|path| path.into_os_string().into_vec());
            path = [&here.unwrap_or_default()[..], b"/", word].concat();
        }
        match self.resolved(&path) {
            Ok(path) => Ok(path),
            Err(_) => refuse(format!("{told}: not found")),
        }
    }
    /// Resolves the links on the way to the last name, as they are seen from within the root.
    fn resolved(&self, path: &[u8]) -> io::Result<Vec<u8>> {
        let mut left: Vec<Vec<u8>> = names(path).map(<[u8]>::to_vec).collect();
        left.reverse();
        let mut done: Vec<Vec<u8>> = Vec::new();
        let mut links = 0;
        while let Some(name) = left.pop() {
            match &name[..] {
                b"." => continue,
                b".." => {
                    done.pop();
                    continue;
                }
                _ => done.push(name),
            }
            if left.is_empty() {
                break;
            }
            let here = self.outside(&joined(&done));
            let metadata = std::fs::symlink_metadata(as_path(&here))?;
            if metadata.file_type().is_symlink() {
                links += 1;
                if links > 40 {
                    return Err(io::Error::from_raw_os_error(libc::ELOOP));
                }
                let target = std::fs::read_link(as_path(&here))?.into_os_string().into_vec();
                done.pop();
                if target.first() == Some(&b'/') {
                    done.clear();
                }
                let steps: Vec<Vec<u8>> = names(&target).map(<[u8]>::to_vec).collect();
                left.extend(steps.into_iter().rev());
            } else if !metadata.is_dir() {
                return Err(io::Error::from_raw_os_error(libc::ENOTDIR));
            }
        }
        Ok(joined(&done))
    }
}

fn joined<T: AsRef<[u8]>>(names: &[T]) -> Vec<u8> {
    let mut path = Vec::new();
    for name in names {
        path.push(b'/');
        path.extend_from_slice(name.as_ref());
    }
    if path.is_empty() {
        path.push(b'/');
    }
    path
}

/// Without a part `.` or `..`, and without double slashes but at its end.
pub fn is_plain(path: &[u8]) -> bool {
    let end = path.iter().rposition(|&byte| byte != b'/').map_or(0, |last| last + 1);
    let mut parts = path[..end].split(|&byte| byte == b'/');
    parts.next();
    path.first() != Some(&b'.') && !parts.any(|part| matches!(part, b"" | b"." | b".."))
}

/// Without those that lie below another one, and each once.
pub fn without_nested(mut paths: Vec<Vec<u8>>) -> Vec<Vec<u8>> {
    paths.sort_by(|a, b| names(a).cmp(names(b)));
    let mut kept: Vec<Vec<u8>> = Vec::new();
    for path in paths {
        let is_within = |above: &Vec<u8>| crate::mounts::is_at_or_below(&path, above);
        if !kept.last().map_or(false, is_within) {
            kept.push(path);
        }
    }
    kept
}

#[cfg(test)]
mod tests {
    use super::*;

    #[test]
    fn plain_paths_have_no_dot_parts() {
        for path in ["/", "//", "/etc", "/etc//", "/a b/..c"] {
            assert!(is_plain(path.as_bytes()), "{path}");
        }
        for path in ["/.", "/etc/..", "/etc/./a", "/a//b", "./a", "/a/../b"] {
            assert!(!is_plain(path.as_bytes()), "{path}");
        }
    }
    #[test]
    fn nested_paths_are_one() {
        let paths = [&b"/b/c"[..], b"/b", b"/a", b"/b", b"/b.c"].map(<[u8]>::to_vec);
        assert_eq!(without_nested(paths.to_vec()), [&b"/a"[..], b"/b", b"/b.c"]);
        assert_eq!(without_nested(vec![b"/a".to_vec(), b"/".to_vec()]), [b"/"]);
    }
    #[test]
    fn links_are_resolved_within_the_root() {
        let room = std::env::temp_dir().join(format!("relabel-paths-{}", std::process::id()));
        std::fs::create_dir_all(room.join("usr/bin")).unwrap();
        std::fs::write(room.join("usr/bin/ls"), "").unwrap();
        let _ = std::os::unix::fs::symlink("/usr/bin", room.join("bin"));
        let _ = std::os::unix::fs::symlink("../../../usr", room.join("up"));
        let root = Root::of(room.as_os_str().as_bytes()).unwrap();
        assert_eq!(root.path_of(b"/bin/ls").unwrap(), b"/usr/bin/ls");
        assert_eq!(root.path_of(b"/up/bin/ls").unwrap(), b"/usr/bin/ls");
        assert_eq!(root.path_of(b"/bin").unwrap(), b"/bin");
        assert!(root.path_of(b"/bin/ls/x").is_err());
        assert!(root.path_of(b"etc").is_err());
        std::fs::remove_dir_all(room).unwrap();
    }
}
