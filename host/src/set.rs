//! Sets attributes: each name is opened step by step without following a link, and an attribute is
//! set through what was opened, only where that is what was read.

use crate::scan::without_nul;
use crate::sys::attributes::{get_at, remove_at, set_at, Attribute, Number};
use crate::sys::files::{self, open_in, status_of, Open, DOT};
use crate::sys::process::stopping;
use crate::sys::{c_name, is, reason};
use crate::tree::Kind;
use std::borrow::Cow;
use std::fs::File;
use std::io;
use std::os::unix::io::OwnedFd;
use std::sync::atomic::{AtomicBool, AtomicUsize, Ordering};

/// What has to be at a name.
#[derive(Clone, Copy)]
pub struct Expected<'a> {
    pub device: u64,
    pub inode: u64,
    pub kind: Kind,
    /// Where it is known.
    pub birth: Option<u64>,
    /// The label, none where there was none; unknown where it isn't compared.
    pub label: Option<&'a [u8]>,
}

/// An attribute to be set.
pub struct Change<'a> {
    pub path: Cow<'a, [u8]>,
    /// None where nothing was read of that name.
    pub expected: Option<Expected<'a>>,
    pub value: Cow<'a, [u8]>,
    /// Other names of the inode.
    pub others: Vec<Vec<u8>>,
}

/// Why something isn't set.
#[derive(Debug, PartialEq, Eq)]
pub enum Unset {
    Gone,
    Replaced,
    NoRecord,
    Stuck,
    Failed(String),
}

impl Unset {
    fn of(error: &io::Error) -> Unset {
        match error.raw_os_error() {
            Some(libc::ENOENT) => Unset::Gone,
            Some(libc::ENOTDIR | libc::ELOOP) => Unset::Replaced,
            _ => Unset::Failed(reason(error)),
        }
    }
    pub fn text(&self) -> &str {
        match self {
            Unset::Gone => "gone since it was read",
            Unset::Replaced => "not what was read, left as it is",
            Unset::NoRecord => "has no record, left as it is",
            Unset::Stuck => "a digest here or above can't be removed, left as it is",
            Unset::Failed(text) => text,
        }
    }
}

/// Who is told what becomes of the changes, by several threads.
pub trait Watch: Sync {
    fn done(&self, number: usize, answer: Result<(), Unset>);
    /// After some changes that stand together.
    fn pause(&self) {}
}

/// The changes, and how they are set.
pub struct Setting<'a> {
    pub root: &'a OwnedFd,
    pub changes: &'a [Change<'a>],
    pub attribute: Attribute,
    pub threads: usize,
    /// So many folders each thread keeps open.
    pub most_open: usize,
}

const AT_ONCE: usize = 64;

/// Sets all, or stops behind the one in hand where a signal asks for that.
pub fn set_all(setting: &Setting, watch: &impl Watch) -> io::Result<()> {
    let next = AtomicUsize::new(0);
    let descriptors = File::open("/proc/self/fd")?;
    let threads = setting.threads.min(setting.changes.len() / AT_ONCE + 1);
    if threads <= 1 {
        files::enter(&descriptors)?;
        work(setting, &next, watch);
        return Ok(());
    }
    let failed = AtomicBool::new(false);
    std::thread::scope(|scope| {
        for _ in 0..threads {
            let set = || {
                let entered = files::part_from_others().and_then(|()| files::enter(&descriptors));
                match entered {
                    Ok(()) => work(setting, &next, watch),
                    Err(_) => failed.store(true, Ordering::Relaxed),
                }
            };
            if std::thread::Builder::new().spawn_scoped(scope, set).is_err() {
                failed.store(true, Ordering::Relaxed);
            }
        }
    });
    if failed.load(Ordering::Relaxed) && next.load(Ordering::Relaxed) < setting.changes.len() {
        files::enter(&descriptors)?;
        work(setting, &next, watch);
    }
    Ok(())
}

fn work(setting: &Setting, next: &AtomicUsize, watch: &impl Watch) {
    let voids = setting.attribute == Attribute::Label;
    let mut way = Way::new(setting.root, voids, setting.most_open);
    let mut other_way = Way::new(setting.root, voids, 2);
    loop {
        let first = next.fetch_add(AT_ONCE, Ordering::Relaxed);
        if first >= setting.changes.len() {
            return;
        }
        let end = setting.changes.len().min(first + AT_ONCE);
        for number in first..end {
            if stopping().is_some() {
                return;
            }
            let change = &setting.changes[number];
            let answer = set(change, setting.attribute, &mut way, &mut other_way);
            watch.done(number, answer);
        }
        watch.pause();
    }
}

fn set(
    change: &Change,
    attribute: Attribute,
    way: &mut Way,
    other_way: &mut Way,
) -> Result<(), Unset> {
    let expected = change.expected.as_ref().ok_or(Unset::NoRecord)?;
    let opened = open(&change.path, way)?;
    let place = Number::of(&opened);
    compare(expected, &opened, &place, &change.value)?;
    if way.voids && expected.kind == Kind::Directory && !clear_digest(&place) {
        return Err(Unset::Stuck);
    }
    for other in &change.others {
        if let Ok((_, _, true)) = other_way.folder_of(other) {
            return Err(Unset::Stuck);
        }
    }
    set_at(&place, attribute, &change.value).map_err(|error| Unset::of(&error))
}

/// Opens the name as a place.
fn open(path: &[u8], way: &mut Way) -> Result<OwnedFd, Unset> {
    let (folder, name, is_stuck) = way.folder_of(path)?;
    if is_stuck {
        return Err(Unset::Stuck);
    }
    let opened = match name {
        b"" => open_in(folder, DOT, Open::Place),
        name => c_name(name).and_then(|name| open_in(folder, &name, Open::Place)),
    };
    opened.map_err(|error| Unset::of(&error))
}

fn compare(
    expected: &Expected,
    opened: &OwnedFd,
    place: &Number,
    value: &[u8],
) -> Result<(), Unset> {
    let status = status_of(opened).map_err(|error| Unset::of(&error))?;
    let is_it = (status.device, status.inode) == (expected.device, expected.inode)
        && Kind::of_mode(status.mode) == Some(expected.kind)
        && expected.birth.map_or(true, |birth| birth == status.birth);
    if !is_it {
        return Err(Unset::Replaced);
    }
    if let Some(label) = expected.label {
        let mut room = [0; 4096];
        let found = match get_at(place, Attribute::Label, &mut room) {
            Ok(length) => without_nul(&room[..length]),
            Err(error) if is(&error, libc::ENODATA) || is(&error, libc::EOPNOTSUPP) => b"",
            Err(error) if is(&error, libc::ERANGE) => return compare_long(label, place),
            Err(error) => return Err(Unset::of(&error)),
        };
        if found != label && found != without_nul(value) {
            return Err(Unset::Replaced);
        }
    }
    Ok(())
}

fn compare_long(label: &[u8], place: &Number) -> Result<(), Unset> {
    let mut room = vec![0; 1 << 16];
    let length = get_at(place, Attribute::Label, &mut room).map_err(|error| Unset::of(&error))?;
    if without_nul(&room[..length]) == label {
        Ok(())
    } else {
        Err(Unset::Replaced)
    }
}

/// Removes a directory's digest; false where it has one that stays.
fn clear_digest(place: &Number) -> bool {
    match get_at(place, Attribute::Digest, &mut []) {
        Err(error) if is(&error, libc::ENODATA) || is(&error, libc::EOPNOTSUPP) => true,
        _ => match remove_at(place, Attribute::Digest) {
            Ok(()) => true,
            Err(error) => is(&error, libc::ENODATA),
        },
    }
}

/// The folders on the way to the last name. Those too deep to be kept are closed, but for the last.
struct Way<'a> {
    root: &'a OwnedFd,
    voids: bool,
    most_open: usize,
    is_root_stuck: Option<bool>,
    path: Vec<u8>,
    levels: Vec<Level>,
}

struct Level {
    /// Where its path ends.
    end: usize,
    folder: Option<OwnedFd>,
    /// It or one above it has a digest that stays.
    is_stuck: bool,
}

impl<'a> Way<'a> {
    fn new(root: &'a OwnedFd, voids: bool, most_open: usize) -> Way<'a> {
        let most_open = most_open.max(2);
        Way { root, voids, most_open, is_root_stuck: None, path: Vec::new(), levels: Vec::new() }
    }
    /// The folder that has a name, the name within it, and whether a digest on the way stays.
    fn folder_of<'p>(&mut self, path: &'p [u8]) -> Result<(&OwnedFd, &'p [u8], bool), Unset> {
        let (voids, root) = (self.voids, self.root);
        let is_root_stuck =
            *self.is_root_stuck.get_or_insert_with(|| voids && !clear_digest(&Number::of(root)));
        let mut at = self.keep_common(path) + 1;
        let rest = |at: usize| path.get(at..).unwrap_or_default();
        while let Some(length) = rest(at).iter().position(|&byte| byte == b'/') {
            self.open_next(&path[at..at + length], at + length, is_root_stuck)?;
            at += length + 1;
        }
        let name = rest(at);
        let (folder, is_stuck) = match self.levels.last() {
            None => (self.root, is_root_stuck),
            Some(level) => (level.folder.as_ref().unwrap_or(self.root), level.is_stuck),
        };
        Ok((folder, name, is_stuck))
    }
    /// Keeps what is on the way to this path too and is open, and gives where its path ends.
    fn keep_common(&mut self, path: &[u8]) -> usize {
        let is_common = |level: &&Level| {
            path.get(level.end) == Some(&b'/')
                && path.get(..level.end) == self.path.get(..level.end)
        };
        let count = self.levels.iter().take_while(is_common).count();
        self.levels.truncate(count);
        while matches!(self.levels.last(), Some(level) if level.folder.is_none()) {
            self.levels.pop();
        }
        self.path.clear();
        self.path.extend_from_slice(path);
        self.levels.last().map_or(0, |level| level.end)
    }
    fn open_next(&mut self, name: &[u8], end: usize, is_root_stuck: bool) -> Result<(), Unset> {
        let (folder, mut is_stuck) = match self.levels.last() {
            None => (self.root, is_root_stuck),
            Some(level) => (level.folder.as_ref().unwrap_or(self.root), level.is_stuck),
        };
        let opened = c_name(name).and_then(|name| open_in(folder, &name, Open::FolderPlace));
        let opened = opened.map_err(|error| Unset::of(&error))?;
        is_stuck |= self.voids && !clear_digest(&Number::of(&opened));
        if self.levels.len() >= self.most_open {
            if let Some(last) = self.levels.last_mut() {
                last.folder = None;
            }
        }
        self.levels.push(Level { end, folder: Some(opened), is_stuck });
        Ok(())
    }
}
