//! Reads a tree: each directory is opened from the one above it, without following a link, and is
//! then the thread's working folder, so that its names resolve nothing. Threads share the work.

use crate::mounts::{names, Special};
use crate::records::{self, Outlet};
use crate::say::{plain, say};
use crate::sys::attributes::{get_by_name, get_open, Attribute};
use crate::sys::files::{self, status_in, status_of, Open, Status, DOT, HERE};
use crate::sys::process::stopping;
use crate::sys::{c_name, is, reason};
use crate::tree::{
    Directory, Kind, Linked, Listing, Place, Shelf, ABOVE_ROOT, LONGEST_PATH, NO_LABEL,
};
use std::collections::{BTreeMap, HashSet, VecDeque};
use std::ffi::{CStr, CString};
use std::io;
use std::os::unix::io::{AsRawFd, OwnedFd, RawFd};
use std::sync::atomic::{AtomicBool, AtomicU32, AtomicUsize, Ordering};
use std::sync::{Arc, Condvar, Mutex, MutexGuard, PoisonError};

/// Room for the names that one call reads.
const NAMES_ROOM: usize = 1 << 16;
/// Room for a label at first; the kernel clears as much as it is told.
const LABEL_ROOM: usize = 255;
/// The longest value that an attribute can have.
const LONGEST_VALUE: usize = 1 << 16;

/// An open folder. How many there are is counted.
struct Folder {
    opened: OwnedFd,
    count: Arc<AtomicUsize>,
}

impl AsRawFd for Folder {
    fn as_raw_fd(&self) -> RawFd {
        self.opened.as_raw_fd()
    }
}

impl Drop for Folder {
    fn drop(&mut self) {
        self.count.fetch_sub(1, Ordering::Relaxed);
    }
}

enum Work {
    /// To be opened, from the folder above it or else from the root.
    Open(Option<Arc<Folder>>),
    /// To be read on.
    Rest(Arc<Folder>),
    /// Names that were read, to be looked at.
    Names(Arc<Folder>, Box<[u8]>),
}

/// A directory to be read, or a part of one.
pub struct Job {
    directory: Arc<Directory>,
    work: Work,
}

#[derive(Default)]
struct Queue {
    jobs: VecDeque<Job>,
    idle: usize,
    is_over: bool,
}

pub struct Scan {
    root: OwnedFd,
    root_status: Status,
    special: Arc<Special>,
    /// Records have link counts, and digests are read.
    pub keeps: bool,
    threads: usize,
    most_open: usize,
    /// How many entries a part has at least, if the tree has as many.
    most: usize,
    open: Arc<AtomicUsize>,
    numbers: AtomicU32,
    queue: Mutex<Queue>,
    queued: AtomicUsize,
    wake: Condvar,
    outlet: Mutex<Option<Outlet>>,
    has_outlet: AtomicBool,
    is_lost: AtomicBool,
    /// How many entries were read in all.
    pub count: Arc<AtomicUsize>,
    /// The numbers of directories that could not be read.
    unread: Mutex<HashSet<u32>>,
    in_part: AtomicUsize,
    pub errors: AtomicUsize,
}

fn locked<T>(mutex: &Mutex<T>) -> MutexGuard<'_, T> {
    mutex.lock().unwrap_or_else(PoisonError::into_inner)
}

/// What a scan is told.
pub struct Settings {
    pub special: Special,
    pub keeps: bool,
    pub threads: usize,
    pub most_open: usize,
    pub most: usize,
}

impl Scan {
    pub fn new(root: OwnedFd, settings: Settings) -> io::Result<Scan> {
        let root_status = status_of(&root)?;
        Ok(Scan {
            root,
            root_status,
            special: Arc::new(settings.special),
            keeps: settings.keeps,
            threads: settings.threads,
            most_open: settings.most_open,
            most: settings.most,
            open: Arc::default(),
            numbers: AtomicU32::new(ABOVE_ROOT + 1),
            queue: Mutex::default(),
            queued: AtomicUsize::new(0),
            wake: Condvar::new(),
            outlet: Mutex::new(None),
            has_outlet: AtomicBool::new(false),
            is_lost: AtomicBool::new(false),
            count: Arc::default(),
            unread: Mutex::default(),
            in_part: AtomicUsize::new(0),
            errors: AtomicUsize::new(0),
        })
    }
    /// From here on records go there.
    pub fn send_to(&self, outlet: Outlet) {
        *locked(&self.outlet) = Some(outlet);
        self.has_outlet.store(true, Ordering::Relaxed);
        self.is_lost.store(false, Ordering::Relaxed);
    }
    /// A record of the root, for relabel begins there, also where the root isn't asked for.
    pub fn stand_in(&self) -> Vec<u8> {
        let mut shelf = Shelf::default();
        let entry = shelf.add(b"", &self.root_status, Kind::Directory, NO_LABEL);
        let mut record = Vec::new();
        records::push(&mut record, &entry, self.keeps, b"", b"", b"");
        record
    }
    pub fn take_outlet(&self) -> Option<Outlet> {
        self.has_outlet.store(false, Ordering::Relaxed);
        locked(&self.outlet).take()
    }
    /// Whether relabel doesn't read any more.
    pub fn is_lost(&self) -> bool {
        self.is_lost.load(Ordering::Relaxed)
    }
    pub fn has_more(&self) -> bool {
        !locked(&self.queue).jobs.is_empty()
    }
    pub fn unread(&self) -> HashSet<u32> {
        locked(&self.unread).clone()
    }
    /// Notes that the directories which are read on in another part aren't read to their end.
    pub fn note_cut(&self) {
        for job in &locked(&self.queue).jobs {
            match (&job.work, &job.directory.parent) {
                (Work::Open(_), Some(parent)) => parent.note_amiss(),
                _ => job.directory.note_amiss(),
            }
        }
    }
    fn ends_early(&self) -> bool {
        self.in_part.load(Ordering::Relaxed) >= self.most || self.is_lost() || stopping().is_some()
    }
    fn number(&self) -> u32 {
        self.numbers.fetch_add(1, Ordering::Relaxed)
    }
    fn folder(&self, opened: OwnedFd) -> Arc<Folder> {
        self.open.fetch_add(1, Ordering::Relaxed);
        Arc::new(Folder { opened, count: self.open.clone() })
    }
    fn has_hungry(&self) -> bool {
        self.threads > 1 && self.queued.load(Ordering::Relaxed) < self.threads
    }
    fn give(&self, jobs: impl IntoIterator<Item = Job>) {
        let mut queue = locked(&self.queue);
        queue.jobs.extend(jobs);
        self.queued.store(queue.jobs.len(), Ordering::Relaxed);
        self.wake.notify_all();
    }
    /// The next job, or none where all is read or the part is full.
    fn take(&self) -> Option<Job> {
        let mut queue = locked(&self.queue);
        loop {
            if queue.is_over {
                return None;
            }
            if let Some(job) = queue.jobs.pop_front() {
                self.queued.store(queue.jobs.len(), Ordering::Relaxed);
                return Some(job);
            }
            queue.idle += 1;
            if queue.idle == self.threads {
                queue.is_over = true;
                self.wake.notify_all();
                return None;
            }
            queue = self.wake.wait(queue).unwrap_or_else(PoisonError::into_inner);
            queue.idle -= 1;
        }
    }
    /// A thread that can't work is as good as one that waits.
    fn leave_thread(&self) {
        let mut queue = locked(&self.queue);
        queue.idle += 1;
        if queue.idle == self.threads {
            self.wake.notify_all();
        }
    }
    /// Whether jobs are left and the part isn't full.
    fn has_unread(&self) -> bool {
        let mut queue = locked(&self.queue);
        let is_left = !queue.is_over && !queue.jobs.is_empty();
        if is_left {
            queue.idle = self.threads - 1;
        }
        is_left
    }
    /// Ends the part, and leaves jobs for the next one.
    fn leave(&self, jobs: Vec<Job>) {
        let mut queue = locked(&self.queue);
        queue.is_over = true;
        queue.jobs.extend(jobs);
        self.wake.notify_all();
    }
    /// Reads the paths themselves; what lies below them is left for `read_part`.
    pub fn begin(&self, paths: &[Vec<u8>]) -> Shelf {
        self.begin_part();
        let mut worker = Worker::new(self, 0);
        if paths.iter().any(|path| path == b"/") {
            worker.begin_root();
        } else {
            let mut tree = Start::default();
            for path in paths {
                let mut at = &mut tree;
                for name in names(path) {
                    at = at.below.entry(name.into()).or_default();
                }
                at.is_path = true;
            }
            let root = Arc::new(self.root_directory());
            if let Err(error) = worker.begin_at(&tree, &root, &self.root) {
                worker.tell(&root, b"", &reason(&error));
            }
        }
        let jobs = std::mem::take(&mut worker.jobs);
        let shelf = worker.finish();
        self.give(jobs);
        shelf
    }
    fn root_directory(&self) -> Directory {
        let special = Some(self.special.clone());
        Directory::new(None, CString::default(), self.number(), &self.root_status, special)
    }
    pub fn begin_part(&self) {
        self.in_part.store(0, Ordering::Relaxed);
    }
    /// Reads until all is read, or the part is full.
    pub fn read_part(&self, first: Shelf) -> Vec<Shelf> {
        {
            let mut queue = locked(&self.queue);
            queue.is_over = false;
            queue.idle = 0;
        }
        if self.threads == 1 {
            let mut worker = Worker::new(self, 0);
            worker.shelf = first;
            worker.work();
            return vec![worker.finish()];
        }
        let mut shelves = vec![first];
        shelves.extend(self.read_by_threads());
        if self.has_unread() {
            // No thread could be made: this one reads.
            let mut worker = Worker::new(self, shelves.len() as u32);
            worker.work();
            shelves.push(worker.finish());
        }
        shelves
    }
    fn read_by_threads(&self) -> Vec<Shelf> {
        let read = |number| {
            let mut worker = Worker::new(self, number);
            if files::part_from_others().is_ok() {
                worker.work();
            } else {
                self.leave_thread();
            }
            worker.finish()
        };
        let read = &read;
        std::thread::scope(|scope| {
            let threads: Vec<_> = (1..=self.threads as u32)
                .map(|number| {
                    let thread = std::thread::Builder::new();
                    let started = thread.spawn_scoped(scope, move || read(number));
                    started.map_err(|_| self.leave_thread())
                })
                .collect();
            let joined = threads.into_iter().map(|thread| match thread {
                Ok(thread) => thread.join().unwrap_or_default(),
                Err(()) => Shelf::default(),
            });
            joined.collect()
        })
    }
}

/// The paths that a run begins with, as a tree.
#[derive(Default)]
struct Start {
    is_path: bool,
    below: BTreeMap<Box<[u8]>, Start>,
}

enum Look {
    Gone,
    Failed(String),
    Found(Status, Kind, u32),
}

struct Worker<'a> {
    scan: &'a Scan,
    number: u32,
    shelf: Shelf,
    jobs: Vec<Job>,
    records: Vec<u8>,
    names: Vec<u8>,
    path: Vec<u8>,
    value: Vec<u8>,
}

impl<'a> Worker<'a> {
    fn new(scan: &'a Scan, number: u32) -> Worker<'a> {
        Worker {
            scan,
            number,
            shelf: Shelf::default(),
            jobs: Vec::new(),
            records: Vec::new(),
            names: vec![0; NAMES_ROOM],
            path: Vec::new(),
            value: vec![0; LABEL_ROOM],
        }
    }
    fn finish(mut self) -> Shelf {
        self.send();
        self.shelf
    }
    /// Tells what could not be read.
    fn tell(&self, directory: &Directory, name: &[u8], why: &str) {
        say(&format!("{}: {why}", plain(&directory.path_of(name))));
        directory.note_amiss();
        self.scan.errors.fetch_add(1, Ordering::Relaxed);
    }
    /// Tells that a directory could not be read.
    fn tell_directory(&self, directory: &Directory, why: &str) {
        let name = directory.name.as_bytes();
        self.tell(directory.parent.as_deref().unwrap_or(directory), name, why);
        directory.note_amiss();
        locked(&self.scan.unread).insert(directory.number);
    }
    fn send(&mut self) {
        if self.records.is_empty() {
            return;
        }
        if let Some(outlet) = locked(&self.scan.outlet).as_mut() {
            if outlet.send(&mut self.records).is_err() {
                self.scan.is_lost.store(true, Ordering::Relaxed);
            }
        }
        self.records.clear();
    }

    fn begin_root(&mut self) {
        let above = Directory::new(None, CString::default(), ABOVE_ROOT, &Status::default(), None);
        let root = Arc::new(self.scan.root_directory());
        if let Err(error) = files::enter(&self.scan.root) {
            return self.tell(&above, b"", &reason(&error));
        }
        match self.look(DOT) {
            Look::Found(status, kind, label) => {
                let mut entry = self.shelf.add(b"", &status, kind, label);
                entry.directory = root.number;
                if let Some(last) = self.shelf.entries.last_mut() {
                    *last = entry;
                }
                self.path.clear();
                if self.scan.has_outlet.load(Ordering::Relaxed) {
                    let label = self.shelf.label(&entry);
                    let links = self.scan.keeps;
                    records::push(&mut self.records, &entry, links, label, b"", b"");
                }
                self.jobs.push(Job { directory: root, work: Work::Open(None) });
            }
            Look::Gone => self.tell(&above, b"", "not found"),
            Look::Failed(why) => self.tell(&above, b"", &why),
        }
        self.list(&Arc::new(above), 0);
    }
    /// Reads the paths at and below a directory that isn't read itself.
    fn begin_at(
        &mut self,
        start: &Start,
        directory: &Arc<Directory>,
        opened: &OwnedFd,
    ) -> io::Result<()> {
        files::enter(opened)?;
        directory.write_path(&mut self.path);
        let first = self.shelf.entries.len();
        for (name, _) in start.below.iter().filter(|(_, below)| below.is_path) {
            let name = c_name(name)?;
            self.read_name(directory, None, &name, true);
        }
        self.list(directory, first);
        for (name, below) in start.below.iter().filter(|(_, below)| !below.is_path) {
            let c_name = c_name(name)?;
            let next = files::open_in(opened, &c_name, Open::FolderPlace)
                .and_then(|next| Ok((status_of(&next)?, next)));
            match next {
                Ok((status, next)) => {
                    let special = special_below(directory, name);
                    let parent = Some(directory.clone());
                    let number = self.scan.number();
                    let next_directory = Directory::new(parent, c_name, number, &status, special);
                    self.begin_at(below, &Arc::new(next_directory), &next)?;
                }
                Err(error) => self.tell(directory, name, &reason(&error)),
            }
        }
        Ok(())
    }

    fn work(&mut self) {
        while let Some(job) = self.next() {
            if self.scan.ends_early() {
                self.jobs.push(job);
                return self.scan.leave(std::mem::take(&mut self.jobs));
            }
            self.do_job(job);
            if self.jobs.len() > 1 && self.scan.has_hungry() {
                let half = self.jobs.len() / 2;
                self.scan.give(self.jobs.drain(..half));
            }
        }
    }
    fn next(&mut self) -> Option<Job> {
        match self.jobs.pop() {
            Some(job) => Some(job),
            None => self.scan.take(),
        }
    }
    fn do_job(&mut self, job: Job) {
        let directory = job.directory;
        match job.work {
            Work::Open(above) => {
                if let Some(folder) = self.open(&directory, above) {
                    self.read_digest(&directory, &folder);
                    self.read(&directory, folder);
                }
            }
            Work::Rest(folder) => self.read(&directory, folder),
            Work::Names(folder, names) => {
                if self.enter(&directory, &folder) {
                    self.read_names(&directory, &folder, &names);
                }
            }
        }
    }
    /// Opens a directory, and compares it with what was read of its name.
    fn open(
        &mut self,
        directory: &Arc<Directory>,
        above: Option<Arc<Folder>>,
    ) -> Option<Arc<Folder>> {
        let opened = match above {
            Some(above) => files::open_in(&*above, &directory.name, Open::Folder),
            None => self.open_by_way(directory),
        };
        let opened = opened.and_then(|opened| Ok((status_of(&opened)?, opened)));
        match opened {
            Ok((status, opened))
                if (status.device, status.inode) == (directory.device, directory.inode) =>
            {
                return Some(self.scan.folder(opened));
            }
            Err(error) if !was_replaced(&error) => {
                self.tell_directory(directory, &reason(&error));
            }
            _ => self.tell_directory(directory, "changed while it was read"),
        }
        None
    }
    fn open_by_way(&self, directory: &Directory) -> io::Result<OwnedFd> {
        let way = directory.way();
        let (last, above) = match way.split_last() {
            Some(split) => split,
            None => return files::open_in(&self.scan.root, DOT, Open::Folder),
        };
        let mut folder = None;
        for step in above {
            let at = folder.as_ref().unwrap_or(&self.scan.root);
            folder = Some(files::open_in(at, &step.name, Open::FolderPlace)?);
        }
        files::open_in(folder.as_ref().unwrap_or(&self.scan.root), &last.name, Open::Folder)
    }
    fn enter(&mut self, directory: &Arc<Directory>, folder: &Arc<Folder>) -> bool {
        directory.write_path(&mut self.path);
        match files::enter(&**folder) {
            Ok(()) => true,
            Err(error) => {
                self.tell_directory(directory, &reason(&error));
                false
            }
        }
    }
    fn read_digest(&mut self, directory: &Directory, folder: &Folder) {
        if self.scan.keeps {
            if let Ok(length) = get_open(folder, Attribute::Digest, &mut self.value) {
                let digest = self.value[..length].into();
                self.shelf.digests.push((directory.number, digest));
            }
        }
    }
    /// Reads a directory to its end, or until the part is full; what is known by then is handed to
    /// threads that have nothing to do.
    fn read(&mut self, directory: &Arc<Directory>, folder: Arc<Folder>) {
        if !self.enter(directory, &folder) {
            return;
        }
        let mut is_first = true;
        loop {
            if !is_first && self.scan.ends_early() {
                let work = Work::Rest(folder);
                return self.jobs.push(Job { directory: directory.clone(), work });
            }
            let mut names = std::mem::take(&mut self.names);
            let length = match files::read_names(&*folder, &mut names) {
                Ok(length) => length.min(names.len()),
                Err(error) => {
                    self.tell_directory(directory, &reason(&error));
                    0
                }
            };
            if !is_first && length > NAMES_ROOM / 2 && self.scan.has_hungry() {
                let work = Work::Names(folder.clone(), names[..length].into());
                self.scan.give([Job { directory: directory.clone(), work }]);
            } else {
                self.read_names(directory, &folder, &names[..length]);
            }
            self.names = names;
            if length == 0 {
                return;
            }
            is_first = false;
        }
    }
    fn read_names(&mut self, directory: &Arc<Directory>, folder: &Arc<Folder>, entries: &[u8]) {
        let first = self.shelf.entries.len();
        for name in names_in(entries) {
            self.read_name(directory, Some(folder), name, false);
        }
        self.list(directory, first);
    }
    /// Notes which entries are those of a directory.
    fn list(&mut self, directory: &Arc<Directory>, first: usize) {
        let end = self.shelf.entries.len();
        if end > first {
            let directory = directory.clone();
            let (first, end) = (first as u32, end as u32);
            self.shelf.listings.push(Listing { directory, shelf: self.number, first, end });
            self.count((end - first) as usize);
            if self.records.len() >= records::AT_ONCE {
                self.send();
            }
        }
    }
    fn count(&self, entries: usize) {
        self.scan.count.fetch_add(entries, Ordering::Relaxed);
        self.scan.in_part.fetch_add(entries, Ordering::Relaxed);
    }

    /// Reads what is known of a name in the working folder, whose path stands in `self.path`.
    fn read_name(
        &mut self,
        directory: &Arc<Directory>,
        folder: Option<&Arc<Folder>>,
        name: &CStr,
        is_asked: bool,
    ) {
        let bytes = name.to_bytes();
        let special = special_below(directory, bytes);
        if special.as_ref().map_or(false, |special| special.cause.is_some()) {
            return;
        }
        if self.path.len() + 1 + bytes.len() > LONGEST_PATH {
            let why = "the path is past 4,095 bytes; it and all below it is left out";
            return self.tell(directory, bytes, why);
        }
        match self.look(name) {
            Look::Gone if is_asked => self.tell(directory, bytes, "not found"),
            Look::Gone => {}
            Look::Failed(why) => self.tell(directory, bytes, &why),
            Look::Found(status, kind, label) => {
                self.add(directory, folder, name, special, (status, kind, label));
            }
        }
    }
    fn add(
        &mut self,
        directory: &Arc<Directory>,
        folder: Option<&Arc<Folder>>,
        name: &CStr,
        special: Option<Arc<Special>>,
        (status, kind, label): (Status, Kind, u32),
    ) {
        let mut entry = self.shelf.add(name.to_bytes(), &status, kind, label);
        let index = self.shelf.entries.len() - 1;
        if kind == Kind::Directory {
            let number = self.scan.number();
            entry.directory = number;
            self.shelf.entries[index] = entry;
            let parent = Some(directory.clone());
            let next = Arc::new(Directory::new(parent, name.into(), number, &status, special));
            let has_room = self.scan.open.load(Ordering::Relaxed) < self.scan.most_open;
            let above = folder.filter(|_| has_room).cloned();
            self.jobs.push(Job { directory: next, work: Work::Open(above) });
        } else if status.links > 1 {
            let place = Place { shelf: self.number, index: index as u32 };
            self.shelf.linked.push(Linked { place, directory: directory.clone() });
            return;
        }
        if self.scan.has_outlet.load(Ordering::Relaxed) {
            let label = self.shelf.label(&entry);
            let (links, bytes) = (self.scan.keeps, name.to_bytes());
            records::push(&mut self.records, &entry, links, label, &self.path, bytes);
        }
    }
    /// Looks at a name in the working folder.
    fn look(&mut self, name: &CStr) -> Look {
        let status = match status_in(HERE, name) {
            Ok(status) => status,
            Err(error) if is(&error, libc::ENOENT) => return Look::Gone,
            Err(error) => return Look::Failed(reason(&error)),
        };
        let kind = match Kind::of_mode(status.mode) {
            Some(kind) => kind,
            None => return Look::Failed("its kind is unknown".into()),
        };
        match self.label(name) {
            Ok(label) => Look::Found(status, kind, label),
            Err(error) if is(&error, libc::ENOENT) => Look::Gone,
            Err(error) => Look::Failed(reason(&error)),
        }
    }
    fn label(&mut self, name: &CStr) -> io::Result<u32> {
        match get_by_name(name, Attribute::Label, &mut self.value) {
            Ok(length) => Ok(self.shelf.number_of(without_nul(&self.value[..length]))),
            Err(error) if is(&error, libc::ENODATA) || is(&error, libc::EOPNOTSUPP) => Ok(NO_LABEL),
            Err(error) if is(&error, libc::ERANGE) => {
                let mut long = vec![0; LONGEST_VALUE];
                let length = get_by_name(name, Attribute::Label, &mut long)?;
                Ok(self.shelf.number_of(without_nul(&long[..length])))
            }
            Err(error) => Err(error),
        }
    }
}

/// The kernel ends a label with a NUL where SELinux is at work.
pub fn without_nul(label: &[u8]) -> &[u8] {
    label.strip_suffix(b"\0").unwrap_or(label)
}

fn special_below(directory: &Directory, name: &[u8]) -> Option<Arc<Special>> {
    directory.special.as_ref()?.below.get(name).cloned()
}

fn was_replaced(error: &io::Error) -> bool {
    [libc::ENOENT, libc::ENOTDIR, libc::ELOOP].iter().any(|&number| is(error, number))
}

/// Where the length of an entry stands, and where its name begins.
const ENTRY_LENGTH: usize = 16;
const ENTRY_NAME: usize = 19;

/// The names in what the kernel tells of a folder, but for those of itself and of the one above.
pub fn names_in(entries: &[u8]) -> impl Iterator<Item = &CStr> {
    let mut rest = entries;
    std::iter::from_fn(move || loop {
        let length = rest.get(ENTRY_LENGTH..ENTRY_LENGTH + 2)?;
        let length = usize::from(u16::from_ne_bytes([length[0], length[1]]));
        let entry = rest.get(..length).filter(|entry| entry.len() > ENTRY_NAME)?;
        rest = &rest[length..];
        let name = &entry[ENTRY_NAME..];
        let end = name.iter().position(|&byte| byte == 0)?;
        if !matches!(&name[..end], b"." | b".." | b"") {
            return CStr::from_bytes_with_nul(&name[..=end]).ok();
        }
    })
}

#[cfg(test)]
mod tests {
    use super::*;

    fn entry(name: &[u8]) -> Vec<u8> {
        let mut bytes = vec![0; ENTRY_NAME];
        bytes.extend_from_slice(name);
        bytes.resize((bytes.len() + 8) / 8 * 8, 0);
        let length = (bytes.len() as u16).to_ne_bytes();
        bytes[ENTRY_LENGTH..ENTRY_LENGTH + 2].copy_from_slice(&length);
        bytes
    }
    #[test]
    fn names_are_taken_from_what_the_kernel_tells() {
        let all = [&b"."[..], b"a", b"..", b"...", b"\xff"];
        let bytes: Vec<u8> = all.into_iter().flat_map(entry).collect();
        let names: Vec<&[u8]> = names_in(&bytes).map(CStr::to_bytes).collect();
        assert_eq!(names, [&b"a"[..], b"...", b"\xff"]);
    }
    #[test]
    fn what_is_cut_ends_the_names() {
        let bytes = entry(b"a");
        for end in 0..bytes.len() {
            assert_eq!(names_in(&bytes[..end]).count(), 0);
        }
    }
}
