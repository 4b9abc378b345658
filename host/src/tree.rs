//! What was read of a tree: directories as nodes that know their parents, entries in shelves, one
//! for each thread that read. An entry takes 40 bytes and its name; labels are kept once a shelf.

use crate::mounts::Special;
use crate::sys::files::Status;
use std::collections::{HashMap, HashSet};
use std::ffi::CString;
use std::sync::atomic::{AtomicBool, Ordering};
use std::sync::Arc;

/// The longest path that relabel takes.
pub const LONGEST_PATH: usize = 4095;

/// The kinds of files, by the letters that records have.
#[derive(Clone, Copy, PartialEq, Eq, Debug)]
#[repr(u8)]
pub enum Kind {
    File = b'f',
    Directory = b'd',
    Link = b'l',
    Pipe = b'p',
    Socket = b's',
    Block = b'b',
    Character = b'c',
}

impl Kind {
    pub fn of_mode(mode: u32) -> Option<Kind> {
        Some(match mode & libc::S_IFMT {
            libc::S_IFREG => Kind::File,
            libc::S_IFDIR => Kind::Directory,
            libc::S_IFLNK => Kind::Link,
            libc::S_IFIFO => Kind::Pipe,
            libc::S_IFSOCK => Kind::Socket,
            libc::S_IFBLK => Kind::Block,
            libc::S_IFCHR => Kind::Character,
            _ => return None,
        })
    }
    pub fn of_letter(letter: u8) -> Option<Kind> {
        Some(match letter {
            b'f' => Kind::File,
            b'd' => Kind::Directory,
            b'l' => Kind::Link,
            b'p' => Kind::Pipe,
            b's' => Kind::Socket,
            b'b' => Kind::Block,
            b'c' => Kind::Character,
            _ => return None,
        })
    }
    pub fn letter(self) -> u8 {
        self as u8
    }
}

/// A directory that is read, or that leads to what is read.
pub struct Directory {
    /// None for the root.
    pub parent: Option<Arc<Directory>>,
    pub name: CString,
    /// Greater than that of its parent.
    pub number: u32,
    /// The length of its path; that of the root is 0.
    pub length: u32,
    pub device: u64,
    pub inode: u64,
    /// Where something at or below it is left out, or needs a look: what.
    pub special: Option<Arc<Special>>,
    /// Something at or below it wasn't read, decided or set in this run.
    amiss: AtomicBool,
}

impl Directory {
    pub fn new(
        parent: Option<Arc<Directory>>,
        name: CString,
        number: u32,
        status: &Status,
        special: Option<Arc<Special>>,
    ) -> Directory {
        let above = parent.as_ref().map_or(0, |parent| parent.length as usize + 1);
        let length = above + name.as_bytes().len();
        Directory {
            parent,
            name,
            number,
            length: u32::try_from(length).unwrap_or(u32::MAX),
            device: status.device,
            inode: status.inode,
            special,
            amiss: AtomicBool::new(false),
        }
    }
    /// The names on the way to it, from the root.
    pub fn way(&self) -> Vec<&Directory> {
        let mut way = Vec::new();
        let mut at = self;
        while let Some(parent) = &at.parent {
            way.push(at);
            at = parent;
        }
        way.reverse();
        way
    }
    /// Puts its path in place of what the buffer has: nothing for the root.
    pub fn write_path(&self, path: &mut Vec<u8>) {
        path.clear();
        for step in self.way() {
            path.push(b'/');
            path.extend_from_slice(step.name.as_bytes());
        }
    }
    /// The path of a name within it.
    pub fn path_of(&self, name: &[u8]) -> Vec<u8> {
        let mut path = Vec::new();
        self.write_path(&mut path);
        path.push(b'/');
        path.extend_from_slice(name);
        path
    }
    /// Notes that not all at or below it is done.
    pub fn note_amiss(&self) {
        let mut at = Some(self);
        while let Some(directory) = at {
            if directory.amiss.swap(true, Ordering::Relaxed) {
                return;
            }
            at = directory.parent.as_deref();
        }
    }
    pub fn is_amiss(&self) -> bool {
        self.amiss.load(Ordering::Relaxed)
    }
}

/// What is known of a name.
#[derive(Clone, Copy)]
pub struct Entry {
    pub device: u64,
    pub inode: u64,
    pub birth: u64,
    name: u32,
    name_length: u8,
    pub kind: Kind,
    /// The number of its label in its shelf, or `NO_LABEL`.
    pub label: u32,
    pub links: u32,
    /// The number of the directory that it is, where that is read.
    pub directory: u32,
}

pub const NO_LABEL: u32 = 0;
pub const NO_DIRECTORY: u32 = u32::MAX;

/// Where an entry stands.
#[derive(Clone, Copy, PartialEq, Eq, Hash, Debug)]
pub struct Place {
    pub shelf: u32,
    pub index: u32,
}

/// Some entries of one directory that were read together.
pub struct Listing {
    pub directory: Arc<Directory>,
    pub shelf: u32,
    pub first: u32,
    pub end: u32,
}

/// A name of an inode that has several.
pub struct Linked {
    pub place: Place,
    pub directory: Arc<Directory>,
}

/// What one thread read.
#[derive(Default)]
pub struct Shelf {
    pub entries: Vec<Entry>,
    names: Vec<u8>,
    labels: Vec<Box<[u8]>>,
    numbers: HashMap<Box<[u8]>, u32>,
    last: u32,
    pub listings: Vec<Listing>,
    pub linked: Vec<Linked>,
    /// Of directories by their numbers the digests that they have.
    pub digests: Vec<(u32, Box<[u8]>)>,
}

impl Shelf {
    pub fn name(&self, entry: &Entry) -> &[u8] {
        let first = entry.name as usize;
        self.names.get(first..first + usize::from(entry.name_length)).unwrap_or_default()
    }
    /// The bytes of a label; none are none.
    pub fn label(&self, entry: &Entry) -> &[u8] {
        match entry.label {
            NO_LABEL => b"",
            number => self.labels.get(number as usize - 1).map_or(b"", |label| label),
        }
    }
    /// All labels, in the order of their numbers, from 1.
    pub fn labels(&self) -> impl Iterator<Item = &[u8]> {
        self.labels.iter().map(|label| &label[..])
    }
    /// The number of a label, which is mostly that of the last one.
    pub fn number_of(&mut self, label: &[u8]) -> u32 {
        if label.is_empty() {
            return NO_LABEL;
        }
        if self.last != NO_LABEL && *self.labels[self.last as usize - 1] == *label {
            return self.last;
        }
        self.last = match self.numbers.get(label) {
            Some(&number) => number,
            None => {
                self.labels.push(label.into());
                let number = self.labels.len() as u32;
                self.numbers.insert(label.into(), number);
                number
            }
        };
        self.last
    }
    /// Adds an entry whose name may be the longest that there is, 255 bytes.
    pub fn add(&mut self, name: &[u8], status: &Status, kind: Kind, label: u32) -> Entry {
        let name = &name[..name.len().min(255)];
        let entry = Entry {
            device: status.device,
            inode: status.inode,
            birth: status.birth,
            name: self.names.len() as u32,
            name_length: name.len() as u8,
            kind,
            label,
            links: status.links,
            directory: NO_DIRECTORY,
        };
        self.names.extend_from_slice(name);
        self.entries.push(entry);
        entry
    }
}

/// All that is decided together.
#[derive(Default)]
pub struct Part {
    pub shelves: Vec<Shelf>,
    /// By the numbers of their directories.
    pub listings: Vec<Listing>,
}

impl Part {
    pub fn new(mut shelves: Vec<Shelf>) -> Part {
        let mut listings: Vec<Listing> =
            shelves.iter_mut().flat_map(|shelf| std::mem::take(&mut shelf.listings)).collect();
        listings.sort_by_key(|listing| (listing.directory.number, listing.shelf, listing.first));
        Part { shelves, listings }
    }
    pub fn entry(&self, place: Place) -> &Entry {
        &self.shelves[place.shelf as usize].entries[place.index as usize]
    }
    pub fn name(&self, place: Place) -> &[u8] {
        self.shelves[place.shelf as usize].name(self.entry(place))
    }
    pub fn label(&self, place: Place) -> &[u8] {
        self.shelves[place.shelf as usize].label(self.entry(place))
    }
    pub fn set_label(&mut self, place: Place, label: &[u8]) {
        let shelf = &mut self.shelves[place.shelf as usize];
        let number = shelf.number_of(label);
        shelf.entries[place.index as usize].label = number;
    }
    pub fn count(&self) -> usize {
        self.shelves.iter().map(|shelf| shelf.entries.len()).sum()
    }
    /// Whether the root is an entry of it.
    pub fn has_root(&self) -> bool {
        !self.listings_of(ABOVE_ROOT).is_empty()
    }
    pub fn listings_of(&self, number: u32) -> &[Listing] {
        let first = self.listings.partition_point(|it| it.directory.number < number);
        let rest = &self.listings[first..];
        let count = rest.iter().take_while(|it| it.directory.number == number).count();
        &rest[..count]
    }
    /// Leaves one entry of each name of a directory; gives the others, with the directory.
    pub fn take_twice(&mut self) -> Vec<(Arc<Directory>, Vec<u8>)> {
        let mut twice = HashSet::new();
        let mut gone = HashSet::new();
        let mut told = Vec::new();
        for number in self.directory_numbers() {
            let children = self.children(number);
            let is_twice = |pair: &&[Place]| self.name(pair[0]) == self.name(pair[1]);
            for pair in children.windows(2).filter(is_twice) {
                twice.insert(pair[1]);
                gone.insert(self.entry(pair[1]).directory);
                if let Some(listing) = self.listings_of(number).first() {
                    told.push((listing.directory.clone(), self.name(pair[1]).to_vec()));
                }
            }
        }
        gone.remove(&NO_DIRECTORY);
        let listings = std::mem::take(&mut self.listings);
        for listing in listings {
            let directory = &listing.directory;
            let above = directory.parent.as_ref().map(|parent| parent.number);
            if gone.contains(&directory.number) || above.map_or(false, |it| gone.contains(&it)) {
                gone.insert(directory.number);
                continue;
            }
            let mut first = listing.first;
            for index in listing.first..=listing.end {
                let place = Place { shelf: listing.shelf, index };
                if index == listing.end || twice.contains(&place) {
                    if index > first {
                        let directory = directory.clone();
                        self.listings.push(Listing { directory, first, end: index, ..listing });
                    }
                    first = index + 1;
                }
            }
        }
        told
    }
    fn directory_numbers(&self) -> Vec<u32> {
        let mut numbers: Vec<u32> = self.listings.iter().map(|it| it.directory.number).collect();
        numbers.dedup();
        numbers
    }
    /// The entries of a directory, in the order of their names.
    pub fn children(&self, number: u32) -> Vec<Place> {
        let mut places: Vec<Place> = self.listings_of(number).iter().flat_map(places_of).collect();
        places.sort_unstable_by(|a, b| self.name(*a).cmp(self.name(*b)));
        places
    }
}

pub fn places_of(listing: &Listing) -> impl Iterator<Item = Place> {
    let shelf = listing.shelf;
    (listing.first..listing.end).map(move |index| Place { shelf, index })
}

/// The number of the directory whose one entry is the root, with an empty name.
pub const ABOVE_ROOT: u32 = 0;

/// Finds entries by their paths: the directory by its path, its entry by the name.
pub struct Finder<'a> {
    part: &'a Part,
    directories: HashMap<Vec<u8>, u32>,
    children: HashMap<u32, Vec<Place>>,
    /// The directory that was looked for last.
    path: Vec<u8>,
    number: Option<u32>,
    /// Where among its children the next name stands, if names come in their order.
    next: usize,
}

impl<'a> Finder<'a> {
    pub fn new(part: &'a Part) -> Finder<'a> {
        let mut directories = HashMap::new();
        let mut path = Vec::new();
        for listing in &part.listings {
            listing.directory.write_path(&mut path);
            if listing.directory.number != ABOVE_ROOT {
                directories.insert(path.clone(), listing.directory.number);
            }
        }
        let number = directories.get(&b""[..]).copied();
        let (children, path) = (HashMap::new(), Vec::new());
        Finder { part, directories, children, path, number, next: 0 }
    }
    /// The place of an absolute path that was read.
    pub fn find(&mut self, path: &[u8]) -> Option<Place> {
        if path == b"/" {
            return self.part.listings_of(ABOVE_ROOT).iter().flat_map(places_of).next();
        }
        let end = path.iter().rposition(|&byte| byte == b'/')?;
        let (above, name) = (&path[..end], &path[end + 1..]);
        if self.path != above {
            self.path.clear();
            self.path.extend_from_slice(above);
            self.number = self.directories.get(above).copied();
            self.next = 0;
        }
        let number = self.number?;
        let part = self.part;
        let children = self.children.entry(number).or_insert_with(|| part.children(number));
        let at = match children.get(self.next) {
            Some(place) if part.name(*place) == name => self.next,
            _ => children.binary_search_by(|place| part.name(*place).cmp(name)).ok()?,
        };
        self.next = at + 1;
        Some(children[at])
    }
}

#[cfg(test)]
mod tests {
    use super::*;

    fn directory(parent: Option<Arc<Directory>>, name: &str, number: u32) -> Arc<Directory> {
        let name = CString::new(name).unwrap();
        Arc::new(Directory::new(parent, name, number, &Status::default(), None))
    }
    fn part() -> Part {
        let root = directory(None, "", 1);
        let etc = directory(Some(root.clone()), "etc", 2);
        let mut shelf = Shelf::default();
        let status = Status::default();
        for (name, kind) in [("", Kind::Directory), ("etc", Kind::Directory), ("b", Kind::File)] {
            let label = shelf.number_of(b"a:b:c");
            shelf.add(name.as_bytes(), &status, kind, label);
        }
        shelf.add(b"a", &status, Kind::File, NO_LABEL);
        let above = directory(None, "", ABOVE_ROOT);
        for (directory, first, end) in [(above, 0, 1), (root, 1, 2), (etc, 2, 4)] {
            shelf.listings.push(Listing { directory, shelf: 0, first, end });
        }
        Part::new(vec![shelf])
    }
    #[test]
    fn paths_are_found() {
        let part = part();
        let mut finder = Finder::new(&part);
        for (path, index) in [("/", 0), ("/etc", 1), ("/etc/a", 3), ("/etc/b", 2)] {
            assert_eq!(finder.find(path.as_bytes()), Some(Place { shelf: 0, index }), "{path}");
        }
        for path in ["", "etc", "/etc/", "/etc/c", "/srv/a", "//", "/etc/a/b"] {
            assert_eq!(finder.find(path.as_bytes()), None, "{path}");
        }
    }
    #[test]
    fn of_a_name_that_came_twice_one_stays() {
        let mut part = part();
        assert!(part.take_twice().is_empty());
        assert_eq!(part.listings.len(), 3);
        part.listings[2].end = 4;
        let shelf = &mut part.shelves[0];
        for name in [b"c", b"c", b"d"] {
            shelf.add(name, &Status::default(), Kind::File, NO_LABEL);
        }
        part.listings[2].end = 7;
        let told = part.take_twice();
        assert_eq!(told.len(), 1);
        assert_eq!(told[0].1, b"c");
        let names: Vec<&[u8]> = part.children(2).into_iter().map(|it| part.name(it)).collect();
        assert_eq!(names, [b"a", b"b", b"c", b"d"]);
    }
    #[test]
    fn labels_are_kept_once() {
        let part = part();
        assert_eq!(part.label(Place { shelf: 0, index: 1 }), b"a:b:c");
        assert_eq!(part.label(Place { shelf: 0, index: 3 }), b"");
        assert_eq!(part.shelves[0].labels.len(), 1);
        assert_eq!(part.count(), 4);
    }
    #[test]
    fn what_is_amiss_is_amiss_above() {
        let part = part();
        let etc = &part.listings[2].directory;
        assert!(!etc.is_amiss());
        etc.note_amiss();
        assert!(part.listings[1].directory.is_amiss());
        assert_eq!(etc.path_of(b"x"), b"/etc/x");
    }
}
