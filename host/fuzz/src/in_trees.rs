//! Trees: digests that directories have, names of one inode, and relabel's answer about a tree.

use crate::decide::Answer;
use crate::digest::{known, stored, Marks};
use crate::links::{Groups, Links};
use crate::part::Decided;
use crate::sys::files::Status;
use crate::tree::{
    places_of, Directory, Kind, Linked, Listing, Part, Place, Shelf, ABOVE_ROOT, NO_LABEL,
};
use crate::words::{Asks, Words};
use std::collections::HashMap;
use std::ffi::CString;
use std::os::unix::process::ExitStatusExt;
use std::process::ExitStatus;
use std::sync::Arc;

/// The bytes of an input, zero behind its end.
struct Bytes<'a>(&'a [u8]);

impl<'a> Bytes<'a> {
    fn next(&mut self) -> u8 {
        match self.0.split_first() {
            Some((first, rest)) => {
                self.0 = rest;
                *first
            }
            None => 0,
        }
    }
    fn take(&mut self, length: usize) -> &'a [u8] {
        let (taken, rest) = self.0.split_at(length.min(self.0.len()));
        self.0 = rest;
        taken
    }
}

fn directory(parent: Option<Arc<Directory>>, name: &[u8], number: u32) -> Arc<Directory> {
    let name = CString::new(name).unwrap_or_default();
    Arc::new(Directory::new(parent, name, number, &Status::default(), None))
}

/// A tree that grows: directories, and one shelf.
struct Grown {
    shelf: Shelf,
    directories: Vec<Arc<Directory>>,
}

impl Grown {
    /// The root alone.
    fn new() -> Grown {
        let root = directory(None, b"", ABOVE_ROOT + 1);
        let mut grown = Grown { shelf: Shelf::default(), directories: vec![root] };
        let above = directory(None, b"", ABOVE_ROOT);
        grown.add(&above, b"", Kind::Directory, &Status::default(), b"", ABOVE_ROOT + 1);
        grown
    }
    fn add(
        &mut self,
        directory: &Arc<Directory>,
        name: &[u8],
        kind: Kind,
        status: &Status,
        label: &[u8],
        number: u32,
    ) -> u32 {
        let index = self.shelf.entries.len() as u32;
        let label = if label.is_empty() { NO_LABEL } else { self.shelf.number_of(label) };
        self.shelf.add(name, status, kind, label);
        if kind == Kind::Directory {
            self.shelf.entries[index as usize].directory = number;
        }
        let directory = directory.clone();
        self.shelf.listings.push(Listing { directory, shelf: 0, first: index, end: index + 1 });
        index
    }
    fn add_directory(&mut self, above: u8, name: &[u8], label: &[u8]) -> u32 {
        let above = self.directories[usize::from(above) % self.directories.len()].clone();
        let number = self.directories.len() as u32 + ABOVE_ROOT + 1;
        self.add(&above, name, Kind::Directory, &Status::default(), label, number);
        self.directories.push(directory(Some(above), name, number));
        number
    }
    fn add_file(&mut self, above: u8, name: &[u8], status: &Status, label: &[u8]) {
        let above = self.directories[usize::from(above) % self.directories.len()].clone();
        let index = self.add(&above, name, Kind::File, status, label, 0);
        if status.links > 1 {
            let place = Place { shelf: 0, index };
            self.shelf.linked.push(Linked { place, directory: above });
        }
    }
    fn part(self) -> Part {
        Part::new(vec![self.shelf])
    }
}

/// What a directory can have as its digest: anything. That which was made for it is told again.
pub fn digests(input: &[u8]) {
    let mut bytes = Bytes(input);
    let mut grown = Grown::new();
    let mut wanted = Vec::new();
    for count in 0..bytes.next() % 16 {
        let (above, length, digest) = (bytes.next(), bytes.next(), bytes.next());
        let label = bytes.take(usize::from(length % 8));
        let name = format!("n{count}");
        if length & 128 == 0 {
            let status = Status { links: u32::from(length & 3), ..Status::default() };
            grown.add_file(above, name.as_bytes(), &status, label);
        } else {
            let number = grown.add_directory(above, name.as_bytes(), label);
            let value = bytes.take(usize::from(digest));
            grown.shelf.digests.push((number, value.into()));
            wanted.push(number);
        }
    }
    let mut part = grown.part();
    let marks = Marks::of(&part);
    let mut made = HashMap::new();
    for place in part.listings.iter().flat_map(places_of) {
        let number = part.entry(place).directory;
        if wanted.contains(&number) && number % 2 == 0 {
            let digest = [number as u8; 20];
            made.insert(number, marks.value(&part, place, &digest));
        }
    }
    for (number, value) in &mut part.shelves[0].digests {
        if let Some(made) = made.get(number) {
            *value = made[..].into();
        }
    }
    told_are_true(&part, &made);
}

fn told_are_true(part: &Part, made: &HashMap<u32, Vec<u8>>) {
    let dump = known(part);
    let sections = crate::dump::parse(&dump).expect("what is written isn't read");
    let stored = stored(part);
    let mut finder = crate::tree::Finder::new(part);
    let mut told = Vec::new();
    for section in &sections {
        let place = finder.find(&section.name).expect("a name that wasn't read");
        let number = part.entry(place).directory;
        let digest = section.digest.as_deref().expect("no digest");
        assert_eq!(stored[&number].get(..20), Some(digest));
        told.push(number);
    }
    assert!(made.keys().all(|number| told.contains(number)));
    let count = told.len();
    told.sort_unstable();
    told.dedup();
    assert_eq!(told.len(), count);
}

/// Names of inodes in several parts: all names of one are decided together, and each once.
pub fn links(input: &[u8]) {
    let mut bytes = Bytes(input);
    let (count, most, more) = (bytes.next() % 4 + 1, bytes.next() % 8 + 1, bytes.next() % 2);
    let mut names: Vec<Vec<(u8, u64)>> = Vec::new();
    for _ in 0..count {
        let length = bytes.next() % 16;
        names.push((0..length).map(|_| (bytes.next(), u64::from(bytes.next() % 8))).collect());
    }
    let mut totals: HashMap<u64, u32> = HashMap::new();
    for (_, inode) in names.iter().flatten() {
        *totals.entry(*inode).or_default() += 1;
    }
    let mut links = Links::default();
    let mut sizes: HashMap<u64, Vec<usize>> = HashMap::new();
    let note = |groups: &Groups, sizes: &mut HashMap<u64, Vec<usize>>| {
        groups.sizes().for_each(|((_, inode), size)| sizes.entry(inode).or_default().push(size));
    };
    for (at, names) in names.iter().enumerate() {
        let mut grown = Grown::new();
        for folder in 0..3 {
            grown.add_directory(folder, &[b'a' + folder], b"");
        }
        for (number, (above, inode)) in names.iter().enumerate() {
            let name = format!("{at}-{number}");
            let links = totals[inode].max(2) + u32::from(more);
            let status = Status { inode: *inode, links, ..Status::default() };
            grown.add_file(*above, name.as_bytes(), &status, name.as_bytes());
        }
        let mut part = grown.part();
        let groups = links.groups_of(&mut part, at + 1 < usize::from(count));
        note(&groups, &mut sizes);
    }
    while let Some(mut part) = links.next_part(usize::from(most)) {
        let places: Vec<Place> = part.listings.iter().flat_map(places_of).collect();
        assert!(!places.is_empty());
        let groups = links.groups_of(&mut part, false);
        assert_eq!(groups.all().count(), places.len());
        for linked in groups.all() {
            assert_eq!(part.name(linked.place), part.label(linked.place));
            assert!(places.contains(&linked.place));
        }
        note(&groups, &mut sizes);
    }
    for (inode, total) in totals {
        assert_eq!(sizes.get(&inode).map(|it| &it[..]), Some(&[total as usize][..]));
    }
}

fn words() -> Words {
    match crate::words::read(["-v".into()].into_iter()) {
        Ok(Asks::Run(words)) => words,
        _ => panic!("-v isn't understood"),
    }
}

/// relabel's report and dump about a small tree; a line `--` stands between them.
pub fn answer(input: &[u8]) {
    let mark = b"\n--\n";
    let end = input.windows(mark.len()).position(|it| it == mark);
    let (report, dump) = match end {
        Some(end) => (&input[..end + 1], &input[end + mark.len()..]),
        None => (input, &b""[..]),
    };
    let mut grown = Grown::new();
    grown.add_directory(0, b"etc", b"old");
    for (name, links) in [("a", 1), ("b c", 2), ("d\n", 2), ("e\\", 1)] {
        let status = Status { inode: 7, links, ..Status::default() };
        grown.add_file(1, name.as_bytes(), &status, b"old");
    }
    let mut part = grown.part();
    let groups = Links::default().groups_of(&mut part, false);
    let status = ExitStatus::from_raw(0);
    let answer = Answer { report: report.to_vec(), dump: dump.to_vec(), status };
    if let Ok(decided) = Decided::of(&part, &groups, &answer, &words()) {
        let changed = report.split(|&byte| byte == b'\n');
        let changed = changed.filter(|line| line.starts_with(b"Relabeled /")).count();
        assert_eq!(decided.changes.len(), changed);
        let mut paths: Vec<&[u8]> = decided.changes.iter().map(|it| &it.path[..]).collect();
        paths.sort_unstable();
        paths.dedup();
        assert_eq!(paths.len(), changed, "a name is changed twice");
        assert!(decided.changes.iter().all(|it| it.expected.is_some()));
    }
}
