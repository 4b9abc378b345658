//! Names of inodes that have several. All names of one are decided together: where the tree is
//! decided in parts and not all names lie in one, behind all parts.

use crate::sys::files::Status;
use crate::tree::{Directory, Entry, Kind, Linked, Listing, Part, Place, Shelf, NO_DIRECTORY};
use std::collections::{HashMap, HashSet};
use std::sync::Arc;

type Inode = (u64, u64);

fn inode_of(entry: &Entry) -> Inode {
    (entry.device, entry.inode)
}

/// The inodes of a part that have several names.
#[derive(Default)]
pub struct Groups {
    groups: HashMap<Inode, Vec<Linked>>,
    later: HashSet<Place>,
}

impl Groups {
    /// All names that are decided in this part.
    pub fn all(&self) -> impl Iterator<Item = &Linked> {
        self.groups.values().flatten()
    }
    pub fn sizes(&self) -> impl Iterator<Item = (Inode, usize)> + '_ {
        self.groups.iter().map(|(inode, names)| (*inode, names.len()))
    }
    pub fn names_of(&self, entry: &Entry) -> impl Iterator<Item = &Linked> {
        let group = Some(entry).filter(|entry| entry.directory == NO_DIRECTORY);
        group.and_then(|entry| self.groups.get(&inode_of(entry))).into_iter().flatten()
    }
    pub fn is_later(&self, place: Place) -> bool {
        self.later.contains(&place)
    }
}

/// A name that is decided behind all parts.
struct Later {
    directory: Arc<Directory>,
    name: Vec<u8>,
    label: Vec<u8>,
    status: Status,
    kind: Kind,
}

/// What is decided behind all parts.
#[derive(Default)]
pub struct Links {
    later: HashMap<Inode, Vec<Later>>,
    is_behind: bool,
}

impl Links {
    /// The names of inodes that are decided in this part. Where it isn't the last one, or others
    /// came before, those that may have names there are kept for later.
    pub fn groups_of(&mut self, part: &mut Part, has_more: bool) -> Groups {
        let mut groups: HashMap<Inode, Vec<Linked>> = HashMap::new();
        for shelf in &mut part.shelves {
            for linked in std::mem::take(&mut shelf.linked) {
                let entry = &shelf.entries[linked.place.index as usize];
                groups.entry(inode_of(entry)).or_default().push(linked);
            }
        }
        let mut later = HashSet::new();
        if !self.is_behind {
            groups.retain(|inode, names| {
                let links = names.first().map_or(0, |linked| part.entry(linked.place).links);
                let is_whole = names.len() >= links as usize || !has_more;
                if is_whole && !self.later.contains_key(inode) {
                    return true;
                }
                let kept = self.later.entry(*inode).or_default();
                for linked in names {
                    later.insert(linked.place);
                    linked.directory.note_amiss();
                    kept.push(Later::of(part, linked));
                }
                false
            });
        }
        Groups { groups, later }
    }
    /// How many names are kept for later.
    pub fn count(&self) -> usize {
        self.later.values().map(Vec::len).sum()
    }
    /// The next part of those that were kept for later, with all names of each inode.
    pub fn next_part(&mut self, most: usize) -> Option<Part> {
        self.is_behind = true;
        let mut names: Vec<Later> = Vec::new();
        while names.len() < most {
            let inode = match self.later.keys().next() {
                Some(inode) => *inode,
                None => break,
            };
            names.extend(self.later.remove(&inode).unwrap_or_default());
        }
        if names.is_empty() {
            return None;
        }
        names.sort_by_key(|later| later.directory.number);
        let mut shelf = Shelf::default();
        for later in names {
            later.put(&mut shelf);
        }
        Some(Part::new(vec![shelf]))
    }
}

impl Later {
    fn of(part: &Part, linked: &Linked) -> Later {
        let entry = part.entry(linked.place);
        Later {
            directory: linked.directory.clone(),
            name: part.name(linked.place).to_vec(),
            label: part.label(linked.place).to_vec(),
            status: Status {
                device: entry.device,
                inode: entry.inode,
                mode: 0,
                links: entry.links,
                birth: entry.birth,
            },
            kind: entry.kind,
        }
    }
    fn put(self, shelf: &mut Shelf) {
        let index = shelf.entries.len() as u32;
        let label = shelf.number_of(&self.label);
        shelf.add(&self.name, &self.status, self.kind, label);
        let place = Place { shelf: 0, index };
        let directory = self.directory.clone();
        shelf.linked.push(Linked { place, directory });
        match shelf.listings.last_mut() {
            Some(last) if last.directory.number == self.directory.number => last.end = index + 1,
            _ => shelf.listings.push(Listing {
                directory: self.directory,
                shelf: 0,
                first: index,
                end: index + 1,
            }),
        }
    }
}
