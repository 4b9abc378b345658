//! Stored digests. What a directory has as its attribute is relabel's digest of all that decides
//! the labels at and below it, and behind that a mark: the hash of all names, kinds, link counts
//! and labels at and below it. The digest counts only where the mark is that of what is read: a
//! label that changed by whatever way, a new file, another name of one, makes it void by itself.

use crate::dump::push_digest;
use crate::sha256::{Sha256, Sum};
use crate::tree::{Directory, Part, Place, Shelf, ABOVE_ROOT, NO_DIRECTORY};
use std::collections::HashMap;

/// The length of relabel's digest.
const DIGEST: usize = 20;

/// The marks of directories, by their numbers.
pub struct Marks(HashMap<u32, Sum>);

impl Marks {
    /// Of all directories of a part: those with greater numbers lie deeper.
    pub fn of(part: &Part) -> Marks {
        let labels: Vec<HashMap<u32, Sum>> = part.shelves.iter().map(label_sums).collect();
        let mut marks = Marks(HashMap::new());
        let mut end = part.listings.len();
        while end > 0 {
            let number = part.listings[end - 1].directory.number;
            let sum = marks.sum_below(part, &labels, number);
            marks.0.insert(number, sum);
            end -= part.listings_of(number).len();
        }
        marks
    }
    fn sum_below(&self, part: &Part, labels: &[HashMap<u32, Sum>], number: u32) -> Sum {
        let mut hash = Sha256::default();
        for place in part.children(number) {
            let entry = part.entry(place);
            let name = part.name(place);
            hash.add(&[name.len() as u8]);
            hash.add(name);
            hash.add(&self.sum_of(part, labels, place)[..]);
            hash.add(&[entry.kind.letter()]);
        }
        hash.sum()
    }
    /// Of an entry and all below it.
    fn sum_of(&self, part: &Part, labels: &[HashMap<u32, Sum>], place: Place) -> Sum {
        let entry = part.entry(place);
        let label = labels[place.shelf as usize].get(&entry.label);
        let label = label.copied().unwrap_or_default();
        let links = if entry.directory == NO_DIRECTORY { entry.links } else { 0 };
        match self.0.get(&entry.directory) {
            None if links <= 1 => label,
            below => {
                let mut hash = Sha256::default();
                hash.add(&label);
                hash.add(&links.to_be_bytes());
                hash.add(&below.copied().unwrap_or_default());
                hash.sum()
            }
        }
    }
    /// What a directory is to have as its attribute.
    pub fn value(&self, part: &Part, place: Place, digest: &[u8]) -> Vec<u8> {
        [digest, &self.mark(part, place)].concat()
    }
    /// The mark of a directory, with its own label.
    fn mark(&self, part: &Part, place: Place) -> Sum {
        let number = part.entry(place).directory;
        let mut hash = Sha256::default();
        hash.add(part.label(place));
        hash.add(&[0]);
        hash.add(&self.0.get(&number).copied().unwrap_or_default());
        hash.sum()
    }
}

/// The hashes of the labels of a shelf, by their numbers; that of none is zero bytes.
fn label_sums(shelf: &Shelf) -> HashMap<u32, Sum> {
    let labels = shelf.labels().enumerate();
    labels
        .map(|(at, label)| {
            let mut hash = Sha256::default();
            hash.add(label);
            (at as u32 + 1, hash.sum())
        })
        .collect()
}

/// The digests that directories have, by their numbers.
pub fn stored(part: &Part) -> HashMap<u32, &[u8]> {
    let all = part.shelves.iter().flat_map(|shelf| &shelf.digests);
    all.map(|(number, value)| (*number, &value[..])).collect()
}

/// A digest that relabel puts in place of one that no longer holds.
pub fn is_void(digest: &[u8]) -> bool {
    digest.iter().all(|&byte| byte == 0)
}

/// The dump of those stored digests that hold.
pub fn known(part: &Part) -> Vec<u8> {
    let mut dump = Vec::new();
    let stored = stored(part);
    if stored.is_empty() {
        return dump;
    }
    let marks = Marks::of(part);
    for listing in &part.listings {
        for place in crate::tree::places_of(listing) {
            let holds = |value: &&[u8]| value.get(DIGEST..) == Some(&marks.mark(part, place)[..]);
            let value = stored.get(&part.entry(place).directory).copied();
            if let Some(value) = value.filter(holds) {
                let path = path_of(&listing.directory, part.name(place));
                push_digest(&mut dump, &path, &value[..DIGEST]);
            }
        }
    }
    dump
}

/// The path of a name in a directory, also where that is the one that has the root.
pub fn path_of(directory: &Directory, name: &[u8]) -> Vec<u8> {
    match directory.number {
        ABOVE_ROOT => b"/".to_vec(),
        _ => directory.path_of(name),
    }
}
