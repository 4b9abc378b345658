//! relabel-apply: sets the attributes of a dump on the files that find's records name, on no
//! others.

use crate::dump::{self, BadLine, Section};
use crate::lock::Lock;
use crate::paths::{as_path, Root};
use crate::say::{
    is_all_written, note_unwritten, plain, push_reported, refuse, say, Outcome, Refusal,
};
use crate::set::{set_all, Change, Expected, Setting, Unset, Watch};
use crate::sys::attributes::Attribute;
use crate::sys::files::{open_regular, status_of};
use crate::sys::process::{raise_descriptors, set_up_signals, stopping};
use crate::sys::{c_name, reason};
use crate::tree::Kind;
use crate::words::number_up_to;
use std::borrow::Cow;
use std::collections::{HashMap, HashSet};
use std::ffi::OsString;
use std::fs::{File, OpenOptions};
use std::io::{self, Read, Write};
use std::os::unix::ffi::OsStringExt;
use std::os::unix::fs::{MetadataExt, OpenOptionsExt};
use std::os::unix::io::OwnedFd;
use std::sync::atomic::{AtomicUsize, Ordering};
use std::sync::Mutex;

const USAGE: &str = "\
usage: relabel-apply [-2] [-j N] [-r ROOT] [-u NAMES] [-l LIST] RECORDS DUMP
Sets the attributes of the dump that relabel wrote from these records.
  -2        the records have link counts, as relabel reads them by its -2
  -j N      N threads at once, 1 to 256 (1)
  -r ROOT   the names are as seen from within ROOT
  -l LIST   a file that gets the names that weren't set, each on a line
  -u NAMES  a file of names, each ended by a NUL, that were not read: no digest is set above
Status: 0 all is set; 1 something isn't, and each such name is told; 2 a word, the records
or the dump is refused, and nothing is set; 129, 130, 143 stopped by a signal.
";
const MOST_THREADS: usize = 256;

struct Words {
    links: bool,
    threads: usize,
    root: Vec<u8>,
    unread: Option<Vec<u8>>,
    list: Option<Vec<u8>>,
    records: Vec<u8>,
    dump: Vec<u8>,
}

enum Asks {
    Help,
    Version,
    Run(Words),
}

/// The words, or none where they are wrong.
fn read_words(words: impl Iterator<Item = OsString>) -> Option<Asks> {
    let mut read = Words {
        links: false,
        threads: 1,
        root: b"/".to_vec(),
        unread: None,
        list: None,
        records: Vec::new(),
        dump: Vec::new(),
    };
    let mut words = words.map(OsString::into_vec);
    let mut files = Vec::new();
    let mut is_option = true;
    while let Some(word) = words.next() {
        match &word[..] {
            b"--" if is_option => is_option = false,
            b"--help" | b"-h" if is_option => return Some(Asks::Help),
            b"--version" if is_option => return Some(Asks::Version),
            [b'-', letters @ ..] if is_option && !letters.is_empty() => {
                read_letters(letters, &mut words, &mut read)?;
            }
            _ => files.push(word),
        }
    }
    read.dump = files.pop()?;
    read.records = files.pop()?;
    files.is_empty().then_some(Asks::Run(read))
}

fn read_letters(
    letters: &[u8],
    words: &mut impl Iterator<Item = Vec<u8>>,
    read: &mut Words,
) -> Option<()> {
    let twos = letters.iter().take_while(|letter| **letter == b'2').count();
    read.links |= twos > 0;
    if let Some((letter, value)) = letters[twos..].split_first() {
        let value = if value.is_empty() { words.next()? } else { value.to_vec() };
        match letter {
            b'j' => read.threads = number_up_to(&value, MOST_THREADS)?,
            b'r' => read.root = value,
            b'u' => read.unread = Some(value),
            b'l' => read.list = Some(value),
            _ => return None,
        }
    }
    Some(())
}

pub fn apply(words: impl Iterator<Item = OsString>) -> Outcome<u8> {
    match read_words(words) {
        Some(Asks::Help) => Ok(crate::print_usage(USAGE)),
        Some(Asks::Version) => Ok(crate::print_version()),
        Some(Asks::Run(words)) => run(&words),
        None => {
            if io::stderr().write_all(USAGE.as_bytes()).is_err() {
                note_unwritten();
            }
            Ok(crate::say::USAGE)
        }
    }
}

fn refused(what: &[u8], why: &str) -> Refusal {
    crate::say::refusal(format!("{}: {why}; nothing was set", plain(what)))
}

/// The content of a regular file that nobody changes meanwhile.
fn content_of(name: &[u8]) -> Outcome<Vec<u8>> {
    let read = || -> io::Result<Option<Vec<u8>>> {
        let mut file = open_regular(&c_name(name)?)?;
        let before = file.metadata()?;
        let mut text = Vec::new();
        file.read_to_end(&mut text)?;
        let after = file.metadata()?;
        let moment = |it: &std::fs::Metadata| (it.len(), it.mtime(), it.mtime_nsec());
        let is_whole = moment(&before) == moment(&after) && after.len() == text.len() as u64;
        Ok(is_whole.then_some(text))
    };
    match read() {
        Ok(Some(text)) => Ok(text),
        Ok(None) => Err(refused(name, "it changed while it was read")),
        Err(error) => Err(refused(name, &reason(&error))),
    }
}

/// A record of find's format '%y %D %i %Z %p', or '%y %D %i %n %Z %p'.
#[derive(Debug, PartialEq, Eq)]
pub struct Record<'a> {
    pub kind: Kind,
    pub device: u64,
    pub inode: u64,
    pub label: &'a [u8],
    pub path: Cow<'a, [u8]>,
}

fn number(field: &[u8]) -> Option<u64> {
    let is_number = !field.is_empty() && field.iter().all(u8::is_ascii_digit);
    std::str::from_utf8(field).ok().filter(|_| is_number)?.parse().ok()
}

/// With one slash between names, and none at the end; none with a dot part, which leads elsewhere.
fn normal(path: &[u8]) -> Option<Cow<'_, [u8]>> {
    let parts = || path.split(|&byte| byte == b'/').skip(1);
    if path.first() != Some(&b'/') || parts().any(|part| matches!(part, b"." | b"..")) {
        return None;
    }
    if path == b"/" || !parts().any(<[u8]>::is_empty) {
        return Some(Cow::Borrowed(path));
    }
    let mut plain: Vec<u8> = Vec::with_capacity(path.len());
    for part in parts().filter(|part| !part.is_empty()) {
        plain.push(b'/');
        plain.extend_from_slice(part);
    }
    if plain.is_empty() {
        plain.push(b'/');
    }
    Some(Cow::Owned(plain))
}

fn parse_record(text: &[u8], links: bool) -> Option<Record<'_>> {
    let mut fields = text.splitn(if links { 6 } else { 5 }, |&byte| byte == b' ');
    let kind = match fields.next()? {
        [letter] => Kind::of_letter(*letter)?,
        _ => return None,
    };
    let device = number(fields.next()?)?;
    let inode = number(fields.next()?)?;
    if links {
        number(fields.next()?)?;
    }
    let label = match fields.next()? {
        b"?" => b"",
        label => label,
    };
    let path = normal(fields.next()?)?;
    Some(Record { kind, device, inode, label, path })
}

/// All records, or the number of the first that is none, from 1.
pub fn parse_records(text: &[u8], links: bool) -> Result<Vec<Record<'_>>, usize> {
    let mut records = Vec::with_capacity(text.len() / 64);
    let mut rest = text;
    while !rest.is_empty() {
        let end = rest.iter().position(|&byte| byte == 0).ok_or(records.len() + 1)?;
        let record = parse_record(&rest[..end], links).ok_or(records.len() + 1)?;
        records.push(record);
        rest = &rest[end + 1..];
    }
    Ok(records)
}

/// What was read, and how it is found.
struct Known<'a> {
    records: Vec<Record<'a>>,
    by_path: HashMap<&'a [u8], usize>,
    by_inode: HashMap<(u64, u64), Vec<usize>>,
}

impl<'a> Known<'a> {
    fn of(records: &'a [Record<'a>]) -> HashMap<&'a [u8], usize> {
        records.iter().enumerate().map(|(at, record)| (&record.path[..], at)).collect()
    }
}

/// The inodes of the sections, and their names.
fn names_by_inode(
    records: &[Record],
    by_path: &HashMap<&[u8], usize>,
    sections: &[Section],
) -> HashMap<(u64, u64), Vec<usize>> {
    let inode = |at: usize| (records[at].device, records[at].inode);
    let mut names: HashMap<(u64, u64), Vec<usize>> = sections
        .iter()
        .filter_map(|section| by_path.get(&section.name[..]))
        .map(|&at| (inode(at), Vec::new()))
        .collect();
    for at in 0..records.len() {
        if let Some(names) = names.get_mut(&inode(at)) {
            names.push(at);
        }
    }
    names
}

/// What was set, and what wasn't.
struct Counts<'a, 'b> {
    changes: &'b [Change<'a>],
    what: &'static str,
    list: Option<&'b Mutex<File>>,
    set: AtomicUsize,
    gone: AtomicUsize,
    replaced: AtomicUsize,
    refused: AtomicUsize,
    unset: Mutex<Vec<usize>>,
}

impl<'a, 'b> Counts<'a, 'b> {
    fn of(changes: &'b [Change<'a>], what: &'static str, list: Option<&'b Mutex<File>>) -> Self {
        Counts {
            changes,
            what,
            list,
            set: AtomicUsize::new(0),
            gone: AtomicUsize::new(0),
            replaced: AtomicUsize::new(0),
            refused: AtomicUsize::new(0),
            unset: Mutex::default(),
        }
    }
    fn list(&self, path: &[u8]) {
        if let Some(Ok(mut list)) = self.list.map(Mutex::lock) {
            let mut line = Vec::new();
            push_reported(&mut line, path);
            line.push(b'\n');
            if list.write_all(&line).is_err() {
                note_unwritten();
                say(&format!("{}: not listed", plain(path)));
            }
        }
    }
}

impl<'a, 'b> Watch for Counts<'a, 'b> {
    fn done(&self, number: usize, answer: Result<(), Unset>) {
        let count = match &answer {
            Ok(()) => &self.set,
            Err(Unset::Gone) => &self.gone,
            Err(Unset::Replaced | Unset::NoRecord) => &self.replaced,
            Err(Unset::Stuck | Unset::Failed(_)) => &self.refused,
        };
        count.fetch_add(1, Ordering::Relaxed);
        if let Err(unset) = answer {
            let path = &self.changes[number].path;
            say(&format!("{}{}: {}", plain(path), self.what, unset.text()));
            self.list(path);
            if let Ok(mut numbers) = self.unset.lock() {
                numbers.push(number);
            }
        }
    }
}

fn change_of<'a>(
    known: &'a Known<'a>,
    path: &'a [u8],
    value: &'a [u8],
    compares: bool,
) -> Change<'a> {
    let found = known.by_path.get(path).map(|&at| (at, &known.records[at]));
    let expected = found.map(|(_, record)| Expected {
        device: record.device,
        inode: record.inode,
        kind: record.kind,
        birth: None,
        label: Some(record.label).filter(|_| compares),
    });
    let mut others = Vec::new();
    if let Some((own, record)) = found.filter(|(_, record)| record.kind != Kind::Directory) {
        let names = known.by_inode.get(&(record.device, record.inode)).into_iter().flatten();
        let names = names.filter(|&&at| at != own);
        others = names.map(|&at| known.records[at].path.to_vec()).collect();
    }
    Change { path: Cow::Borrowed(path), expected, value: Cow::Borrowed(value), others }
}

/// The path and all above it.
fn and_above(path: &[u8], mut each: impl FnMut(&[u8])) {
    each(path);
    each(b"/");
    for (end, _) in path.iter().enumerate().skip(1).filter(|(_, byte)| **byte == b'/') {
        each(&path[..end]);
    }
}

/// The sections of the dump, none twice.
fn sections_of<'a>(words: &Words, dump: &'a [u8]) -> Outcome<Vec<Section<'a>>> {
    let sections = dump::parse(dump).map_err(|BadLine(number)| {
        refused(&words.dump, &format!("{number}: not a line of a dump"))
    })?;
    let mut seen = HashSet::new();
    if let Some(twice) = sections.iter().find(|section| !seen.insert(&section.name[..])) {
        return Err(refused(&words.dump, &format!("names {} twice", plain(&twice.name))));
    }
    Ok(sections)
}

/// The list of what isn't set, empty, if one is asked for.
fn open_list(words: &Words) -> Outcome<Option<Mutex<File>>> {
    let name = match &words.list {
        Some(name) => name,
        None => return Ok(None),
    };
    let mut options = OpenOptions::new();
    options.append(true).create(true).mode(0o600);
    let opened = options.open(as_path(name)).and_then(|file| {
        file.set_len(0)?;
        Ok(Mutex::new(file))
    });
    opened.map(Some).map_err(|error| refused(name, &reason(&error)))
}

fn run(words: &Words) -> Outcome<u8> {
    set_up_signals().map_err(|error| refused(b"signals", &reason(&error)))?;
    let folders = raise_descriptors();
    let records = content_of(&words.records)?;
    let records = parse_records(&records, words.links)
        .map_err(|number| refused(&words.records, &format!("{number}: not a record")))?;
    let dump = content_of(&words.dump)?;
    let sections = sections_of(words, &dump)?;
    let unread = match &words.unread {
        Some(name) => content_of(name)?,
        None => Vec::new(),
    };
    let list = open_list(words)?;
    let root = Root::of(&words.root)?;
    let failed = |error: io::Error| refused(&words.root, &reason(&error));
    let opened = root.open().map_err(failed)?;
    let mut lock = None;
    if crate::sys::process::is_root() {
        let status = status_of(&opened).map_err(failed)?;
        lock = Lock::take(&status)?;
        if lock.is_none() {
            return Ok(stopped(0));
        }
    }
    let by_inode = names_by_inode(&records, &Known::of(&records), &sections);
    let paths: Vec<Vec<u8>> = records.iter().map(|record| record.path.to_vec()).collect();
    let by_path = paths.iter().enumerate().map(|(at, path)| (&path[..], at)).collect();
    let known = Known { records, by_path, by_inode };
    let applying = Applying {
        folders,
        threads: words.threads,
        root: opened.into(),
        known: &known,
        sections: &sections,
        list: list.as_ref(),
    };
    applying.run(&unread, lock)
}

fn stopped(labels: usize) -> u8 {
    say(&format!("stopped; {labels} labels were set and stay, no digest is set"));
    128u8.saturating_add(u8::try_from(stopping().unwrap_or_default()).unwrap_or_default())
}

struct Applying<'a> {
    folders: usize,
    threads: usize,
    root: OwnedFd,
    known: &'a Known<'a>,
    sections: &'a [Section<'a>],
    list: Option<&'a Mutex<File>>,
}

impl<'a> Applying<'a> {
    fn set(&self, counts: &Counts<'a, '_>, attribute: Attribute) -> Outcome<()> {
        let setting = Setting {
            root: &self.root,
            changes: counts.changes,
            attribute,
            threads: self.threads,
            most_open: (self.folders / self.threads).clamp(4, 4096),
        };
        let answer = set_all(&setting, counts);
        answer.or_else(|error| refuse(format!("/proc is needed: {}", reason(&error))))
    }
    fn run(&self, unread: &[u8], mut lock: Option<Lock>) -> Outcome<u8> {
        let labels = self.labels();
        if let Some(lock) = &mut lock {
            lock.note_begun();
        }
        let counts = Counts::of(&labels, "", self.list);
        self.set(&counts, Attribute::Label)?;
        let count = |count: &AtomicUsize| count.load(Ordering::Relaxed);
        if stopping().is_some() {
            return Ok(stopped(count(&counts.set)));
        }
        let amiss = self.amiss(&counts, unread);
        let digests = self.digests_without(&amiss);
        let digest_counts = Counts::of(&digests, ": its digest", self.list);
        self.set(&digest_counts, Attribute::Digest)?;
        if let Some(lock) = lock.as_mut().filter(|_| stopping().is_none()) {
            lock.note_done();
        }
        let both = |one: &AtomicUsize, other: &AtomicUsize| count(one) + count(other);
        let (gone, replaced, refused) = (
            both(&counts.gone, &digest_counts.gone),
            both(&counts.replaced, &digest_counts.replaced),
            both(&counts.refused, &digest_counts.refused),
        );
        let status = crate::print(&format!(
            "{} labels set, {gone} gone, {replaced} replaced, {refused} refused, {} digests set\n",
            count(&counts.set),
            count(&digest_counts.set),
        ));
        let is_all = gone + replaced + refused == 0 && is_all_written();
        Ok(status.max(u8::from(!is_all)))
    }
    fn labels(&self) -> Vec<Change<'a>> {
        let labelled = self.sections.iter().filter_map(|section| {
            let label = section.label.as_ref()?;
            Some(change_of(self.known, &section.name, label, true))
        });
        labelled.collect()
    }
    fn digests_without(&self, amiss: &HashSet<Vec<u8>>) -> Vec<Change<'a>> {
        let sections = self.sections.iter().filter(|section| !amiss.contains(&section.name[..]));
        let with_digest = sections.filter_map(|section| {
            let digest = section.digest.as_ref()?;
            Some(change_of(self.known, &section.name, digest, false))
        });
        with_digest.collect()
    }
    /// The paths of what isn't done, and of all above it.
    fn amiss(&self, counts: &Counts, unread: &[u8]) -> HashSet<Vec<u8>> {
        let mut amiss = HashSet::new();
        let unset = counts.unset.lock().map(|numbers| numbers.clone()).unwrap_or_default();
        let changes = unset.iter().map(|&number| &counts.changes[number]);
        let names = changes.flat_map(|change| {
            change.others.iter().map(|other| &other[..]).chain([&change.path[..]])
        });
        for path in names.chain(unread.split(|&byte| byte == 0).filter(|it| !it.is_empty())) {
            and_above(path, |path| {
                if !amiss.contains(path) {
                    amiss.insert(path.to_vec());
                }
            });
        }
        amiss
    }
}

#[cfg(test)]
mod tests {
    use super::*;

    #[test]
    fn records_are_read() {
        let text = b"f 1 18446744073709551615 a:b:c /a b\0d 2 3 ? //c//d/\0l 4 5  /\0";
        let records = parse_records(text, false).unwrap();
        assert_eq!(records.len(), 3);
        assert_eq!((records[0].inode, records[0].label), (u64::MAX, &b"a:b:c"[..]));
        assert_eq!(&*records[0].path, b"/a b");
        assert_eq!((records[1].label, &*records[1].path), (&b""[..], &b"/c/d"[..]));
        assert_eq!(&*records[2].path, b"/");
        assert_eq!(parse_records(b"f 1 2 3  /a\0", true).unwrap().len(), 1);
    }
    #[test]
    fn what_is_no_record_is_told() {
        for text in [
            &b"f 1 2 x /a"[..],
            b"f 1 2 x a\0",
            b"f 1 2 x /../a\0",
            b"f 1 2 x /a/..\0",
            b"f 1 2 x /./a\0",
            b"f 1 18446744073709551616 x /a\0",
            b"f -1 2 x /a\0",
            b"f  2 x /a\0",
            b"x 1 2 x /a\0",
            b"ff 1 2 x /a\0",
            b"f 1 2 /a\0",
            b"\0",
        ] {
            assert_eq!(parse_records(text, false), Err(1), "{}", text.escape_ascii());
        }
        assert_eq!(parse_records(b"f 1 2  /a\0f 1\0", false), Err(2));
    }
    #[test]
    fn all_above_a_path() {
        let mut paths = Vec::new();
        and_above(b"/a/b/c", |path| paths.push(path.to_vec()));
        assert_eq!(paths, [&b"/a/b/c"[..], b"/", b"/a", b"/a/b"]);
    }
}
