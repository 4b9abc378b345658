//! What relabel decided of a part, and how it is set.

use crate::decide::Answer;
use crate::digest::{is_void, Marks};
use crate::dump::{self, Section};
use crate::links::Groups;
use crate::progress::Phase;
use crate::report::{self, Line};
use crate::run::Run;
use crate::say::{plain, push_reported, refusal, refuse, say, Outcome};
use crate::set::{self, Change, Expected, Setting, Unset, Watch};
use crate::show::{Item, Shower, Shown, Style, DONE, FAILED, WAITS};
use crate::sys::attributes::Attribute;
use crate::sys::reason;
use crate::tree::{Directory, Finder, Part, Place};
use crate::words::{Mode, Words};
use std::borrow::Cow;
use std::collections::{HashMap, HashSet};
use std::sync::atomic::{AtomicU8, AtomicUsize, Ordering};
use std::sync::Arc;

/// A label that was to be set.
pub struct Labelled {
    pub place: Place,
    pub label: Vec<u8>,
    pub is_set: bool,
}

/// What relabel decided.
#[derive(Default)]
pub struct Decided<'a> {
    pub changes: Vec<Change<'a>>,
    places: Vec<Place>,
    items: Vec<Item<'a>>,
    pub kept: usize,
    pub undecided: usize,
    pub skipped: usize,
    pub conflicts: usize,
    pub further: usize,
    pub unread: usize,
}

fn not_agreed(what: &str) -> crate::say::Refusal {
    refusal(format!("{what}; nothing of this part was set"))
}

fn not_known(line: &[u8]) -> crate::say::Refusal {
    not_agreed(&format!("relabel reports what isn't known: {}", plain(line)))
}

/// What a dump says of entries that were read.
struct Sections<'a> {
    placed: Vec<(Place, Section<'a>)>,
    /// A root that stands in for what isn't asked for would get a label.
    changes_root: bool,
}

/// The sections of a dump, each of an entry that was read, and of each one. Where the root stands
/// in for what isn't asked for, its section is passed over.
fn sections_of<'a>(part: &Part, answer: &'a Answer) -> Outcome<Sections<'a>> {
    let sections = dump::parse(&answer.dump)
        .map_err(|line| not_agreed(&format!("the dump of relabel is none at line {}", line.0)))?;
    let mut of = Sections { placed: Vec::with_capacity(sections.len()), changes_root: false };
    if sections.is_empty() {
        return Ok(of);
    }
    let mut finder = Finder::new(part);
    let mut seen = HashSet::with_capacity(sections.len());
    for section in sections {
        if &*section.name == b"/" && !part.has_root() {
            of.changes_root = section.label.is_some();
            continue;
        }
        match finder.find(&section.name).filter(|place| seen.insert(*place)) {
            Some(place) => of.placed.push((place, section)),
            None => {
                let name = plain(&section.name);
                return Err(not_agreed(&format!("relabel decided on {name}, which wasn't read")));
            }
        }
    }
    Ok(of)
}

/// How many names of an inode with several no specification decided.
struct Undecided<'a> {
    part: &'a Part,
    finder: Option<Finder<'a>>,
    counts: HashMap<(u64, u64), usize>,
}

impl<'a> Undecided<'a> {
    fn of(part: &'a Part, groups: &Groups) -> Undecided<'a> {
        let finder = groups.sizes().next().map(|_| Finder::new(part));
        Undecided { part, finder, counts: HashMap::new() }
    }
    fn add(&mut self, name: &[u8]) {
        let name = dump::unescaped(name);
        let found = self.finder.as_mut().zip(name).and_then(|(finder, name)| finder.find(&name));
        if let Some(place) = found {
            let entry = self.part.entry(place);
            *self.counts.entry((entry.device, entry.inode)).or_default() += 1;
        }
    }
}

impl<'a> Decided<'a> {
    pub fn of(
        part: &'a Part,
        groups: &Groups,
        answer: &'a Answer,
        words: &Words,
    ) -> Outcome<Decided<'a>> {
        let mut decided = Decided::default();
        let sections = sections_of(part, answer)?;
        for (place, section) in sections.placed {
            if let Some(label) = section.label {
                decided.add(part, groups, place, section.name, label);
            }
        }
        let mut undecided = Undecided::of(part, groups);
        decided.read_report(&mut undecided, answer, words, sections.changes_root)?;
        let further = groups.sizes().map(|(inode, size)| {
            let undecided = undecided.counts.get(&inode).copied().unwrap_or_default();
            size.saturating_sub(1 + undecided)
        });
        decided.further = further.sum();
        Ok(decided)
    }
    fn add(
        &mut self,
        part: &'a Part,
        groups: &Groups,
        place: Place,
        path: Cow<'a, [u8]>,
        value: Cow<'a, [u8]>,
    ) {
        let entry = part.entry(place);
        let names = groups.names_of(entry).filter(|linked| linked.place != place);
        let others: Vec<Vec<u8>> =
            names.map(|it| it.directory.path_of(part.name(it.place))).collect();
        if entry.directory == crate::tree::NO_DIRECTORY {
            self.unread += (entry.links as usize).saturating_sub(1 + others.len());
        }
        let expected = Some(Expected {
            device: entry.device,
            inode: entry.inode,
            kind: entry.kind,
            birth: Some(entry.birth),
            label: Some(part.label(place)),
        });
        self.changes.push(Change { path, expected, value, others });
        self.places.push(place);
    }
    fn read_report(
        &mut self,
        undecided: &mut Undecided,
        answer: &'a Answer,
        words: &Words,
        mut is_of_root: bool,
    ) -> Outcome<()> {
        let shows = words.shows || words.mode != Mode::Set;
        let mut changed = 0;
        for line in report::lines(&answer.report) {
            let line = line.ok_or_else(|| not_agreed("the report of relabel has no end"))?;
            let is_shown = match report::parse_line(line) {
                Some(Line::Changed(_)) if std::mem::take(&mut is_of_root) => false,
                Some(Line::Undecided(b"/")) if !undecided.part.has_root() => false,
                Some(Line::Changed(rest)) => {
                    self.check_agrees(changed, rest, line)?;
                    if shows {
                        self.items.push(Item::Change(changed));
                    }
                    changed += 1;
                    false
                }
                Some(told) => {
                    if let Line::Undecided(name) = told {
                        undecided.add(name);
                    }
                    let is_conflict = matches!(told, Line::Conflict);
                    self.count(&told) && (shows || is_conflict && !words.quiet)
                }
                None => return Err(not_known(line)),
            };
            if is_shown {
                self.items.push(Item::Line(line));
            }
        }
        if changed != self.changes.len() {
            return Err(not_agreed("report and dump of relabel differ at their end"));
        }
        Ok(())
    }
    /// Counts a line that changes nothing; whether it may be shown.
    fn count(&mut self, line: &Line) -> bool {
        let counter = match line {
            Line::Changed(_) => return true,
            Line::Kept(_) => &mut self.kept,
            Line::Undecided(_) => &mut self.undecided,
            Line::Skipped(_) => &mut self.skipped,
            Line::Conflict => &mut self.conflicts,
        };
        *counter += 1;
        !matches!(line, Line::Skipped(_))
    }
    /// A line of the report has to be that of the change.
    fn check_agrees(&self, number: usize, rest: &[u8], line: &[u8]) -> Outcome<()> {
        let agrees = self.changes.get(number).map_or(false, |change| {
            let mut name = Vec::new();
            push_reported(&mut name, &change.path);
            rest.strip_prefix(&name[..]).map_or(false, |rest| rest.starts_with(b" from "))
        });
        if agrees {
            return Ok(());
        }
        Err(not_agreed(&format!("report and dump of relabel differ: {}", plain(line))))
    }
    fn shown(&self, number: usize) -> Shown<'_> {
        let change = &self.changes[number];
        let from = change.expected.and_then(|expected| expected.label).unwrap_or_default();
        Shown { path: &change.path, from, to: &change.value }
    }
    /// Shows what would change.
    pub fn show(&self, style: Style) {
        let answers: Vec<AtomicU8> = self.changes.iter().map(|_| AtomicU8::new(DONE)).collect();
        Shower::new(style, &self.items, &answers, |number| self.shown(number)).finish();
    }
    /// Sets all labels, and says which.
    pub fn set(self, run: &mut Run) -> Outcome<Vec<Labelled>> {
        let answers: Vec<AtomicU8> = self.changes.iter().map(|_| AtomicU8::new(WAITS)).collect();
        let done = Arc::new(AtomicUsize::new(0));
        run.progress.begin(Phase {
            name: "setting labels",
            unit: "labels",
            done: done.clone(),
            all: Some(self.changes.len()),
            moves: true,
        });
        let shower = Shower::new(run.style, &self.items, &answers, |number| self.shown(number));
        let watch = SetWatch { changes: &self.changes, shower: &shower, done: &done };
        let setting = Setting {
            root: &run.root,
            changes: &self.changes,
            attribute: Attribute::Label,
            threads: run.words.threads,
            most_open: run.most_open,
        };
        let answer = set::set_all(&setting, &watch);
        shower.finish();
        answer.or_else(|error| refuse(format!("/proc is needed: {}", reason(&error))))?;
        let count = |which: u8| {
            answers.iter().filter(|answer| answer.load(Ordering::Relaxed) == which).count()
        };
        run.totals.changed += count(DONE);
        run.totals.unset += count(FAILED);
        run.totals.left += count(WAITS);
        run.totals.unread += self.unread;
        let labels = self.changes.into_iter().zip(self.places).zip(answers);
        let labels = labels.map(|((change, place), answer)| Labelled {
            place,
            label: change.value.into_owned(),
            is_set: answer.into_inner() == DONE,
        });
        Ok(labels.collect())
    }
}

/// Watches how labels are set.
struct SetWatch<'a, 'b, F: Fn(usize) -> Shown<'a> + Sync> {
    changes: &'b [Change<'a>],
    shower: &'b Shower<'a, F>,
    done: &'b AtomicUsize,
}

impl<'a, 'b, F: Fn(usize) -> Shown<'a> + Sync> Watch for SetWatch<'a, 'b, F> {
    fn done(&self, number: usize, answer: Result<(), Unset>) {
        self.done.fetch_add(1, Ordering::Relaxed);
        let answers = self.shower.answers;
        match answer {
            Ok(()) => answers[number].store(DONE, Ordering::Release),
            Err(unset) => {
                answers[number].store(FAILED, Ordering::Release);
                let path = &self.changes[number].path;
                say(&format!("{}: {}", plain(path), unset.text()));
                self.shower.style.tell_unset(path, unset.text());
            }
        }
    }
    fn pause(&self) {
        self.shower.go_on();
    }
}

/// The directories, by their numbers.
fn directories_of(part: &Part) -> HashMap<u32, &Directory> {
    part.listings.iter().map(|it| (it.directory.number, &*it.directory)).collect()
}

/// Notes where something isn't set: above each name of it, and at it.
fn note_unset(part: &Part, labels: &[Labelled]) -> HashSet<Place> {
    let mut unset: HashSet<Place> = HashSet::new();
    for labelled in labels.iter().filter(|labelled| !labelled.is_set) {
        unset.insert(labelled.place);
    }
    if !unset.is_empty() {
        let inodes: HashSet<(u64, u64)> = unset
            .iter()
            .map(|place| part.entry(*place))
            .map(|entry| (entry.device, entry.inode))
            .collect();
        for listing in &part.listings {
            let is_unset = |place: Place| {
                let entry = part.entry(place);
                inodes.contains(&(entry.device, entry.inode))
            };
            if crate::tree::places_of(listing).any(is_unset) {
                listing.directory.note_amiss();
            }
        }
    }
    unset
}

/// The digests of directories at and below which all was read and set.
fn digests_to_set<'a>(
    part: &Part,
    answer: &'a Answer,
    labels: &[Labelled],
    unread: &HashSet<u32>,
) -> Outcome<Vec<Change<'a>>> {
    let unset = note_unset(part, labels);
    let directories = directories_of(part);
    let marks = Marks::of(part);
    let mut changes = Vec::new();
    for (place, section) in sections_of(part, answer)?.placed {
        let digest = match section.digest {
            Some(digest) if !is_void(&digest) => digest,
            _ => continue,
        };
        let entry = part.entry(place);
        let is_amiss = directories.get(&entry.directory).map_or(false, |it| it.is_amiss())
            || unread.contains(&entry.directory)
            || unset.contains(&place);
        if is_amiss {
            continue;
        }
        let expected = Some(Expected {
            device: entry.device,
            inode: entry.inode,
            kind: entry.kind,
            birth: Some(entry.birth),
            label: None,
        });
        let value = Cow::Owned(marks.value(part, place, &digest));
        changes.push(Change { path: section.name, expected, value, others: Vec::new() });
    }
    Ok(changes)
}

/// Sets the digests of directories at and below which all was read and set.
pub fn set_digests(
    run: &mut Run,
    part: &Part,
    answer: &Answer,
    labels: &[Labelled],
    unread: &HashSet<u32>,
) -> Outcome<()> {
    let changes = digests_to_set(part, answer, labels, unread)?;
    let done = Arc::new(AtomicUsize::new(0));
    run.progress.begin(Phase {
        name: "setting digests",
        unit: "digests",
        done: done.clone(),
        all: Some(changes.len()),
        moves: true,
    });
    let unset = AtomicUsize::new(0);
    let watch = DigestWatch { changes: &changes, done: &done, unset: &unset };
    let setting = Setting {
        root: &run.root,
        changes: &changes,
        attribute: Attribute::Digest,
        threads: run.words.threads,
        most_open: run.most_open,
    };
    let answer = set::set_all(&setting, &watch);
    answer.or_else(|error| refuse(format!("/proc is needed: {}", reason(&error))))?;
    run.totals.digests += done.load(Ordering::Relaxed) - unset.load(Ordering::Relaxed);
    run.has_unset_digests |= unset.load(Ordering::Relaxed) > 0;
    Ok(())
}

/// Watches how digests are set.
struct DigestWatch<'a, 'b> {
    changes: &'b [Change<'a>],
    done: &'b AtomicUsize,
    unset: &'b AtomicUsize,
}

impl<'a, 'b> Watch for DigestWatch<'a, 'b> {
    fn done(&self, number: usize, answer: Result<(), Unset>) {
        self.done.fetch_add(1, Ordering::Relaxed);
        if let Err(unset) = answer {
            self.unset.fetch_add(1, Ordering::Relaxed);
            let path = plain(&self.changes[number].path);
            say(&format!("{path}: its digest: {}", unset.text()));
        }
    }
}
