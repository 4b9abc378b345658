//! A run of relabel-tree: reads, has relabel decide, sets, part after part.

use crate::decide::{Answer, Decider, Running};
use crate::digest;
use crate::json::{self, Value};
use crate::links::{Groups, Links};
use crate::lock::Lock;
use crate::mounts::{self, Asked, Cause, LeftOut, Special};
use crate::part::Decided;
use crate::paths::{without_nested, Root};
use crate::policy;
use crate::progress::{Phase, Progress};
use crate::records::{self, Outlet};
use crate::say::{is_all_written, plain, refusal, refuse, say, Outcome, Refusal};
use crate::scan::{Scan, Settings};
use crate::show::Style;
use crate::sys::files;
use crate::sys::process::{is_root, raise_descriptors, set_up_signals, stopping};
use crate::sys::reason;
use crate::tree::{places_of, Part, Shelf};
use crate::words::{Digests, Mode, Words};
use std::fs::File;
use std::io;
use std::os::unix::io::{OwnedFd, RawFd};
use std::sync::atomic::Ordering;
use std::time::Instant;

/// A part has at least so many entries, where the tree has as many; relabel takes 2,097,152.
const PART: usize = 1_900_000;

/// What a run counts.
#[derive(Default)]
pub struct Totals {
    pub records: usize,
    pub changed: usize,
    pub unset: usize,
    /// What was to be set when a signal came.
    pub left: usize,
    pub kept: usize,
    pub undecided: usize,
    /// Names of an inode beyond the first.
    pub further: usize,
    pub skipped: usize,
    pub conflicts: usize,
    /// Names of relabelled files that weren't read.
    pub unread: usize,
    pub digests: usize,
    /// Records that aren't decided yet.
    pub waiting: usize,
}

impl Totals {
    /// What neither changed nor was told otherwise.
    fn right(&self) -> usize {
        let told = self.changed + self.unset + self.kept + self.undecided + self.further;
        self.records.saturating_sub(told + self.left + self.waiting)
    }
}

pub struct Run {
    pub words: Words,
    pub style: Style,
    pub totals: Totals,
    pub progress: Progress,
    pub most_open: usize,
    pub root: OwnedFd,
    scan: Scan,
    decider: Decider,
    links: Links,
    lock: Option<Lock>,
    paths: Vec<Vec<u8>>,
    is_partial: bool,
    pub has_unset_digests: bool,
    began: Instant,
}

/// Runs with these words, and gives the status.
pub fn run(words: Words) -> Outcome<u8> {
    let mut run = match Run::prepare(words)? {
        Some(run) => run,
        None => return Ok(stopped_status()),
    };
    let answer = run.run_parts();
    run.progress.end();
    if stopping().is_some() {
        return Ok(run.tell_stopped());
    }
    answer?;
    run.tell_end();
    Ok(run.status())
}

fn stopped_status() -> u8 {
    128u8.saturating_add(u8::try_from(stopping().unwrap_or_default()).unwrap_or_default())
}

/// What keeps a run from its first step.
fn cannot(what: &str) -> impl Fn(io::Error) -> Refusal + '_ {
    move |error| refusal(format!("{what}: {}", reason(&error)))
}

impl Run {
    fn prepare(words: Words) -> Outcome<Option<Run>> {
        let began = Instant::now();
        let wakes = set_up_signals().map_err(cannot("signals"))?;
        let folders = raise_descriptors();
        let root = Root::of(&words.root)?;
        let mut decider = decider_for(&words, &root, wakes)?;
        if words.mode == Mode::Set && !is_root() {
            return refuse("only root can set labels; -n shows what would be set");
        }
        let (paths, left_out, is_partial) = paths_of(&words, &root)?;
        let opened = root.open().map_err(cannot(&plain(&words.root)))?;
        let lock = if words.mode == Mode::Set { lock_for(&opened)? } else { None };
        if words.mode == Mode::Set && lock.is_none() {
            return Ok(None);
        }
        let threads = threads_for(words.threads);
        decider.workers = workers_for(&opened, threads);
        let most_open = (folders / threads).clamp(4, 4096);
        let scan = scan_of(&opened, &left_out, decider.keeps, threads, most_open)
            .map_err(cannot("the root"))?;
        Ok(Some(Run {
            style: Style::of(&words),
            totals: Totals::default(),
            progress: Progress::new(words.quiet),
            most_open,
            root: opened.into(),
            scan,
            decider,
            links: Links::default(),
            lock,
            paths,
            is_partial,
            has_unset_digests: false,
            words: Words { threads, ..words },
            began,
        }))
    }

    fn run_parts(&mut self) -> Outcome<()> {
        self.tell_resumed();
        let mut is_first = true;
        loop {
            let running = self.start_part(is_first)?;
            let shelf = self.begin_part(is_first);
            let mut part = Part::new(self.scan.read_part(shelf));
            self.totals.records += part.count();
            self.totals.waiting += part.count();
            if stopping().is_some() {
                if let Some(running) = running {
                    running.end();
                }
                return Ok(());
            }
            let has_more = self.scan.has_more();
            self.scan.note_cut();
            let groups = self.links.groups_of(&mut part, has_more);
            self.decide(part, &groups, running)?;
            if stopping().is_some() || !has_more {
                break;
            }
            is_first = false;
        }
        while let Some(mut part) = self.links.next_part(part_size()) {
            let groups = self.links.groups_of(&mut part, false);
            self.decide(part, &groups, None)?;
            if stopping().is_some() {
                break;
            }
        }
        if let Some(lock) = self.lock.as_mut().filter(|_| stopping().is_none()) {
            lock.note_done();
        }
        Ok(())
    }
    /// Without digests relabel reads the records while the tree is read.
    fn start_part(&self, is_first: bool) -> Outcome<Option<Running>> {
        if self.decider.keeps {
            return Ok(None);
        }
        let (running, mut outlet) = self.decider.start(None)?;
        if !is_first || self.paths != [b"/"] {
            // Where relabel is gone, the next records can't be sent either.
            let _ = outlet.send(&mut self.scan.stand_in());
        }
        self.scan.send_to(outlet);
        Ok(Some(running))
    }
    fn begin_part(&mut self, is_first: bool) -> Shelf {
        self.progress.begin(Phase {
            name: "reading the tree",
            unit: "records",
            done: self.scan.count.clone(),
            all: None,
            moves: true,
        });
        if is_first {
            return self.scan.begin(&self.paths);
        }
        self.scan.begin_part();
        Shelf::default()
    }
    /// Has a part decided, and sets it.
    fn decide(&mut self, mut part: Part, groups: &Groups, running: Option<Running>) -> Outcome<()> {
        self.progress.begin(Phase {
            name: "deciding",
            unit: "records",
            done: self.scan.count.clone(),
            all: None,
            moves: false,
        });
        let (running, sent) = match running {
            Some(running) => {
                let mut sent = Ok(());
                if let Some(outlet) = self.scan.take_outlet() {
                    sent = send_linked(&part, groups, outlet);
                }
                (running, sent)
            }
            None => self.start_with_all(&part, groups)?,
        };
        let is_lost = sent.is_err() || self.scan.is_lost();
        let answer = match running.finish()? {
            Some(answer) if answer.tells_two() => return self.decide_without_twice(part, groups),
            Some(answer) => answer,
            None => return Ok(()),
        };
        answer.check(self.totals.changed > 0)?;
        if is_lost {
            return refuse("relabel ended before it had read all; nothing was set");
        }
        self.apply(&mut part, groups, &answer)
    }
    fn start_with_all(
        &mut self,
        part: &Part,
        groups: &Groups,
    ) -> Outcome<(Running, io::Result<()>)> {
        let known = (self.words.digests == Digests::Known).then(|| digest::known(part));
        let (running, mut outlet) = self.decider.start(known.as_deref())?;
        if !part.has_root() {
            let _ = outlet.send(&mut self.scan.stand_in());
        }
        let sent = send_all(part, groups, outlet, self.decider.keeps);
        Ok((running, sent))
    }
    /// Decides once more, with one entry of each name that came twice while its directory changed.
    fn decide_without_twice(&mut self, mut part: Part, groups: &Groups) -> Outcome<()> {
        let twice = part.take_twice();
        if twice.is_empty() {
            return refuse("relabel refuses the records: one path, two entries; nothing was set");
        }
        for (directory, name) in twice {
            directory.note_amiss();
            self.scan.errors.fetch_add(1, Ordering::Relaxed);
            self.totals.records -= 1;
            let path = plain(&digest::path_of(&directory, &name));
            say(&format!("{path}: changed while it was read"));
        }
        self.decide(part, groups, None)
    }
    fn apply(&mut self, part: &mut Part, groups: &Groups, answer: &Answer) -> Outcome<()> {
        let decided = Decided::of(part, groups, answer, &self.words)?;
        self.totals.kept += decided.kept;
        self.totals.undecided += decided.undecided;
        self.totals.skipped += decided.skipped;
        self.totals.conflicts += decided.conflicts;
        self.totals.further += decided.further;
        self.totals.waiting = self.links.count();
        if self.words.mode != Mode::Set {
            decided.show(self.style);
            self.totals.changed += decided.changes.len();
            return Ok(());
        }
        if !decided.changes.is_empty() {
            if let Some(lock) = &mut self.lock {
                lock.note_begun();
            }
        }
        let labels = decided.set(self)?;
        if self.decider.keeps && stopping().is_none() {
            self.set_digests(part, groups, answer, &labels)?;
        }
        Ok(())
    }
    fn set_digests(
        &mut self,
        part: &mut Part,
        groups: &Groups,
        answer: &Answer,
        labels: &[crate::part::Labelled],
    ) -> Outcome<()> {
        for labelled in labels.iter().filter(|labelled| labelled.is_set) {
            let names = groups.names_of(part.entry(labelled.place));
            for place in names.map(|linked| linked.place).chain([labelled.place]) {
                part.set_label(place, &labelled.label);
            }
        }
        let unread = self.scan.unread();
        crate::part::set_digests(self, part, answer, labels, &unread)
    }

    fn tell_resumed(&mut self) {
        if let Some(lock) = &mut self.lock {
            if lock.was_stopped() && !self.words.quiet {
                say("the last run here was stopped in its middle; this one does the rest");
            }
        }
    }
    fn tell_stopped(&self) -> u8 {
        let (set, left) = (self.totals.changed, self.totals.left);
        say(&format!(
            "stopped; what was set stays ({set} labels, {left} more were to be set), and a \
             further run does the rest"
        ));
        self.tell_json("stopped");
        stopped_status()
    }
    fn status(&self) -> u8 {
        let totals = &self.totals;
        let is_amiss = self.is_partial
            || self.has_unset_digests
            || self.scan.errors.load(Ordering::Relaxed) > 0
            || totals.unset > 0
            || self.words.mode == Mode::Check && totals.changed > 0
            || !is_all_written();
        u8::from(is_amiss)
    }
    fn tell_end(&self) {
        let totals = &self.totals;
        if totals.unread > 0 {
            say(&format!(
                "{} names of files that were relabelled weren't read; they have the new label too",
                totals.unread
            ));
        }
        self.tell_json("done");
        if self.words.quiet && self.status() == 0 {
            return;
        }
        let what = match (self.words.mode, totals.unset) {
            (Mode::Set, 0) => "changed".to_string(),
            (Mode::Set, unset) => format!("changed, {unset} not set"),
            _ => "would change".to_string(),
        };
        let seconds = self.began.elapsed().as_secs_f64();
        say(&format!(
            "{} records, {} {what}, {} right, {} kept as customized, {} without a specification, \
             {} more names, {} skipped, {} conflicts, {seconds:.1} seconds",
            totals.records,
            totals.changed,
            totals.right(),
            totals.kept,
            totals.undecided,
            totals.further,
            totals.skipped,
            totals.conflicts,
        ));
        if !is_all_written() {
            say("not all that was told could be written");
        }
    }
    fn tell_json(&self, end: &str) {
        if !self.style.json {
            return;
        }
        let totals = &self.totals;
        let number = |number: usize| Value::Number(number as u64);
        let fields = [
            ("end", Value::Text(end)),
            ("records", number(totals.records)),
            ("changed", number(totals.changed)),
            ("not set", number(totals.unset + totals.left)),
            ("right", number(totals.right())),
            ("kept", number(totals.kept)),
            ("without a specification", number(totals.undecided)),
            ("more names", number(totals.further)),
            ("skipped", number(totals.skipped)),
            ("conflicts", number(totals.conflicts)),
            ("not read", number(self.scan.errors.load(Ordering::Relaxed))),
            ("digests", number(totals.digests)),
            ("seconds", Value::Seconds(self.began.elapsed().as_secs_f64())),
        ];
        self.style.write(json::line(&fields).as_bytes());
    }
}

/// How relabel is asked, by one worker.
fn decider_for(words: &Words, root: &Root, wakes: RawFd) -> Outcome<Decider> {
    let program = policy::find_program()?;
    let files = policy::find(&words.policy, root)?;
    let has_types = std::fs::metadata(crate::paths::as_path(&files.types)).is_ok();
    if !words.forces && !has_types && !words.quiet {
        let types = plain(&files.types);
        say(&format!("{types}: not there, so no file counts as customized"));
    }
    Ok(Decider {
        program,
        spec: files.spec,
        types: files.types,
        forces: words.forces,
        keeps: words.digests != Digests::None,
        workers: 1,
        wakes,
    })
}

/// The lock of a root; none where a signal asks to stop.
fn lock_for(root: &File) -> Outcome<Option<Lock>> {
    Lock::take(&files::status_of(root).map_err(cannot("statx"))?)
}

fn scan_of(
    root: &File,
    left_out: &LeftOut,
    keeps: bool,
    threads: usize,
    most_open: usize,
) -> io::Result<Scan> {
    let special = Special::tree(left_out);
    let most_open = most_open * threads;
    let settings = Settings { special, keeps, threads, most_open, most: part_size() };
    Scan::new(root.try_clone()?.into(), settings)
}

/// As many threads as are asked for, or one where they can't have working folders of their own.
fn threads_for(asked: usize) -> usize {
    match asked {
        1 => 1,
        several if crate::sys::process::has_own_folders() => several,
        _ => 1,
    }
}

/// Several workers of relabel are slower than one on trees of fewer entries.
const FEWEST_FOR_WORKERS: u64 = 100_000;

/// How many workers relabel gets. How many entries there are isn't known when it starts, so the
/// inodes in use on the root's file system stand for them.
fn workers_for(root: &File, threads: usize) -> usize {
    match files::inodes_in_use(root) {
        Some(count) if count >= FEWEST_FOR_WORKERS => threads,
        _ => 1,
    }
}

/// So many entries a part, or what RELABEL_PART says, where a small part is wanted.
fn part_size() -> usize {
    let named = std::env::var("RELABEL_PART").ok().and_then(|text| text.parse().ok());
    named.unwrap_or(PART).clamp(1, PART)
}

/// What is left out by words and by the list of fixfiles.
fn excluded(words: &Words, root: &Root, paths: &[Vec<u8>]) -> Outcome<LeftOut> {
    let mut left_out = LeftOut::new();
    for word in &words.excluded {
        left_out.push((root.excluded(word)?, Cause::Word));
    }
    for listed in policy::listed_exclusions(root) {
        let listed = root.excluded(&listed).unwrap_or(listed);
        let is_below = |path: &Vec<u8>| *path != listed && mounts::is_at_or_below(&listed, path);
        if paths.iter().any(is_below) {
            left_out.push((listed, Cause::Listed));
        }
    }
    Ok(left_out)
}

/// The paths that are read, what is left out, and whether a path is left out itself.
fn paths_of(words: &Words, root: &Root) -> Outcome<(Vec<Vec<u8>>, LeftOut, bool)> {
    let mut paths = Vec::new();
    for word in &words.paths {
        paths.push(root.path_of(word)?);
    }
    if paths.is_empty() {
        paths.push(b"/".to_vec());
    }
    let mut left_out = excluded(words, root, &paths)?;
    let table = std::fs::read("/proc/self/mountinfo").map_err(cannot("/proc/self/mountinfo"))?;
    let asked = Asked {
        at: &root.at,
        paths: &paths,
        one_system: words.one_system,
        sets: words.mode == Mode::Set,
    };
    left_out.extend(mounts::left_out_by(&mounts::parse(&table), &asked));
    tell_left_out(words, &left_out);
    let special = Special::tree(&left_out);
    let mut is_partial = false;
    let mut read = Vec::new();
    for path in paths {
        match special.cause_at(&path) {
            None => read.push(path),
            Some(cause) => {
                is_partial |= !matches!(cause, Cause::Second(_));
                say(&format!("{}: not read: {}", plain(&path), cause.text()));
            }
        }
    }
    Ok((without_nested(read), left_out, is_partial))
}

fn tell_left_out(words: &Words, left_out: &LeftOut) {
    for (path, cause) in left_out {
        let is_told = matches!(cause, Cause::Listed | Cause::ReadOnly | Cause::Second(_));
        if is_told && !words.quiet {
            say(&format!("{}: left out: {}", plain(path), cause.text()));
        }
    }
}

fn push(to: &mut Vec<u8>, part: &Part, place: crate::tree::Place, links: bool, above: &[u8]) {
    let entry = part.entry(place);
    records::push(to, entry, links, part.label(place), above, part.name(place));
}

/// Sends the records of inodes with several names, which were held back until all are known.
fn send_linked(part: &Part, groups: &Groups, mut outlet: Outlet) -> io::Result<()> {
    let (mut text, mut above) = (Vec::new(), Vec::new());
    for linked in groups.all() {
        linked.directory.write_path(&mut above);
        push(&mut text, part, linked.place, false, &above);
        if text.len() >= records::AT_ONCE {
            outlet.send(&mut text)?;
        }
    }
    outlet.send(&mut text)?;
    outlet.finish()
}

/// Sends all records but those of inodes that are decided later.
fn send_all(part: &Part, groups: &Groups, mut outlet: Outlet, links: bool) -> io::Result<()> {
    let (mut text, mut above) = (Vec::new(), Vec::new());
    for listing in &part.listings {
        listing.directory.write_path(&mut above);
        for place in places_of(listing).filter(|place| !groups.is_later(*place)) {
            push(&mut text, part, place, links, &above);
        }
        if text.len() >= records::AT_ONCE {
            outlet.send(&mut text)?;
        }
    }
    outlet.send(&mut text)?;
    outlet.finish()
}

#[cfg(test)]
mod tests {
    use super::*;

    #[test]
    fn what_is_neither_decided_nor_set_is_not_right() {
        let totals = Totals { records: 10, changed: 3, left: 4, waiting: 2, ..Totals::default() };
        assert_eq!(totals.right(), 1);
    }
}
