//! Texts: what is read and written again is the same.

use crate::dump::{parse, push_digest, unescaped, BadLine};
use crate::json::{line, Value};
use crate::json_check::{members, Member};
use crate::mounts::{names, Cause, Special};
use crate::records::{is_plain, push};
use crate::report::{lines, parse_line, Line};
use crate::say::{plain, push_reported};
use crate::sys::files::Status;
use crate::tree::{Shelf, LONGEST_PATH, NO_LABEL};
use std::ffi::OsString;
use std::os::unix::ffi::OsStringExt;

/// Where the piece with this number, from 1, begins.
fn start_of(text: &[u8], end: u8, number: usize) -> usize {
    let ends = text.iter().enumerate().filter(|(_, byte)| **byte == end);
    match number.checked_sub(2) {
        Some(before) => ends.map(|(at, _)| at + 1).nth(before).expect("no such piece"),
        None => 0,
    }
}

pub fn dump(text: &[u8]) {
    let sections = match parse(text) {
        Ok(sections) => sections,
        Err(BadLine(number)) => {
            let start = start_of(text, b'\n', number);
            assert!(start < text.len(), "a line that isn't there is refused");
            assert!(parse(&text[..start]).is_ok(), "a later line than the first is refused");
            return;
        }
    };
    let mut written = Vec::new();
    for section in &sections {
        assert!(section.name.starts_with(b"/") && !section.name.contains(&0));
        for value in [&section.label, &section.digest].into_iter().flatten() {
            push_digest(&mut written, &section.name, value);
        }
    }
    let again = parse(&written).expect("what is written isn't read");
    let mut twice = Vec::new();
    for section in &again {
        push_digest(&mut twice, &section.name, section.digest.as_ref().expect("no digest"));
    }
    assert_eq!(written, twice);
    let values = sections.iter().flat_map(|it| {
        let values = [&it.label, &it.digest].into_iter().flatten();
        values.map(move |value| (&it.name, value))
    });
    assert!(values.eq(again.iter().map(|it| (&it.name, it.digest.as_ref().expect("no digest")))));
}

pub fn report(text: &[u8]) {
    let mut written = Vec::new();
    for line in lines(text) {
        let line = match line {
            Some(line) => line,
            None => {
                assert_ne!(text.last(), Some(&b'\n'));
                return assert!(text.starts_with(&written));
            }
        };
        let again = match parse_line(line) {
            Some(Line::Changed(rest)) => [b"Relabeled ", rest].concat(),
            Some(Line::Undecided(name)) => [b"Warning no default label for ", name].concat(),
            Some(Line::Skipped(name)) => {
                [b"Skipping restorecon on directory(", name, b")"].concat()
            }
            Some(Line::Kept(whole)) => {
                assert!(whole.starts_with(b"/"));
                whole.to_vec()
            }
            Some(Line::Conflict) | None => line.to_vec(),
        };
        assert_eq!(again, line);
        written.extend_from_slice(line);
        written.push(b'\n');
    }
    assert_eq!(written, text);
}

pub fn records(text: &[u8], links: bool) {
    let all = match crate::apply::parse_records(text, links) {
        Ok(all) => all,
        Err(number) => {
            let start = start_of(text, 0, number);
            assert!(start < text.len(), "a record that isn't there is refused");
            let before = crate::apply::parse_records(&text[..start], links);
            return assert_eq!(before.map(|it| it.len()), Ok(number - 1));
        }
    };
    let mut written = Vec::new();
    let mut kept = Vec::new();
    for record in &all {
        let end = record.path.iter().rposition(|&byte| byte == b'/').expect("no slash");
        let (above, name) = (&record.path[..end], &record.path[end + 1..]);
        if record.path.len() > LONGEST_PATH || name.len() > 255 {
            continue;
        }
        let status = Status { device: record.device, inode: record.inode, ..Status::default() };
        let entry = Shelf::default().add(name, &status, record.kind, NO_LABEL);
        push(&mut written, &entry, links, record.label, above, name);
        kept.push(record);
    }
    let again = crate::apply::parse_records(&written, links).expect("what is written isn't read");
    assert_eq!(again.len(), kept.len());
    for (one, other) in kept.into_iter().zip(&again) {
        let label = if is_plain(one.label) { one.label } else { b"" };
        assert_eq!((one.kind, one.device, one.inode), (other.kind, other.device, other.inode));
        assert_eq!((&one.path, label), (&other.path, other.label));
        assert!(!names(&one.path).any(|name| matches!(name, b"." | b"..")));
    }
}

pub fn json(input: &[u8]) {
    let (name, text) = input.split_at(input.len() / 2);
    let number = input.iter().fold(0u64, |sum, &byte| sum.wrapping_mul(257) ^ u64::from(byte));
    let text = String::from_utf8_lossy(text);
    let seconds = number as f64 / 1000.0;
    let fields = [
        ("name", Value::Name(name)),
        ("text", Value::Text(&text)),
        ("number", Value::Number(number)),
        ("seconds", Value::Seconds(seconds)),
    ];
    let members = members(&line(&fields)).expect("no object of JSON");
    let keys: Vec<&str> = members.iter().map(|(key, _)| &key[..]).collect();
    assert_eq!(keys, ["name", "text", "number", "seconds"]);
    match &members[0].1 {
        Member::Text(read) => assert_eq!(unescaped(read.as_bytes()).as_deref(), Some(name)),
        Member::Number(_) => panic!("a name is a number"),
    }
    assert_eq!(members[1].1, Member::Text(text.into_owned()));
    assert_eq!(members[2].1, Member::Number(number as f64));
}

/// A name in a message, and in a report.
pub fn name(input: &[u8]) {
    let told = plain(input);
    assert!(told.bytes().all(|byte| (32..127).contains(&byte)));
    assert_eq!(unescaped(told.as_bytes()).as_deref(), Some(input));
    let mut reported = Vec::new();
    push_reported(&mut reported, input);
    assert!(!reported.iter().any(|&byte| byte < 32 || byte == 127));
    assert_eq!(unescaped(&reported).as_deref(), Some(input));
}

pub fn config(text: &[u8]) {
    if let Some(name) = crate::policy::type_in(text) {
        assert!(!name.is_empty());
        assert!(!name.iter().any(|byte| matches!(byte, b' ' | b'\t' | b'#' | b'\n')));
        let again = [b"SELINUXTYPE=", &name[..]].concat();
        assert_eq!(crate::policy::type_in(&again), Some(name));
    }
}

/// The file fixfiles_exclude_dirs; its last line is a path that lies in what it names, or doesn't.
pub fn exclusions(text: &[u8]) {
    let listed = crate::policy::listed_in(text);
    let mut again = Vec::new();
    for path in &listed {
        assert!(path.starts_with(b"/") && !path.iter().any(u8::is_ascii_whitespace));
        again.extend_from_slice(path);
        again.push(b'\n');
    }
    assert_eq!(crate::policy::listed_in(&again), listed);
    let left_out = listed.iter().map(|path| (path.clone(), Cause::Listed)).collect();
    let special = Special::tree(&left_out);
    let is_short = |path: &&Vec<u8>| path.len() <= LONGEST_PATH;
    assert!(listed.iter().filter(is_short).all(|path| special.cause_at(path).is_some()));
    let path = text.rsplit(|&byte| byte == b'\n').next().unwrap_or_default();
    let lies_in = |above: &Vec<u8>| {
        let mut steps = names(path);
        names(above).all(|name| steps.next() == Some(name))
    };
    let is_left_out = listed.iter().filter(is_short).any(lies_in);
    assert_eq!(special.cause_at(path).is_some(), is_left_out);
}

pub fn words(input: &[u8]) {
    let words = input.split(|&byte| byte == 0).map(|word| OsString::from_vec(word.to_vec()));
    match crate::words::read(words) {
        Ok(crate::words::Asks::Run(read)) => assert!((1..=99).contains(&read.threads)),
        Ok(_) => {}
        Err(refusal) => assert_eq!(refusal.status, crate::say::USAGE),
    }
}
