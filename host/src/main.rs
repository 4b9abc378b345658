//! relabel-tree: reads a tree, has relabel decide, and sets the labels. Called as relabel-apply it
//! sets a dump.

#![deny(unsafe_code)]

mod apply;
mod decide;
mod digest;
mod dump;
mod json;
mod links;
mod lock;
mod mounts;
mod part;
mod paths;
mod policy;
mod progress;
mod records;
mod report;
mod run;
mod say;
mod scan;
mod set;
mod sha256;
mod show;
#[allow(unsafe_code)]
mod sys;
mod tree;
mod words;

use crate::say::{be_apply, name, note_unwritten, say, Outcome};
use crate::words::Asks;
use std::ffi::OsString;
use std::io::{stdout, Write};
use std::path::Path;
use std::process::ExitCode;

const VERSION: &str = include_str!("../../VERSION");

fn print(text: &str) -> u8 {
    let mut out = stdout().lock();
    match out.write_all(text.as_bytes()).and_then(|()| out.flush()) {
        Ok(()) => 0,
        Err(_) => {
            note_unwritten();
            1
        }
    }
}

/// The line of `--version`.
pub fn print_version() -> u8 {
    print(&format!("{} {}\n", name(), VERSION.trim_end()))
}

/// The usage, where it is asked for.
pub fn print_usage(usage: &str) -> u8 {
    print(usage)
}

fn tree(words: impl Iterator<Item = OsString>) -> Outcome<u8> {
    match words::read(words)? {
        Asks::Help => Ok(print_usage(words::USAGE)),
        Asks::Version => Ok(print_version()),
        Asks::Run(words) => run::run(words),
    }
}

fn main() -> ExitCode {
    let mut words = std::env::args_os();
    let own = words.next().unwrap_or_default();
    let is_apply = Path::new(&own).file_name().map_or(false, |name| name == "relabel-apply");
    let answer = if is_apply {
        be_apply();
        apply::apply(words)
    } else {
        tree(words)
    };
    let status = answer.unwrap_or_else(|refusal| {
        say(&refusal.text);
        refusal.status
    });
    ExitCode::from(status)
}
