//! The words of relabel-tree.

use crate::say::{plain, refuse, Outcome};
use std::ffi::OsString;
use std::os::unix::ffi::OsStringExt;

pub const USAGE: &str = "\
usage: relabel-tree [-cnqvxFDI] [-j N] [-r ROOT] [-t TYPE | -p SPEC] [-e DIR].. [PATH..]
Sets the SELinux labels that a policy's file_contexts want at and below each PATH (/).
  -n        show what would be set, and set nothing
  -c        the same, with status 1 if that is anything
  -v        show each label that is set
  -q        say only what went wrong, and sum up only then
  -F        set the whole context, and that of customized files too
  -j N      read and set by N threads (1)
  -e DIR    leave out DIR and all below it
  -x        stay on the file systems of the PATHs
  -D        keep digests as attributes, and skip directories whose digest is the same
  -I        skip none, and make all digests anew
  -r ROOT   the tree of another system: PATH and DIR are as seen from within it
  -t TYPE   the policy, by default the SELINUXTYPE of ROOT/etc/selinux/config
  -p SPEC   the policy's file_contexts, as seen from here
  --json    write the counts, and each name that isn't set, as an object of JSON a line
Status: 0 done; 1 something isn't read or set, or with -c would be set; 2 usage, or
something is missing; 129, 130, 143 stopped by a signal; 251 to 255 as relabel(8) says.
But for 0, 1 and signals nothing was set. See relabel-tree(8).
";

/// What a run does.
#[derive(Clone, Copy, PartialEq, Eq, Debug, Default)]
pub enum Mode {
    #[default]
    Set,
    Look,
    Check,
}

/// Whether digests are kept, and whether those that are there count.
#[derive(Clone, Copy, PartialEq, Eq, Debug, Default)]
pub enum Digests {
    #[default]
    None,
    Known,
    Made,
}

#[derive(Debug, PartialEq, Eq)]
pub struct Words {
    pub mode: Mode,
    pub shows: bool,
    pub quiet: bool,
    pub json: bool,
    pub forces: bool,
    pub one_system: bool,
    pub digests: Digests,
    pub threads: usize,
    pub root: Vec<u8>,
    pub policy: Policy,
    pub excluded: Vec<Vec<u8>>,
    pub paths: Vec<Vec<u8>>,
}

/// How the policy is named.
#[derive(Debug, PartialEq, Eq)]
pub enum Policy {
    OfConfig,
    Type(Vec<u8>),
    Spec(Vec<u8>),
}

#[derive(Debug, PartialEq, Eq)]
pub enum Asks {
    Help,
    Version,
    Run(Words),
}

const MOST_THREADS: usize = 99;

/// A number of threads.
pub fn number_up_to(word: &[u8], most: usize) -> Option<usize> {
    let is_number = !word.is_empty() && word[0] != b'0' && word.iter().all(u8::is_ascii_digit);
    let text = std::str::from_utf8(word).ok().filter(|_| is_number)?;
    text.parse().ok().filter(|number| (1..=most).contains(number))
}

/// Options may stand behind paths; `--` ends them.
pub fn read(words: impl Iterator<Item = OsString>) -> Outcome<Asks> {
    let mut read = Words {
        mode: Mode::Set,
        shows: false,
        quiet: false,
        json: false,
        forces: false,
        one_system: false,
        digests: Digests::None,
        threads: 1,
        root: b"/".to_vec(),
        policy: Policy::OfConfig,
        excluded: Vec::new(),
        paths: Vec::new(),
    };
    let mut words = words.map(OsString::into_vec);
    let mut is_option = true;
    while let Some(word) = words.next() {
        match &word[..] {
            b"--" if is_option => is_option = false,
            b"--help" | b"-h" if is_option => return Ok(Asks::Help),
            b"--version" if is_option => return Ok(Asks::Version),
            b"--json" if is_option => read.json = true,
            [b'-', letters @ ..] if is_option && !letters.is_empty() => {
                read_letters(letters, &mut words, &mut read)?;
            }
            _ => read.paths.push(word),
        }
    }
    Ok(Asks::Run(read))
}

fn read_letters(
    letters: &[u8],
    words: &mut impl Iterator<Item = Vec<u8>>,
    read: &mut Words,
) -> Outcome<()> {
    for (at, &letter) in letters.iter().enumerate() {
        match letter {
            b'c' => read.mode = Mode::Check,
            b'n' if read.mode != Mode::Check => read.mode = Mode::Look,
            b'n' => {}
            b'v' => read.shows = true,
            b'q' => read.quiet = true,
            b'x' => read.one_system = true,
            b'F' => read.forces = true,
            b'D' if read.digests == Digests::None => read.digests = Digests::Known,
            b'D' => {}
            b'I' => read.digests = Digests::Made,
            b'j' | b'r' | b't' | b'p' | b'e' => {
                let value = match &letters[at + 1..] {
                    b"" => words.next(),
                    value => Some(value.to_vec()),
                };
                return read_value(letter, value, read);
            }
            _ => {
                let letter = plain(&[letter]);
                return refuse(format!("-{letter}: no such option; --help shows the words"));
            }
        }
    }
    Ok(())
}

fn read_value(letter: u8, value: Option<Vec<u8>>, read: &mut Words) -> Outcome<()> {
    let value = match value {
        Some(value) => value,
        None => {
            let letter = char::from(letter);
            return refuse(format!("-{letter}: a value is missing; --help shows the words"));
        }
    };
    let is_other = |policy: &Policy, letter| {
        matches!((policy, letter), (Policy::Spec(_), b't') | (Policy::Type(_), b'p'))
    };
    if is_other(&read.policy, letter) {
        return refuse("-t and -p both name a policy; give one");
    }
    match letter {
        b'j' => match number_up_to(&value, MOST_THREADS) {
            Some(threads) => read.threads = threads,
            None => {
                let value = plain(&value);
                return refuse(format!("-j {value}: not a number from 1 to {MOST_THREADS}"));
            }
        },
        b'r' => read.root = value,
        b't' => read.policy = Policy::Type(value),
        b'p' => read.policy = Policy::Spec(value),
        _ => read.excluded.push(value),
    }
    Ok(())
}

#[cfg(test)]
mod tests {
    use super::*;

    fn words(text: &str) -> Outcome<Asks> {
        read(text.split_whitespace().map(OsString::from))
    }
    fn run(text: &str) -> Words {
        match words(text) {
            Ok(Asks::Run(words)) => words,
            other => panic!("{text}: {other:?}"),
        }
    }
    #[test]
    fn options_stand_anywhere() {
        let read = run("/etc -nvj4 -e /a /srv -e/b -- -x");
        assert_eq!((read.mode, read.shows, read.threads), (Mode::Look, true, 4));
        assert_eq!(read.paths, [&b"/etc"[..], b"/srv", b"-x"]);
        assert_eq!(read.excluded, [b"/a", b"/b"]);
        assert!(!read.one_system);
    }
    #[test]
    fn a_check_stays_one() {
        assert_eq!(run("-cn").mode, Mode::Check);
        assert_eq!(run("-nc").mode, Mode::Check);
        assert_eq!(run("-ID").digests, Digests::Made);
    }
    #[test]
    fn mistakes_are_told() {
        for (text, told) in [
            ("-y", "-y: no such option"),
            ("--dry", "--: no such option"),
            ("-r", "-r: a value is missing"),
            ("-j 0", "-j 0: not a number from 1"),
            ("-j 100", "-j 100: not a number"),
            ("-j 1x", "-j 1x: not a number"),
            ("-t a -p b", "give one"),
        ] {
            let refusal = words(text).unwrap_err();
            assert!(refusal.text.contains(told), "{text}: {}", refusal.text);
            assert_eq!(refusal.status, 2);
        }
        assert_eq!(words("-v --help").unwrap(), Asks::Help);
    }
}
