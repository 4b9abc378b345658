//! The readers of relabel-tree as one target for libFuzzer: the first byte chooses the reader, the
//! rest is what it reads. A property that doesn't hold panics.

#![allow(dead_code)]

#[path = "../../src/apply.rs"]
mod apply;
#[path = "../../src/decide.rs"]
mod decide;
#[path = "../../src/digest.rs"]
mod digest;
#[path = "../../src/dump.rs"]
mod dump;
#[path = "../../src/json.rs"]
mod json;
#[path = "../../src/links.rs"]
mod links;
#[path = "../../src/lock.rs"]
mod lock;
#[path = "../../src/mounts.rs"]
mod mounts;
#[path = "../../src/part.rs"]
mod part;
#[path = "../../src/paths.rs"]
mod paths;
#[path = "../../src/policy.rs"]
mod policy;
#[path = "../../src/progress.rs"]
mod progress;
#[path = "../../src/records.rs"]
mod records;
#[path = "../../src/report.rs"]
mod report;
#[path = "../../src/run.rs"]
mod run;
#[path = "../../src/say.rs"]
mod say;
#[path = "../../src/scan.rs"]
mod scan;
#[path = "../../src/set.rs"]
mod set;
#[path = "../../src/sha256.rs"]
mod sha256;
#[path = "../../src/show.rs"]
mod show;
#[path = "../../src/sys/mod.rs"]
mod sys;
#[path = "../../src/tree.rs"]
mod tree;
#[path = "../../src/words.rs"]
mod words;

mod in_folders;
mod in_texts;
mod in_trees;
mod json_check;

// What the readers take from main.rs.
fn print(_: &str) -> u8 {
    0
}
fn print_usage(_: &str) -> u8 {
    0
}
fn print_version() -> u8 {
    0
}

/// The readers, by the byte that chooses them: a letter, so that seeds can be read.
fn read(choice: u8, input: &[u8]) {
    match choice {
        b'a' => in_trees::answer(input),
        b'c' => in_texts::config(input),
        b'd' => in_texts::dump(input),
        b'e' => in_texts::exclusions(input),
        b'f' => in_folders::path(input),
        b'g' => in_trees::digests(input),
        b'j' => in_texts::json(input),
        b'k' => in_folders::kernel_names(input),
        b'l' => in_trees::links(input),
        b'm' => in_folders::mounts(input),
        b'n' => in_texts::name(input),
        b'o' => in_folders::plain_paths(input),
        b'p' => in_texts::report(input),
        b'r' => in_texts::records(input, false),
        b's' => in_texts::records(input, true),
        b'w' => in_texts::words(input),
        _ => {}
    }
}

/// # Safety
/// There are `length` bytes at `bytes`, or the length is 0.
#[no_mangle]
// SAFETY: only libFuzzer calls it, with the bytes and their length.
pub unsafe extern "C" fn LLVMFuzzerTestOneInput(bytes: *const u8, length: usize) -> i32 {
    if length > 0 {
        // SAFETY: libFuzzer gives so many bytes, and leaves them while this runs.
        let input = unsafe { std::slice::from_raw_parts(bytes, length) };
        read(input[0], &input[1..]);
    }
    0
}
