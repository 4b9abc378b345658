//! Finds the policy and relabel itself, and looks that each file is one that can be read.

use crate::paths::{as_path, Root};
use crate::say::{plain, refuse, Outcome};
use crate::sys::files::open_regular;
use crate::sys::{c_name, reason};
use crate::words::Policy;
use std::io::{self, Read};
use std::os::unix::ffi::{OsStrExt, OsStringExt};
use std::os::unix::fs::PermissionsExt;
use std::path::PathBuf;

/// The files of a policy.
pub struct Files {
    pub spec: Vec<u8>,
    pub types: Vec<u8>,
}

/// The files that relabel reads beside the base file.
const BESIDE: [&[u8]; 4] = [b".homedirs", b".local", b".subs", b".subs_dist"];
/// A file of settings has no more bytes.
const MOST_SETTINGS: u64 = 1 << 20;

pub fn find(policy: &Policy, root: &Root) -> Outcome<Files> {
    let spec = match policy {
        Policy::Spec(spec) if spec.first() == Some(&b'/') => spec.clone(),
        Policy::Spec(spec) => {
            let here = std::env::current_dir().map(|path| path.into_os_string().into_vec());
            [&here.unwrap_or_default()[..], b"/", spec].concat()
        }
        Policy::Type(name) => spec_of(name, root)?,
        Policy::OfConfig => spec_of(&type_of_config(root)?, root)?,
    };
    let told = plain(&spec);
    if spec.ends_with(b".bin") {
        return refuse(format!("{told}: compiled; name the text, file_contexts"));
    }
    match std::fs::metadata(as_path(&spec)) {
        Ok(found) if found.is_dir() => {
            return refuse(format!("{told}: a folder; name the file file_contexts in it"));
        }
        Ok(_) => {}
        Err(_) => return refuse(format!("{told}: not found; name the policy by -t or -p")),
    }
    let types = types_of(&spec);
    let beside = BESIDE.iter().map(|name| [&spec[..], name].concat());
    for file in beside.chain([types.clone()]) {
        if std::fs::metadata(as_path(&file)).is_ok() {
            check(&file)?;
        }
    }
    check(&spec)?;
    Ok(Files { spec, types })
}

/// Refuses what isn't a regular file, as a pipe, for which relabel would wait.
fn check(file: &[u8]) -> Outcome<()> {
    match c_name(file).and_then(|name| open_regular(&name)) {
        Ok(_) => Ok(()),
        Err(error) => refuse(format!("{}: can't be read: {}", plain(file), reason(&error))),
    }
}

fn spec_of(name: &[u8], root: &Root) -> Outcome<Vec<u8>> {
    if name.is_empty() || name[0] == b'.' || name.contains(&b'/') {
        let name = plain(name);
        return refuse(format!("-t {name}: not a folder of etc/selinux; -p names a file"));
    }
    let above = &b"/etc/selinux/"[..];
    Ok([&root.at[..], above, name, b"/contexts/files/file_contexts"].concat())
}

fn types_of(spec: &[u8]) -> Vec<u8> {
    let end = spec.iter().rposition(|&byte| byte == b'/').unwrap_or(0);
    let folder = &spec[..end];
    let is_of_policy = folder.ends_with(b"/contexts/files");
    let folder = if is_of_policy { &folder[..end - b"/files".len()] } else { folder };
    [folder, b"/customizable_types"].concat()
}

/// The text of a small file, without waiting for a pipe.
pub fn text_of(file: &[u8]) -> io::Result<Vec<u8>> {
    let mut text = Vec::new();
    let opened = open_regular(&c_name(file)?)?;
    opened.take(MOST_SETTINGS).read_to_end(&mut text)?;
    Ok(text)
}

fn type_of_config(root: &Root) -> Outcome<Vec<u8>> {
    let config = [&root.at[..], b"/etc/selinux/config"].concat();
    match text_of(&config).ok().and_then(|text| type_in(&text)) {
        Some(name) => Ok(name),
        None => {
            let config = plain(&config);
            refuse(format!("no SELINUXTYPE in {config}; name the policy by -t TYPE or -p SPEC"))
        }
    }
}

/// The last SELINUXTYPE of a file of settings.
pub fn type_in(text: &[u8]) -> Option<Vec<u8>> {
    let is_blank = |byte: &u8| matches!(byte, b' ' | b'\t');
    let trim = |text: &'_ [u8]| text.iter().take_while(|byte| is_blank(byte)).count();
    let of_line = |line: &[u8]| {
        let value = line[trim(line)..].strip_prefix(b"SELINUXTYPE=")?;
        let value = &value[trim(value)..];
        let end = value.iter().position(|byte| is_blank(byte) || *byte == b'#');
        Some(value[..end.unwrap_or(value.len())].to_vec())
    };
    text.split(|&byte| byte == b'\n')
        .filter_map(of_line)
        .next_back()
        .filter(|name| !name.is_empty())
}

/// The folders of etc/selinux/fixfiles_exclude_dirs: its lines that begin with a slash.
pub fn listed_exclusions(root: &Root) -> Vec<Vec<u8>> {
    let file = [&root.at[..], b"/etc/selinux/fixfiles_exclude_dirs"].concat();
    listed_in(&text_of(&file).unwrap_or_default())
}

pub fn listed_in(text: &[u8]) -> Vec<Vec<u8>> {
    let lines = text.split(|&byte| byte == b'\n');
    let first = |line: &'_ [u8]| {
        let fields = line.split(u8::is_ascii_whitespace);
        fields.map(<[u8]>::to_vec).find(|field| !field.is_empty())
    };
    let fields = lines.filter_map(first);
    fields.filter(|field| field[0] == b'/').collect()
}

/// The program relabel, by an absolute path.
pub fn find_program() -> Outcome<PathBuf> {
    let own = std::env::current_exe().unwrap_or_default();
    let named = std::env::var_os("RELABEL").filter(|name| !name.as_bytes().is_empty());
    let beside = [
        "../lib/relabel/relabel",
        "../crates/relabel_program/out/relabel_program",
        "../../../crates/relabel_program/out/relabel_program",
    ];
    let folder = own.parent().map(PathBuf::from).unwrap_or_default();
    let places = named.map(PathBuf::from).into_iter().chain(beside.map(|name| folder.join(name)));
    for place in places {
        let found = std::fs::canonicalize(&place).ok();
        let is_program = |metadata: std::fs::Metadata| {
            metadata.is_file() && metadata.permissions().mode() & 0o111 != 0
        };
        if let Some(found) = found.filter(|it| it.metadata().map_or(false, is_program)) {
            return Ok(found);
        }
    }
    refuse("relabel isn't built; tools/build builds it")
}

#[cfg(test)]
mod tests {
    use super::*;

    #[test]
    fn the_last_type_counts() {
        let text = b"# SELINUXTYPE=a\n \tSELINUXTYPE= b # c\nSELINUXTYPE=d\nSELINUX=e\n";
        assert_eq!(type_in(text).unwrap(), b"d");
        assert_eq!(type_in(b"SELINUXTYPE=\n"), None);
        assert_eq!(type_in(b"SELINUX=enforcing"), None);
    }
    #[test]
    fn types_lie_in_the_folder_of_contexts() {
        assert_eq!(types_of(b"/a/contexts/files/fc"), b"/a/contexts/customizable_types");
        assert_eq!(types_of(b"/a/fc"), b"/a/customizable_types");
        assert_eq!(types_of(b"/fc"), b"/customizable_types");
    }
}
