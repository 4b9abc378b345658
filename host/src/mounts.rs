//! What is left out of a tree: by words, by files, and since a mount takes no labels, is read-only
//! or shows what is seen elsewhere.

use crate::tree::LONGEST_PATH;
use std::collections::{BTreeMap, HashMap, HashSet};
use std::os::unix::ffi::OsStrExt;
use std::os::unix::fs::MetadataExt;
use std::path::Path;
use std::sync::Arc;

/// Why a path is left out.
#[derive(Clone, PartialEq, Eq, Debug)]
pub enum Cause {
    /// By `-e`.
    Word,
    /// By etc/selinux/fixfiles_exclude_dirs.
    Listed,
    /// By `-x`.
    OtherSystem,
    NoLabels,
    ReadOnly,
    /// What is there is seen at this path too.
    Second(Vec<u8>),
}

impl Cause {
    pub fn text(&self) -> String {
        match self {
            Cause::Word => "left out by -e".into(),
            Cause::Listed => "named in etc/selinux/fixfiles_exclude_dirs".into(),
            Cause::OtherSystem => "on another file system".into(),
            Cause::NoLabels => "on a mount that takes no labels".into(),
            Cause::ReadOnly => "on a read-only mount".into(),
            Cause::Second(first) => format!("it shows what {} shows", crate::say::plain(first)),
        }
    }
}

/// A path at which, or below which, something is left out.
#[derive(Default, Debug)]
pub struct Special {
    pub cause: Option<Cause>,
    pub below: BTreeMap<Box<[u8]>, Arc<Special>>,
}

/// Paths within the root, and why each is left out.
pub type LeftOut = Vec<(Vec<u8>, Cause)>;

impl Special {
    /// The tree of some paths, but for those that are too long to be read: each level of the tree
    /// takes room on the stack.
    pub fn tree(left_out: &LeftOut) -> Special {
        let mut sorted: Vec<(Vec<&[u8]>, &Cause)> = left_out
            .iter()
            .filter(|(path, _)| path.len() <= LONGEST_PATH)
            .map(|(path, cause)| (names(path).collect(), cause))
            .collect();
        sorted.sort_by(|a, b| a.0.cmp(&b.0));
        Special::grow(&sorted, 0)
    }
    /// The tree of paths in order that are alike in so many first names.
    fn grow(sorted: &[(Vec<&[u8]>, &Cause)], depth: usize) -> Special {
        let mut special = Special::default();
        let here = sorted.iter().take_while(|(names, _)| names.len() == depth).count();
        special.cause = sorted.first().filter(|_| here > 0).map(|(_, cause)| (*cause).clone());
        let mut rest = &sorted[here..];
        while let Some((first, _)) = rest.first() {
            let name = first[depth];
            let count = rest.iter().take_while(|(names, _)| names[depth] == name).count();
            let below = Special::grow(&rest[..count], depth + 1);
            special.below.insert(name.into(), Arc::new(below));
            rest = &rest[count..];
        }
        special
    }
    /// Why the path, or what it lies in, is left out.
    pub fn cause_at(&self, path: &[u8]) -> Option<Cause> {
        let mut at = self;
        for name in names(path) {
            if at.cause.is_some() {
                break;
            }
            at = at.below.get(name)?;
        }
        at.cause.clone()
    }
}

/// The names in a path.
pub fn names(path: &[u8]) -> impl Iterator<Item = &[u8]> {
    path.split(|&byte| byte == b'/').filter(|name| !name.is_empty())
}

/// What is behind the first path in the second, which is it or lies below it.
fn rest_below<'a>(above: &[u8], path: &'a [u8]) -> Option<&'a [u8]> {
    let above = if above == b"/" { b"" } else { above };
    let rest = path.strip_prefix(above)?;
    (rest.is_empty() || rest[0] == b'/').then(|| if rest == b"/" { b"" } else { rest })
}

pub fn is_at_or_below(path: &[u8], above: &[u8]) -> bool {
    rest_below(above, path).is_some()
}

/// The path of a path as seen from within another.
fn joined(above: &[u8], rest: &[u8]) -> Vec<u8> {
    let above = if above == b"/" { b"" } else { above };
    let path = [above, rest].concat();
    if path.is_empty() {
        b"/".to_vec()
    } else {
        path
    }
}

/// A line of /proc/self/mountinfo.
#[derive(Clone, Debug, PartialEq, Eq)]
pub struct Mount {
    id: u64,
    parent: u64,
    device: Vec<u8>,
    /// Which folder of the file system it shows.
    root: Vec<u8>,
    point: Vec<u8>,
    kind: Vec<u8>,
    is_read_only: bool,
    is_sealed: bool,
}

/// Undoes the octal escapes of a field.
fn unescaped(field: &[u8]) -> Vec<u8> {
    let mut text = Vec::with_capacity(field.len());
    let mut rest = field;
    while let Some((&first, behind)) = rest.split_first() {
        let digits = behind.get(..3).filter(|_| first == b'\\');
        let value = digits.and_then(|digits| {
            digits.iter().try_fold(0u16, |value, &digit| {
                (b'0'..=b'7').contains(&digit).then(|| value * 8 + u16::from(digit - b'0'))
            })
        });
        match value.and_then(|value| u8::try_from(value).ok()) {
            Some(byte) => {
                text.push(byte);
                rest = &behind[3..];
            }
            None => {
                text.push(first);
                rest = behind;
            }
        }
    }
    text
}

fn has_option(options: &[u8], name: &[u8]) -> bool {
    options.split(|&byte| byte == b',').any(|option| option == name)
}

fn number(field: &[u8]) -> Option<u64> {
    std::str::from_utf8(field).ok()?.parse().ok()
}

fn parse_line(line: &[u8]) -> Option<Mount> {
    let fields: Vec<&[u8]> = line.split(|&byte| byte == b' ').collect();
    let dash = fields.iter().skip(6).position(|field| *field == b"-")? + 6;
    let options = fields[5];
    let of_system = fields.get(dash + 3).copied().unwrap_or_default();
    Some(Mount {
        id: number(fields[0])?,
        parent: number(fields[1])?,
        device: fields[2].to_vec(),
        root: unescaped(fields[3]),
        point: unescaped(fields[4]),
        kind: fields.get(dash + 1)?.to_vec(),
        is_read_only: has_option(options, b"ro") || has_option(of_system, b"ro"),
        is_sealed: has_option(options, b"seclabel") || has_option(of_system, b"seclabel"),
    })
}

/// The mounts that a text tells and that are seen: not those that lie below a later one.
pub fn parse(text: &[u8]) -> Vec<Mount> {
    let all: Vec<Mount> = text.split(|&byte| byte == b'\n').filter_map(parse_line).collect();
    let top: HashMap<&[u8], u64> = all.iter().map(|it| (&it.point[..], it.id)).collect();
    let by_id: HashMap<u64, &Mount> = all.iter().map(|it| (it.id, it)).collect();
    let is_seen = |mount: &Mount| {
        let mut above = by_id.get(&mount.parent);
        // No more steps than mounts: a text that is no table can have a circle.
        for _ in &all {
            match above.filter(|it| it.point == mount.point && it.id != it.parent) {
                Some(stacked) => above = by_id.get(&stacked.parent),
                None => break,
            }
        }
        let mut nearest = &mount.point[..];
        let around = loop {
            nearest = match nearest.iter().rposition(|&byte| byte == b'/') {
                Some(0) if nearest.len() > 1 => b"/",
                Some(end) if end > 0 => &nearest[..end],
                _ => break None,
            };
            if let Some(id) = top.get(nearest) {
                break Some(*id);
            }
        };
        top.get(&mount.point[..]) == Some(&mount.id)
            && (around.is_none() || above.map_or(true, |above| Some(above.id) == around))
    };
    all.iter().filter(|mount| is_seen(mount)).cloned().collect()
}

/// File systems that keep labels, where no mount says so itself since SELinux isn't at work.
const KEEP_LABELS: [&str; 17] = [
    "ext2", "ext3", "ext4", "xfs", "btrfs", "bcachefs", "f2fs", "jfs", "gfs2", "ocfs2", "ubifs",
    "jffs2", "nilfs2", "zfs", "tmpfs", "overlay", "nfs4",
];

/// What a run is asked for.
pub struct Asked<'a> {
    /// The root of the tree, without a slash at its end: nothing for that of this system.
    pub at: &'a [u8],
    /// The paths, as seen from within it.
    pub paths: &'a [Vec<u8>],
    pub one_system: bool,
    pub sets: bool,
}

/// A folder of a file system, and where it is seen.
struct View<'a> {
    device: &'a [u8],
    root: Vec<u8>,
    place: Vec<u8>,
    rank: (u8, usize, usize),
}

/// A subvolume of btrfs has this inode, and is as good as a whole file system.
const SUBVOLUME: u64 = 256;

fn is_whole(mount: &Mount) -> bool {
    let inode = || std::fs::symlink_metadata(Path::new(std::ffi::OsStr::from_bytes(&mount.point)));
    mount.root == b"/" || mount.kind == b"btrfs" && inode().map_or(0, |it| it.ino()) == SUBVOLUME
}

/// What the mounts have left out of the tree.
pub fn left_out_by(mounts: &[Mount], asked: &Asked) -> LeftOut {
    let mut sorting = Sorting {
        asked,
        is_at_work: mounts.iter().any(|mount| mount.is_sealed),
        left_out: LeftOut::new(),
        views: Vec::new(),
    };
    for (order, path) in asked.paths.iter().enumerate() {
        sorting.add_path(mounts, order, path);
    }
    for (order, mount) in mounts.iter().enumerate() {
        sorting.add_mount(order, mount);
    }
    let mut left_out = sorting.left_out;
    left_out.extend(second_views(sorting.views, asked.at));
    let mut seen = HashSet::new();
    left_out.retain(|(path, _)| seen.insert(path.clone()));
    left_out
}

/// Sorts paths and mounts into those that are left out and those that are read.
struct Sorting<'a> {
    asked: &'a Asked<'a>,
    is_at_work: bool,
    left_out: LeftOut,
    views: Vec<View<'a>>,
}

impl<'a> Sorting<'a> {
    fn keeps(&self, mount: &Mount) -> bool {
        match self.is_at_work {
            true => mount.is_sealed,
            false => KEEP_LABELS.iter().any(|kind| kind.as_bytes() == mount.kind),
        }
    }
    fn placed(&self, path: &[u8]) -> Vec<u8> {
        joined(self.asked.at, if path == b"/" { b"" } else { path })
    }
    /// A path, by the mount that it lies on.
    fn add_path(&mut self, mounts: &'a [Mount], order: usize, path: &[u8]) {
        let place = self.placed(path);
        let around = mounts
            .iter()
            .filter(|mount| is_at_or_below(&place, &mount.point))
            .max_by_key(|mount| mount.point.len());
        let mount = match around {
            Some(mount) => mount,
            None => return,
        };
        let at = self.asked.at;
        let is_within = mount.point.len() > at.len().max(1) && is_at_or_below(&mount.point, at);
        if is_within && !self.keeps(mount) {
            self.left_out.push((path.to_vec(), Cause::NoLabels));
        } else if self.asked.sets && mount.is_read_only {
            self.left_out.push((path.to_vec(), Cause::ReadOnly));
        } else {
            let rest = rest_below(&mount.point, &place).unwrap_or_default();
            let rank = (0, names(&place).count(), order);
            let root = joined(&mount.root, rest);
            self.views.push(View { device: &mount.device, root, place, rank });
        }
    }
    /// A mount below a path.
    fn add_mount(&mut self, order: usize, mount: &'a Mount) {
        let is_asked = |path: &Vec<u8>| {
            let place = self.placed(path);
            mount.point != place && is_at_or_below(&mount.point, &place)
        };
        if !self.asked.paths.iter().any(is_asked) {
            return;
        }
        match self.cause_of(mount) {
            Some(cause) => self.left_out.push((within(self.asked.at, &mount.point), cause)),
            None => self.views.push(View {
                device: &mount.device,
                root: mount.root.clone(),
                place: mount.point.clone(),
                rank: (u8::from(!is_whole(mount)), names(&mount.point).count(), order),
            }),
        }
    }
    /// Why a mount is left out, if it is.
    fn cause_of(&self, mount: &Mount) -> Option<Cause> {
        let is_named = self.asked.paths.iter().any(|path| mount.point == self.placed(path));
        if self.asked.one_system && !is_named {
            Some(Cause::OtherSystem)
        } else if !self.keeps(mount) {
            Some(Cause::NoLabels)
        } else if mount.is_read_only {
            Some(Cause::ReadOnly)
        } else {
            None
        }
    }
}

/// A path as seen from within a root.
fn within(at: &[u8], place: &[u8]) -> Vec<u8> {
    joined(b"", rest_below(at, place).unwrap_or(place))
}

/// Of what is seen at several places all but the first: a whole file system comes before a part of
/// one, and what lies nearer to the root before what lies deeper.
fn second_views(mut views: Vec<View>, at: &[u8]) -> LeftOut {
    views.sort_by_key(|view| view.rank);
    let mut left_out = LeftOut::new();
    for (number, view) in views.iter().enumerate() {
        for first in views[..number].iter().filter(|first| first.device == view.device) {
            if let Some(rest) = rest_below(&first.root, &view.root) {
                let shown = within(at, &joined(&first.place, rest));
                left_out.push((within(at, &view.place), Cause::Second(shown)));
            } else if let Some(rest) = rest_below(&view.root, &first.root) {
                let second = within(at, &joined(&view.place, rest));
                left_out.push((second, Cause::Second(within(at, &first.place))));
            }
        }
    }
    left_out.retain(|(path, cause)| *cause != Cause::Second(path.clone()));
    left_out
}

#[cfg(test)]
mod tests {
    use super::*;

    fn left_out(text: &str, paths: &[&str]) -> Vec<(String, Cause)> {
        let paths: Vec<Vec<u8>> = paths.iter().map(|path| path.as_bytes().to_vec()).collect();
        let asked = Asked { at: b"", paths: &paths, one_system: false, sets: true };
        let left_out = left_out_by(&parse(text.as_bytes()), &asked);
        let texts = left_out.into_iter();
        texts.map(|(path, cause)| (String::from_utf8(path).unwrap(), cause)).collect()
    }
    fn second(path: &str) -> Cause {
        Cause::Second(path.as_bytes().to_vec())
    }

    const ROOT: &str = "1 0 8:1 / / rw shared:1 - ext4 /dev/a rw\n";

    #[test]
    fn a_bind_mount_is_a_second_view() {
        let text = format!("{ROOT}2 1 8:1 /etc /a rw - ext4 /dev/a rw\n");
        assert_eq!(left_out(&text, &["/"]), [("/a".into(), second("/etc"))]);
        assert_eq!(left_out(&text, &["/a"]), []);
        assert_eq!(left_out(&text, &["/etc"]), []);
    }
    #[test]
    fn a_bind_mount_that_comes_first_in_the_list_is_the_second_view() {
        let text = format!(
            "{ROOT}2 1 8:2 /data /home/data rw - ext4 /dev/b rw\n3 1 8:2 / /srv rw - ext4 b rw\n"
        );
        assert_eq!(left_out(&text, &["/"]), [("/home/data".into(), second("/srv/data"))]);
    }
    #[test]
    fn the_whole_at_a_deeper_place_lacks_what_is_seen_above() {
        let text = format!("{ROOT}2 1 8:1 / /mnt/all rw - ext4 /dev/a rw\n");
        assert_eq!(left_out(&text, &["/usr"]), []);
        assert_eq!(left_out(&text, &["/"]), [("/mnt/all".into(), second("/"))]);
    }
    #[test]
    fn mounts_without_labels_and_read_only_ones_are_left_out() {
        let text = format!(
            "{ROOT}2 1 0:5 / /proc rw - proc none rw\n3 1 8:3 / /a\\040b ro - ext4 /dev/c rw\n"
        );
        let expected = [("/proc".into(), Cause::NoLabels), ("/a b".into(), Cause::ReadOnly)];
        assert_eq!(left_out(&text, &["/"]), expected);
        assert_eq!(left_out(&text, &["/a b/c"]), [("/a b/c".into(), Cause::ReadOnly)]);
    }
    #[test]
    fn a_mount_that_is_covered_is_not_seen() {
        let text =
            format!("{ROOT}2 1 8:2 / /a/b rw - ext4 /dev/b rw\n3 1 8:3 / /a rw - ext4 /dev/c rw\n");
        let points: Vec<Vec<u8>> =
            parse(text.as_bytes()).into_iter().map(|mount| mount.point).collect();
        assert_eq!(points, [b"/".to_vec(), b"/a".to_vec()]);
    }
    #[test]
    fn a_circle_of_parents_has_an_end() {
        let text = b"1 2 8:1 / / rw - ext4 a rw\n2 1 8:1 / / rw - ext4 a rw\n";
        assert_eq!(parse(text).len(), 1);
    }
    #[test]
    fn lines_that_are_none_are_passed_over() {
        assert_eq!(parse(b"x\n1 2 3\n1 0 8:1 / / rw -\n\n"), []);
    }
    #[test]
    fn a_tree_of_paths_knows_its_causes() {
        let left_out = vec![(b"/a/b".to_vec(), Cause::Word), (b"/c".to_vec(), Cause::Listed)];
        let special = Special::tree(&left_out);
        assert_eq!(special.cause_at(b"/a/b/c"), Some(Cause::Word));
        assert_eq!(special.cause_at(b"/a"), None);
        assert_eq!(special.cause_at(b"/c"), Some(Cause::Listed));
        assert_eq!(special.cause_at(b"/"), None);
    }
    #[test]
    fn a_path_that_is_too_long_is_no_part_of_the_tree() {
        let left_out = vec![(b"/a".repeat(500_000), Cause::Listed), (b"/b".to_vec(), Cause::Word)];
        let special = Special::tree(&left_out);
        assert_eq!(special.below.len(), 1);
        assert_eq!(special.cause_at(b"/b"), Some(Cause::Word));
    }
}
