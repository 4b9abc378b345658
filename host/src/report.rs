//! Reads the report of relabel.

/// What a line of the report tells. A change is told by the dump too, so its line is compared with
/// that, and not taken apart.
#[derive(Debug, PartialEq, Eq, Clone, Copy)]
pub enum Line<'a> {
    /// The name as it is reported begins the text.
    Changed(&'a [u8]),
    Kept(&'a [u8]),
    /// The name as it is reported.
    Undecided(&'a [u8]),
    Skipped(&'a [u8]),
    Conflict,
}

const CHANGED: &[u8] = b"Relabeled ";
const UNDECIDED: &[u8] = b"Warning no default label for ";
const SKIPPED: &[u8] = b"Skipping restorecon on directory(";
const CONFLICT: &[u8] = b"conflicting specifications for ";
const KEPT: &[u8] = b" not reset as customized by admin to ";

/// A line of the report, or none where it is none of the lines that are asked for. Names begin with
/// a slash, so the first bytes of a line tell which it is.
pub fn parse_line(line: &[u8]) -> Option<Line<'_>> {
    if line.first() == Some(&b'/') {
        let is_kept = line.windows(KEPT.len()).any(|window| window == KEPT);
        return is_kept.then_some(Line::Kept(line));
    }
    if let Some(rest) = line.strip_prefix(CHANGED) {
        Some(Line::Changed(rest))
    } else if let Some(name) = line.strip_prefix(UNDECIDED) {
        Some(Line::Undecided(name))
    } else if let Some(name) = line.strip_prefix(SKIPPED) {
        name.strip_suffix(b")").map(Line::Skipped)
    } else {
        line.starts_with(CONFLICT).then_some(Line::Conflict)
    }
}

/// The lines of a text, each of which has to be ended.
pub fn lines(text: &[u8]) -> impl Iterator<Item = Option<&[u8]>> {
    let mut rest = text;
    std::iter::from_fn(move || {
        if rest.is_empty() {
            return None;
        }
        match rest.iter().position(|&byte| byte == b'\n') {
            Some(end) => {
                let line = &rest[..end];
                rest = &rest[end + 1..];
                Some(Some(line))
            }
            None => {
                rest = b"";
                Some(None)
            }
        }
    })
}

#[cfg(test)]
mod tests {
    use super::*;

    #[test]
    fn lines_are_told_apart() {
        for (line, meant) in [
            (&b"Relabeled /a from x to y"[..], Some(Line::Changed(b"/a from x to y"))),
            (b"Warning no default label for /a b", Some(Line::Undecided(b"/a b"))),
            (b"Skipping restorecon on directory(/a)", Some(Line::Skipped(b"/a"))),
            (b"conflicting specifications for /a and /b, using c.", Some(Line::Conflict)),
            (
                b"/a not reset as customized by admin to x",
                Some(Line::Kept(b"/a not reset as customized by admin to x")),
            ),
            (b"/a", None),
            (b"", None),
            (b"relabel: read failed", None),
            (b"no record for /", None),
        ] {
            assert_eq!(parse_line(line), meant, "{}", line.escape_ascii());
        }
    }
    #[test]
    fn a_line_without_an_end_is_told() {
        let all: Vec<Option<&[u8]>> = lines(b"a\n\nb").collect();
        assert_eq!(all, [Some(&b"a"[..]), Some(b""), None]);
        assert_eq!(lines(b"").count(), 0);
    }
}
