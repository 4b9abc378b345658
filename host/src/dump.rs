//! Reads a dump, as relabel and getfattr(1) write it.

use std::borrow::Cow;

type Bytes<'a> = Cow<'a, [u8]>;

/// One file, and what it shall have.
#[derive(Debug, PartialEq, Eq)]
pub struct Section<'a> {
    pub name: Bytes<'a>,
    pub label: Option<Bytes<'a>>,
    pub digest: Option<Bytes<'a>>,
}

const FILE_LINE: &[u8] = b"# file: ";
const LABEL_LINE: &[u8] = b"security.selinux=";
const DIGEST_LINE: &[u8] = b"security.sehash=";

/// The number of the first line, from 1, that isn't one of a dump.
#[derive(Debug, PartialEq, Eq)]
pub struct BadLine(pub usize);

/// All sections, in their order.
pub fn parse(text: &[u8]) -> Result<Vec<Section<'_>>, BadLine> {
    let mut sections = Vec::new();
    let mut rest = text;
    let mut number = 0;
    while !rest.is_empty() {
        number += 1;
        let line = rest.iter().position(|&byte| byte == b'\n').and_then(|end| {
            let line = &rest[..end];
            rest = &rest[end + 1..];
            read_line(line, &mut sections)
        });
        line.ok_or(BadLine(number))?;
    }
    Ok(sections)
}

/// A line is empty, a section's first, or an attribute of the section.
fn read_line<'a>(line: &'a [u8], sections: &mut Vec<Section<'a>>) -> Option<()> {
    if line.is_empty() {
        return Some(());
    }
    if let Some(name) = line.strip_prefix(FILE_LINE) {
        let name = unescaped(name)?;
        let is_path = name.first() == Some(&b'/') && !name.contains(&0);
        let section = Section { name, label: None, digest: None };
        return is_path.then(|| sections.push(section));
    }
    let section = sections.last_mut()?;
    let (slot, value) = match line.strip_prefix(LABEL_LINE) {
        Some(value) => (&mut section.label, value),
        None => (&mut section.digest, line.strip_prefix(DIGEST_LINE)?),
    };
    if slot.is_some() {
        return None;
    }
    *slot = Some(value_of(value)?);
    Some(())
}

/// A value is a text in quotes, or hexadecimal digits behind 0x.
fn value_of(value: &[u8]) -> Option<Bytes<'_>> {
    match value {
        [b'0', b'x' | b'X', digits @ ..] => bytes_of_hex(digits).map(Cow::Owned),
        [b'"', text @ .., b'"'] => unescaped(text),
        _ => None,
    }
}

fn bytes_of_hex(digits: &[u8]) -> Option<Vec<u8>> {
    let digit = |byte: u8| char::from(byte).to_digit(16);
    if digits.len() % 2 != 0 {
        return None;
    }
    digits
        .chunks_exact(2)
        .map(|pair| u8::try_from(digit(pair[0])? * 16 + digit(pair[1])?).ok())
        .collect()
}

/// Undoes the escapes of a text.
pub fn unescaped(text: &[u8]) -> Option<Bytes<'_>> {
    if !text.contains(&b'\\') {
        return Some(Cow::Borrowed(text));
    }
    let mut plain = Vec::with_capacity(text.len());
    let mut rest = text;
    while let Some((&first, behind)) = rest.split_first() {
        let (byte, length) = match (first, behind) {
            (b'\\', [byte @ (b'\\' | b'"'), ..]) => (*byte, 2),
            (b'\\', [a @ b'0'..=b'3', b @ b'0'..=b'7', c @ b'0'..=b'7', ..]) => {
                ((a - b'0') << 6 | (b - b'0') << 3 | (c - b'0'), 4)
            }
            (b'\\', _) => return None,
            _ => (first, 1),
        };
        plain.push(byte);
        rest = &rest[length..];
    }
    Some(Cow::Owned(plain))
}

/// A section with a digest, as relabel reads it.
pub fn push_digest(to: &mut Vec<u8>, path: &[u8], digest: &[u8]) {
    to.extend_from_slice(FILE_LINE);
    crate::say::push_reported(to, path);
    to.push(b'\n');
    to.extend_from_slice(DIGEST_LINE);
    to.extend_from_slice(b"0x");
    for byte in digest {
        let digit = |value: u8| b"0123456789abcdef"[usize::from(value)];
        to.extend([digit(byte >> 4), digit(byte & 15)]);
    }
    to.extend_from_slice(b"\n\n");
}

#[cfg(test)]
mod tests {
    use super::*;

    fn owned(text: &[u8]) -> Option<Bytes<'static>> {
        Some(Cow::Owned(text.to_vec()))
    }

    #[test]
    fn sections_are_read() {
        let text = b"# file: /a\\012\nsecurity.sehash=0x0aFf\nsecurity.selinux=\"u:r:t\\042\"\n\n\
            # file: /b\nsecurity.selinux=\"x\"\n";
        let sections = parse(text).unwrap();
        assert_eq!(sections.len(), 2);
        assert_eq!(&*sections[0].name, b"/a\n");
        assert_eq!(sections[0].label, owned(b"u:r:t\""));
        assert_eq!(sections[0].digest, owned(&[10, 255]));
        assert_eq!(sections[1].label, owned(b"x"));
        assert_eq!(sections[1].digest, None);
    }
    #[test]
    fn lines_of_no_dump_are_told() {
        for (text, number) in [
            (&b"x\n"[..], 1),
            (b"# file: etc\n", 1),
            (b"# file: /etc", 1),
            (b"# file: /etc\nuser.other=\"x\"\n", 2),
            (b"security.selinux=\"x\"\n", 1),
            (b"# file: /a\nsecurity.selinux=\"x\"\nsecurity.selinux=\"x\"\n", 3),
            (b"# file: /a\nsecurity.selinux=\"x\n", 2),
            (b"# file: /a\nsecurity.selinux=\"\n", 2),
            (b"# file: /a\nsecurity.sehash=0x0\n", 2),
            (b"# file: /a\nsecurity.sehash=0xzz\n", 2),
            (b"# file: /a\\400\n", 1),
            (b"# file: /a\\", 1),
            (b"# file: /\\000\n", 1),
        ] {
            assert_eq!(parse(text), Err(BadLine(number)), "{}", text.escape_ascii());
        }
    }
    #[test]
    fn a_digest_is_written_as_it_is_read() {
        let mut text = Vec::new();
        push_digest(&mut text, b"/a\\b", &[0, 255]);
        let sections = parse(&text).unwrap();
        assert_eq!(&*sections[0].name, b"/a\\b");
        assert_eq!(sections[0].digest, owned(&[0, 255]));
    }
}
