//! An object of JSON, read strictly by RFC 8259: the members are texts and numbers.

#[derive(Debug, PartialEq)]
pub enum Member {
    Text(String),
    Number(f64),
}

/// The members of a line with one object, or none where it isn't one.
pub fn members(line: &str) -> Option<Vec<(String, Member)>> {
    let mut rest = line.strip_suffix('\n')?.strip_prefix('{')?.strip_suffix('}')?;
    let mut members = Vec::new();
    while !rest.is_empty() {
        if !members.is_empty() {
            rest = rest.strip_prefix(',')?.trim_start_matches(' ');
        }
        let (key, behind) = text(rest)?;
        let behind = behind.strip_prefix(':')?.trim_start_matches(' ');
        let (member, behind) = match behind.starts_with('"') {
            true => text(behind).map(|(text, behind)| (Member::Text(text), behind))?,
            false => number(behind)?,
        };
        members.push((key, member));
        rest = behind;
    }
    Some(members)
}

fn number(rest: &str) -> Option<(Member, &str)> {
    let end = rest.find(',').unwrap_or(rest.len());
    let (digits, behind) = rest.split_at(end);
    let (whole, fraction) = digits.split_once('.').unwrap_or((digits, "0"));
    let is_digits = |text: &str| !text.is_empty() && text.bytes().all(|it| it.is_ascii_digit());
    let is_number = is_digits(whole) && is_digits(fraction);
    let is_plain = whole == "0" || !whole.starts_with('0');
    (is_number && is_plain).then_some((Member::Number(digits.parse().ok()?), behind))
}

/// A text in quotes, and what stands behind it.
fn text(rest: &str) -> Option<(String, &str)> {
    let mut letters = rest.strip_prefix('"')?.chars();
    let mut text = String::new();
    loop {
        match letters.next()? {
            '"' => return Some((text, letters.as_str())),
            '\\' => text.push(escaped(&mut letters)?),
            '\0'..='\x1f' => return None,
            letter => text.push(letter),
        }
    }
}

fn escaped(letters: &mut std::str::Chars) -> Option<char> {
    Some(match letters.next()? {
        letter @ ('"' | '\\' | '/') => letter,
        'b' => '\x08',
        'f' => '\x0c',
        'n' => '\n',
        'r' => '\r',
        't' => '\t',
        'u' => {
            let digits: String = letters.take(4).collect();
            let is_hex = digits.len() == 4 && digits.bytes().all(|it| it.is_ascii_hexdigit());
            char::from_u32(u32::from_str_radix(&digits, 16).ok().filter(|_| is_hex)?)?
        }
        _ => return None,
    })
}
