//! Objects of JSON, one a line. A name stands in them as relabel reports names, and a byte that is
//! no part of UTF-8 as a backslash and three octal digits too.

use crate::say::push_reported;

/// A value, quoted where it is a text.
pub enum Value<'a> {
    Text(&'a str),
    Name(&'a [u8]),
    Number(u64),
    Seconds(f64),
}

fn push_text(line: &mut String, text: &str) {
    line.push('"');
    for letter in text.chars() {
        match letter {
            '"' | '\\' => line.extend(['\\', letter]),
            '\0'..='\x1f' => line.push_str(&format!("\\u{:04x}", u32::from(letter))),
            _ => line.push(letter),
        }
    }
    line.push('"');
}

/// The name in UTF-8.
fn text_of(name: &[u8]) -> String {
    let mut text = String::new();
    let mut rest = name;
    loop {
        let (good, bad) = match std::str::from_utf8(rest) {
            Ok(good) => (good, &b""[..]),
            Err(error) => {
                let (good, bad) = rest.split_at(error.valid_up_to());
                (std::str::from_utf8(good).unwrap_or_default(), bad)
            }
        };
        let mut reported = Vec::new();
        push_reported(&mut reported, good.as_bytes());
        text.push_str(&String::from_utf8_lossy(&reported));
        match bad.split_first() {
            Some((byte, behind)) => {
                text.push_str(&format!("\\{byte:03o}"));
                rest = behind;
            }
            None => return text,
        }
    }
}

/// An object and a line feed.
pub fn line(fields: &[(&str, Value)]) -> String {
    let mut line = String::from("{");
    for (at, (key, value)) in fields.iter().enumerate() {
        if at > 0 {
            line.push_str(", ");
        }
        push_text(&mut line, key);
        line.push_str(": ");
        match value {
            Value::Text(text) => push_text(&mut line, text),
            Value::Name(name) => push_text(&mut line, &text_of(name)),
            Value::Number(number) => line.push_str(&number.to_string()),
            Value::Seconds(seconds) => line.push_str(&format!("{seconds:.1}")),
        }
    }
    line.push_str("}\n");
    line
}

#[cfg(test)]
mod tests {
    use super::*;

    #[test]
    fn names_are_quoted() {
        let name = b"/a\"\n\\\xff\xc3\xa9";
        let fields = [("name", Value::Name(name)), ("n", Value::Number(2))];
        assert_eq!(line(&fields), "{\"name\": \"/a\\\"\\\\012\\\\134\\\\377\u{e9}\", \"n\": 2}\n");
    }
}
