//! Reading and writing the text of a list.

use crate::faces::LIMIT;
use crate::{refusal, refused, Refusal};

/// What a text is made of beside separators.
#[derive(Clone, Copy)]
enum Thing<'a> {
    Opening,
    Closing,
    Number(&'a [u8]),
}

/// A thing and the position of its first byte.
type Placed<'a> = (usize, Thing<'a>);

fn is_blank(byte: u8) -> bool {
    b"\t\n\r ,".contains(&byte)
}

/// Whether a byte goes on with a number: no blank, bracket or comment.
fn is_of_number(byte: u8) -> bool {
    !is_blank(byte) && !b"[]#".contains(&byte)
}

/// The number of bytes at the start of a text that are as asked.
fn length_while(text: &[u8], asked: impl Fn(u8) -> bool) -> usize {
    let other = text.iter().position(|&byte| !asked(byte));
    other.unwrap_or(text.len())
}

/// All things of a text in their order; separators are left out.
fn things(text: &[u8]) -> Vec<Placed<'_>> {
    let mut things = Vec::new();
    let mut at = 0;
    while at < text.len() {
        let rest = &text[at..];
        let (length, thing) = match rest[0] {
            b'#' => (length_while(rest, |byte| !b"\n\r".contains(&byte)), None),
            b'[' => (1, Some(Thing::Opening)),
            b']' => (1, Some(Thing::Closing)),
            blank if is_blank(blank) => (1, None),
            _ => {
                let length = length_while(rest, is_of_number);
                (length, Some(Thing::Number(&rest[..length])))
            }
        };
        things.extend(thing.map(|thing| (at, thing)));
        at += length;
    }
    things
}

/// The value of a number's bytes, or the code that refuses them.
fn value(bytes: &[u8]) -> Result<i32, u64> {
    let digits = match bytes {
        [b'+' | b'-', digits @ ..] => digits,
        digits => digits,
    };
    if digits.is_empty() || !digits.iter().all(u8::is_ascii_digit) {
        return Err(11);
    }
    let zeros = length_while(digits, |digit| digit == b'0');
    let digits = std::str::from_utf8(&digits[zeros..]).expect("digits are text");
    // more digits than the limits have, or a size that is parsed exactly
    let size: i64 = match digits.len() {
        0 => 0,
        1..=10 => digits.parse().expect("ten digits fit"),
        _ => i64::MAX,
    };
    let signed = if bytes[0] == b'-' { -size } else { size };
    i32::try_from(signed).map_err(|_| 12)
}

/// The entries of a text, at most `room` of them, or the refusal at the leftmost fault.
pub fn entries(text: &[u8], room: usize) -> Result<Vec<i32>, Refusal> {
    let end = (text.len(), None);
    let mut things = things(text)
        .into_iter()
        .map(|(place, thing)| (place, Some(thing)));
    let (place, thing) = things.next().unwrap_or(end);
    let Some(Thing::Opening) = thing else {
        return Err(refusal(11, place));
    };
    let mut entries = Vec::new();
    loop {
        let (place, thing) = things.next().unwrap_or(end);
        match thing {
            None | Some(Thing::Opening) => return Err(refusal(11, place)),
            Some(Thing::Closing) => break,
            Some(Thing::Number(bytes)) => {
                let entry = value(bytes).map_err(|code| refusal(code, place))?;
                if room.min(LIMIT) <= entries.len() {
                    return Err(refusal(13, place));
                }
                entries.push(entry);
            }
        }
    }
    match things.next() {
        Some((place, _)) => Err(refusal(11, place)),
        None => Ok(entries),
    }
}

/// The text reader: code, place, entries read.
pub fn read(text: &[u8], list: &mut [i32]) -> [u64; 3] {
    match entries(text, list.len()) {
        Err(refusal) => refused(refusal),
        Ok(entries) => {
            list[..entries.len()].copy_from_slice(&entries);
            [0, 0, entries.len() as u64]
        }
    }
}

/// The text of a list.
pub fn text_of(list: &[i32]) -> String {
    let entries: Vec<String> = list.iter().map(i32::to_string).collect();
    format!("[{}]", entries.join(", "))
}

/// The text writer: code, place, text length.
pub fn write(list: &[i32], text: &mut [u8]) -> [u64; 3] {
    if LIMIT < list.len() {
        return refused(refusal(1, 0));
    }
    let written = text_of(list);
    if text.len() < written.len() {
        return refused(refusal(15, written.len()));
    }
    text[..written.len()].copy_from_slice(written.as_bytes());
    [0, 0, written.len() as u64]
}
