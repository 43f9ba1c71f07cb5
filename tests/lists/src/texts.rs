//! Texts of all kinds, valid and damaged.

use crate::chance::Chance;

const BLANKS: [&str; 5] = ["\t", "\n", "\r", " ", ","];

const NUMBERS: [&str; 30] = [
    "0",
    "1",
    "2",
    "3",
    "4",
    "-1",
    "-1",
    "-1",
    "5",
    "17",
    "+07",
    "-0",
    "+0",
    "-2",
    "1023",
    "65535",
    "65536",
    "2147483646",
    "2147483647",
    "-2147483647",
    "-2147483648",
    "0000000000000000001",
    "-000000000002147483648",
    "+2147483647",
    "00",
    "10",
    "99",
    "100",
    "-10",
    "1000000000",
];

const OVER: [&str; 8] = [
    "2147483648",
    "-2147483649",
    "4294967296",
    "+2147483648",
    "18446744073709551616",
    "-18446744073709551615",
    "99999999999999999999999999999999999999999",
    "00000000002147483648",
];

const BAD: [&str; 16] = [
    "+", "-", "1-2", "+-1", "0x1", "1.0", "1e3", "--1", "a", "-a", "{", "1\u{b}", "\0", "\u{e9}",
    "1+", "'",
];

/// A separator, mostly one blank.
fn separator(chance: &mut Chance) -> String {
    const COMMENTS: [&str; 5] = ["#\n", "# 1 2 ]\r", "#[# \n", "#\r", "#,9\n"];
    match chance.below(12) {
        0 => chance.one_of(&COMMENTS).to_string(),
        1 => separator(chance) + &separator(chance),
        2 => "\r\n".to_string(),
        _ => chance.one_of(&BLANKS).to_string(),
    }
}

/// One or no separator.
fn gap(chance: &mut Chance) -> String {
    match chance.below(3) {
        0 => separator(chance),
        _ => String::new(),
    }
}

/// A text of random numbers, perhaps with one out of range or ill-formed among them.
fn numbers(chance: &mut Chance) -> String {
    let count = chance.below(9);
    let small = chance.once_in(2);
    let mut text = gap(chance) + "[" + &gap(chance);
    for i in 0..count {
        if 0 < i {
            text += &separator(chance);
        }
        text += match chance.below(24) {
            0 => chance.one_of(&OVER),
            1 => chance.one_of(&BAD),
            _ if small => chance.one_of(&NUMBERS[..9]),
            _ => chance.one_of(&NUMBERS),
        };
    }
    text + &gap(chance) + "]" + &gap(chance)
}

/// One byte taken away, put in or replaced.
fn damage(text: &mut Vec<u8>, chance: &mut Chance) {
    const BYTES: &[u8] = b"[[]]##-+,, \t\n\r0123456789x\x0b\x00\xff{";
    let at = chance.below(text.len() + 1);
    let byte = match chance.below(8) {
        0 => chance.below(256) as u8,
        _ => chance.one_of(BYTES),
    };
    match chance.below(4) {
        0 => text.insert(at, byte),
        1 => text.truncate(at),
        2 if at < text.len() => drop(text.remove(at)),
        _ if at < text.len() => text[at] = byte,
        _ => text.push(byte),
    }
}

/// The bytes as they come, of those that mean something.
fn any_bytes(chance: &mut Chance) -> Vec<u8> {
    const BYTES: &[u8] = b"[[]# \n\r,-+0123x";
    let length = chance.below(12);
    (0..length).map(|_| chance.one_of(BYTES)).collect()
}

/// A text of a list with separators of all kinds.
pub fn text_of(list: &[i32], chance: &mut Chance) -> Vec<u8> {
    let mut text = gap(chance) + "[";
    for (i, entry) in list.iter().enumerate() {
        if 0 < i {
            text += &separator(chance);
        }
        text += &entry.to_string();
    }
    (text + &gap(chance) + "]" + &gap(chance)).into_bytes()
}

/// The text that a seed stands for.
pub fn random_text(list: &[i32], chance: &mut Chance) -> Vec<u8> {
    let mut text = match chance.below(8) {
        0 => any_bytes(chance),
        1..=2 => text_of(list, chance),
        _ => numbers(chance).into_bytes(),
    };
    if chance.once_in(3) {
        for _ in 0..chance.between(1, 3) {
            damage(&mut text, chance);
        }
    }
    text
}
