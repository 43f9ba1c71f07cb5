//! What the program prints for an input.

use crate::text::{entries, text_of};
use crate::{cut, refusal, refused};

const MOST_BYTES: usize = 16_384;
const MOST_ENTRIES: usize = 1_024;

/// The vertex count that the program takes: the greatest entry plus one, 0 if none is above -1.
fn vertex_count(list: &[i32]) -> u64 {
    let greatest = list.iter().copied().max().unwrap_or(-1).max(-1);
    (i64::from(greatest) + 1) as u64
}

/// The seven numbers as one line.
fn line(numbers: [u64; 7]) -> String {
    let words: Vec<String> = numbers.iter().map(u64::to_string).collect();
    words.join(" ") + "\n"
}

/// Everything printed for an input.
pub fn program(input: &[u8]) -> Vec<u8> {
    printed(input).into_bytes()
}

fn printed(input: &[u8]) -> String {
    if MOST_BYTES < input.len() {
        return line(refused(refusal(14, MOST_BYTES)));
    }
    let list = match entries(input, MOST_ENTRIES) {
        Err(refusal) => return line(refused(refusal)),
        Ok(list) => list,
    };
    let mut new_list = vec![0; list.len()];
    let mut map = vec![0; list.len()];
    let mut work = vec![0; 4 * list.len()];
    let n = vertex_count(&list);
    let numbers = cut(&list, n, &mut new_list, &mut map, &mut work);
    if numbers[0] != 0 {
        return line(numbers);
    }
    map.truncate(numbers[4] as usize);
    line(numbers) + &text_of(&new_list) + "\n" + &text_of(&map) + "\n"
}
