//! The limits, the faces of a list, the check, showing one face.

use crate::{refusal, refused, Refusal};
use std::collections::BTreeSet;

/// The most entries of a list, and the greatest vertex count.
pub const LIMIT: usize = 65_536;

const END: i32 = -1;

/// One face of a list: where it starts, and its entries without the -1.
#[derive(Clone, Copy)]
pub struct Face<'a> {
    pub start: usize,
    pub entries: &'a [i32],
}

/// The faces of any list: the runs between entries of -1, a last run only if it isn't empty.
pub fn faces(list: &[i32]) -> Vec<Face<'_>> {
    let mut start = 0;
    let mut faces = Vec::new();
    for entries in list.split(|&entry| entry == END) {
        faces.push(Face { start, entries });
        start += entries.len() + 1;
    }
    if faces.last().is_some_and(|last| last.entries.is_empty()) {
        faces.pop();
    }
    faces
}

/// The position of the first entry of a face that is below -1 or at least n.
fn out_of_range(face: Face, n: u64) -> Option<usize> {
    let outside = |&entry: &i32| u64::try_from(entry).map_or(true, |index| n <= index);
    face.entries
        .iter()
        .position(outside)
        .map(|i| face.start + i)
}

/// The position of the first entry of a face that is equal to an earlier one.
fn repeat(face: Face) -> Option<usize> {
    let mut earlier = BTreeSet::new();
    let known = |entry: &i32| !earlier.insert(*entry);
    face.entries.iter().position(known).map(|i| face.start + i)
}

/// What is wrong with a face: 3 before 4 before 5.
fn fault(face: Face, n: u64) -> Option<Refusal> {
    if let Some(place) = out_of_range(face, n) {
        return Some(refusal(3, place));
    }
    if face.entries.len() < 3 {
        return Some(refusal(4, face.start));
    }
    repeat(face).map(|place| refusal(5, place))
}

/// The faces of a list that passes codes 1 to 5, or the refusal.
pub fn checked(list: &[i32], n: u64) -> Result<Vec<Face<'_>>, Refusal> {
    if LIMIT < list.len() {
        return Err(refusal(1, 0));
    }
    if (LIMIT as u64) < n {
        return Err(refusal(2, 0));
    }
    let faces = faces(list);
    match faces.iter().find_map(|&face| fault(face, n)) {
        Some(refusal) => Err(refusal),
        None => Ok(faces),
    }
}

/// The corner count of some faces.
pub fn corner_count(faces: &[Face]) -> usize {
    faces.iter().map(|face| face.entries.len()).sum()
}

/// The check: code, place, faces, corners.
pub fn check(list: &[i32], n: u64) -> [u64; 4] {
    match checked(list, n) {
        Err(refusal) => refused(refusal),
        Ok(faces) => [0, 0, faces.len() as u64, corner_count(&faces) as u64],
    }
}

/// Where face k of any list starts and ends; the empty part at the list's start if there is none.
pub fn face(list: &[i32], k: u64) -> [u64; 2] {
    let faces = faces(list);
    let found = usize::try_from(k).ok().and_then(|k| faces.get(k));
    found.map_or([0, 0], |face| {
        [face.start as u64, (face.start + face.entries.len()) as u64]
    })
}
