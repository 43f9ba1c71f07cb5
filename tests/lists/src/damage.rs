//! Small lists of all kinds, valid and damaged.

use crate::chance::Chance;
use crate::meshes::{list_of, tight, Mesh, FAMILIES};
use crate::LIMIT;

/// The list that a seed stands for.
pub fn random_list(chance: &mut Chance) -> Vec<i32> {
    let mut list = match chance.below(20) {
        0..=8 => small_faces(chance),
        9..=10 => any_entries(chance),
        11..=14 => glued(chance),
        15..=16 => long_faces(chance),
        17 => wide_faces(chance),
        _ => piece_of_family(chance),
    };
    if chance.once_in(3) {
        for _ in 0..chance.between(1, 3) {
            damage(&mut list, chance);
        }
    }
    if chance.once_in(4) {
        other_end(&mut list, chance);
    }
    list
}

/// A face of `corners` different indices below `n`.
fn face(corners: usize, n: usize, chance: &mut Chance) -> Vec<i32> {
    let mut indices: Vec<i32> = (0..n as i32).collect();
    chance.shuffle(&mut indices);
    indices.truncate(corners);
    indices
}

/// Faces on so few vertices that their edges meet, often three and more on one.
fn small_faces(chance: &mut Chance) -> Vec<i32> {
    let n = chance.between(3, 9);
    let count = chance.between(0, 12);
    let mut faces: Vec<Vec<i32>> = Vec::new();
    for _ in 0..count {
        if !faces.is_empty() && chance.once_in(4) {
            let known = faces[chance.below(faces.len())].clone();
            faces.push(neighbour(known, n, chance));
            continue;
        }
        let most = if chance.once_in(5) { n } else { n.min(4) };
        let corners = chance.between(3, most);
        faces.push(face(corners, n, chance));
    }
    list_of(&faces)
}

/// A face like a known one, turned, reversed, or with one other corner.
fn neighbour(mut face: Vec<i32>, n: usize, chance: &mut Chance) -> Vec<i32> {
    let first = chance.below(face.len());
    face.rotate_left(first);
    if chance.once_in(2) {
        face.reverse();
    }
    if chance.once_in(2) {
        let other = chance.below(n) as i32;
        if !face.contains(&other) {
            face[0] = other;
        }
    }
    face
}

/// Entries as they come, ends among them.
fn any_entries(chance: &mut Chance) -> Vec<i32> {
    let alphabet = chance.between(1, 6);
    let length = chance.below(20);
    let entry = |_| match chance.below(4) {
        0 => -1,
        _ => chance.below(alphabet) as i32,
    };
    (0..length).map(entry).collect()
}

/// Small bodies that share some of their vertices: they touch, or lie on one edge.
fn glued(chance: &mut Chance) -> Vec<i32> {
    const BODIES: [&[i32]; 5] = [
        &[0, 1, 2, -1, 0, 3, 1, -1, 0, 2, 3, -1, 1, 3, 2, -1],
        &[0, 1, 2, -1, 0, 2, 1, -1],
        &[0, 1, 4, 3, -1, 1, 2, 5, 4, -1, 2, 3, 0, 5, -1],
        &[0, 1, 2, -1, 0, 2, 3, -1, 0, 3, 4, -1, 0, 4, 1, -1],
        &[
            0, 1, 2, 3, -1, 0, 1, 5, 4, -1, 1, 2, 6, 5, -1, 2, 3, 7, 6, -1, 3, 0, 4, 7, -1, 4, 5,
            6, 7, -1,
        ],
    ];
    let mut list: Vec<i32> = Vec::new();
    for _ in 0..chance.between(1, 4) {
        let first = tight(&list) as i32;
        let body = chance.one_of(&BODIES);
        list.extend(
            body.iter()
                .map(|&entry| if entry < 0 { entry } else { entry + first }),
        );
    }
    let n = tight(&list) as usize;
    for _ in 0..chance.between(0, 3) {
        let (gone, kept) = (chance.below(n) as i32, chance.below(n) as i32);
        for entry in list.iter_mut().filter(|entry| **entry == gone) {
            *entry = kept;
        }
    }
    list
}

/// Faces about as long as those where a search for repeats changes its way.
fn long_faces(chance: &mut Chance) -> Vec<i32> {
    const LENGTHS: [usize; 16] = [
        3, 15, 16, 31, 33, 63, 64, 65, 99, 100, 101, 102, 127, 128, 129, 260,
    ];
    let n = chance.between(LENGTHS[15], 300);
    let count = chance.between(1, 4);
    let some = |_| face(chance.one_of(&LENGTHS), n, chance);
    let mut list = list_of(&(0..count).map(some).collect::<Vec<_>>());
    if chance.once_in(2) {
        let (to, from) = (chance.below(list.len()), chance.below(list.len()));
        list[to] = list[from];
    }
    list
}

/// Faces on indices all over the range, with digits in common.
fn wide_faces(chance: &mut Chance) -> Vec<i32> {
    const INDICES: [i32; 12] = [
        0, 1, 255, 256, 257, 511, 512, 4_096, 32_767, 32_768, 65_280, 65_535,
    ];
    let count = chance.between(1, 10);
    let some = |_| {
        let corners = chance.between(3, 5);
        let places = face(corners, INDICES.len(), chance);
        places.iter().map(|&i| INDICES[i as usize]).collect()
    };
    list_of(&(0..count).map(some).collect::<Vec<Vec<i32>>>())
}

/// A small mesh of one of the families.
fn piece_of_family(chance: &mut Chance) -> Vec<i32> {
    let family = &FAMILIES[chance.below(FAMILIES.len())];
    let entries = chance.between(72, 160);
    (family.make)(entries).list
}

/// One fault, or what looks like one.
fn damage(list: &mut Vec<i32>, chance: &mut Chance) {
    const ENTRIES: [i32; 8] = [-1, -1, -2, 0, 1, i32::MIN, i32::MAX, 65_536];
    let at = chance.below(list.len() + 1);
    let known = match list.len() {
        0 => 0,
        length => list[chance.below(length)],
    };
    let entry = match chance.below(6) {
        0..=2 => known,
        3 => tight(list) as i32,
        _ => chance.one_of(&ENTRIES),
    };
    match chance.below(4) {
        0 => list.insert(at, entry),
        1 if at < list.len() => drop(list.remove(at)),
        _ if at < list.len() => list[at] = entry,
        _ => list.push(entry),
    }
}

/// Another end of the list: without its -1, or with one more.
fn other_end(list: &mut Vec<i32>, chance: &mut Chance) {
    if chance.once_in(5) {
        list.push(-1);
    } else if list.last() == Some(&-1) {
        list.pop();
    }
}

/// A vertex count for a list: mostly the one that fits, or above it, or at the limits and past them.
pub fn random_count(list: &[i32], chance: &mut Chance) -> u64 {
    const LARGE: [u64; 8] = [
        65_535,
        65_536,
        65_537,
        131_072,
        1 << 31,
        (1 << 32) + 5,
        1 << 63,
        u64::MAX,
    ];
    let fits = tight(list).min(LIMIT as u64);
    let corners = list.iter().filter(|&&entry| entry != -1).count() as u64;
    match chance.below(16) {
        0..=8 => fits,
        9 => fits.saturating_sub(1),
        10 => fits + chance.below(5) as u64,
        11 => fits.max(corners),
        12 => fits.max(corners + 1),
        13 => fits.max(corners.saturating_sub(1)),
        14 => chance.below(12) as u64,
        _ => chance.one_of(&LARGE),
    }
}

/// A list that is too long, of faces or of anything.
pub fn too_long(chance: &mut Chance) -> Mesh {
    let length = LIMIT + 1 + chance.below(3);
    let entry = chance.one_of(&[-1, 0, 7, i32::MIN]);
    let mut list = match chance.below(2) {
        0 => crate::meshes::loose(length + 4).list,
        _ => vec![entry; length],
    };
    list.resize(length, entry);
    let n = chance.one_of(&[0, 3, 65_536, 65_537]);
    Mesh { list, n }
}
