//! The edge question, the class call and the cut, with what they leave in the lent buffers.

use crate::faces::{checked, corner_count, Face};
use crate::surface::Surface;
use crate::{refusal, refused, Refusal};

const WORK_WORDS_A_CORNER: usize = 4;

/// Refuses a buffer that is shorter than needed.
fn long_enough(code: u64, length: usize, needed: usize) -> Result<(), Refusal> {
    if length < needed {
        return Err(refusal(code, needed));
    }
    Ok(())
}

/// The edge question: code, place, faces.
pub fn edge(list: &[i32], n: u64, a: i32, b: i32) -> [u64; 3] {
    let faces = match checked(list, n) {
        Err(refusal) => return refused(refusal),
        Ok(faces) => faces,
    };
    let vertices = 0..n as i64;
    if a == b || !vertices.contains(&a.into()) || !vertices.contains(&b.into()) {
        return refused(refusal(10, 0));
    }
    let faces_on = faces.iter().filter(|face| has_edge(face, a, b)).count();
    [0, 0, faces_on as u64]
}

/// Whether two indices are neighbours in a face, its last corner being a neighbour of its first.
fn has_edge(face: &Face, a: i32, b: i32) -> bool {
    let next = face.entries.iter().cycle().skip(1);
    let mut pairs = face.entries.iter().zip(next);
    pairs.any(|(&one, &other)| (one, other) == (a, b) || (other, one) == (a, b))
}

/// The classes of all vertices, or the refusal, and how much of work the call needs.
fn classes_of(
    list: &[i32],
    n: u64,
    classes_len: usize,
    work_len: usize,
) -> Result<(Vec<u8>, usize), Refusal> {
    let faces = checked(list, n)?;
    let work_needed = WORK_WORDS_A_CORNER * corner_count(&faces);
    long_enough(8, classes_len, n as usize)?;
    long_enough(9, work_len, work_needed)?;
    let surface = Surface::new(&faces);
    Ok((surface.classes(&surface.fans(), n), work_needed))
}

/// The class call: code, place.
pub fn classes(list: &[i32], n: u64, classes: &mut [u8], work: &mut [u32]) -> [u64; 2] {
    match classes_of(list, n, classes.len(), work.len()) {
        Err(refusal) => refused(refusal),
        Ok((class_of, work_needed)) => {
            classes[..class_of.len()].copy_from_slice(&class_of);
            work[..work_needed].fill(0);
            [0, 0]
        }
    }
}

/// What an accepted cut gives back and writes.
struct Cut {
    new_list: Vec<i32>,
    map: Vec<i32>,
    work_needed: usize,
    answer: [u64; 7],
}

/// The new list: -1 at the same positions, at each corner the number of its fan.
fn renumbered(list: &[i32], fan_of: &[usize]) -> Vec<i32> {
    let mut fan = fan_of.iter();
    let renumber = |&entry: &i32| match entry {
        -1 => -1,
        _ => *fan.next().expect("a fan for each corner") as i32,
    };
    list.iter().map(renumber).collect()
}

/// The cut of a list, or the refusal, from the lengths of the lent buffers.
fn cut_of(
    list: &[i32],
    n: u64,
    new_len: usize,
    map_len: usize,
    work_len: usize,
) -> Result<Cut, Refusal> {
    let faces = checked(list, n)?;
    let corners = corner_count(&faces);
    let work_needed = WORK_WORDS_A_CORNER * corners;
    long_enough(6, new_len, list.len())?;
    long_enough(7, map_len, corners)?;
    long_enough(9, work_len, work_needed)?;
    let surface = Surface::new(&faces);
    let fans = surface.fans();
    let classes = surface.classes(&fans, n);
    let singular_vertices = classes.iter().filter(|&&class| 2 < class).count();
    let numbers = [
        faces.len(),
        corners,
        fans.vertex_of.len(),
        surface.singular_edges(),
        singular_vertices,
    ];
    let mut answer = [0; 7];
    for (to, from) in answer[2..].iter_mut().zip(numbers) {
        *to = from as u64;
    }
    Ok(Cut {
        new_list: renumbered(list, &fans.fan_of),
        map: fans.vertex_of,
        work_needed,
        answer,
    })
}

/// The cut: code, place, faces, corners, new vertices, singular edges, singular vertices.
pub fn cut(
    list: &[i32],
    n: u64,
    new_list: &mut [i32],
    map: &mut [i32],
    work: &mut [u32],
) -> [u64; 7] {
    match cut_of(list, n, new_list.len(), map.len(), work.len()) {
        Err(refusal) => refused(refusal),
        Ok(cut) => {
            new_list[..cut.new_list.len()].copy_from_slice(&cut.new_list);
            map[..cut.map.len()].copy_from_slice(&cut.map);
            work[..cut.work_needed].fill(0);
            cut.answer
        }
    }
}
