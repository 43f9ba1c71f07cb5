//! The cut with a `HashMap` of edges, a `HashSet` of each face's indices and union-find, as a good
//! Rust programmer would first write it.

use crate::LIMIT;
use std::collections::{HashMap, HashSet};

/// A refusal: its code and its place.
#[derive(Debug, PartialEq, Eq)]
pub struct Refusal {
    pub code: u64,
    pub place: usize,
}

/// An accepted cut.
pub struct Cut {
    pub new_list: Vec<i32>,
    pub map: Vec<i32>,
    pub faces: usize,
    pub singular_edges: usize,
    pub singular_vertices: usize,
}

/// A corner: its vertex and the next corner of its face.
struct Corner {
    vertex: i32,
    next: usize,
}

/// Groups of corners; a parent is never above its child.
struct Groups {
    parent: Vec<usize>,
}

impl Groups {
    fn new(count: usize) -> Groups {
        Groups {
            parent: (0..count).collect(),
        }
    }

    fn root(&mut self, mut x: usize) -> usize {
        while self.parent[x] != x {
            self.parent[x] = self.parent[self.parent[x]];
            x = self.parent[x];
        }
        x
    }

    fn join(&mut self, x: usize, y: usize) {
        let (x, y) = (self.root(x), self.root(y));
        self.parent[x.max(y)] = x.min(y);
    }
}

/// The corners of a checked list and its number of faces, or the refusal by 1 to 5.
fn corners_of(list: &[i32], n: usize) -> Result<(Vec<Corner>, usize), Refusal> {
    if list.len() > LIMIT {
        return Err(Refusal { code: 1, place: 0 });
    }
    if n > LIMIT {
        return Err(Refusal { code: 2, place: 0 });
    }
    let mut corners = Vec::with_capacity(list.len());
    let mut seen = HashSet::new();
    let mut faces = 0;
    let mut start = 0;
    while start < list.len() {
        let rest = &list[start..];
        let length = rest.iter().position(|&entry| entry == -1);
        let face = &rest[..length.unwrap_or(rest.len())];
        check_face(face, start, n, &mut seen)?;
        let first = corners.len();
        for (i, &vertex) in face.iter().enumerate() {
            let next = first + (i + 1) % face.len();
            corners.push(Corner { vertex, next });
        }
        faces += 1;
        start += face.len() + 1;
    }
    Ok((corners, faces))
}

/// Refuses a face by 3, 4 or 5; `seen` is only lent for its room.
fn check_face(
    face: &[i32],
    start: usize,
    n: usize,
    seen: &mut HashSet<i32>,
) -> Result<(), Refusal> {
    let outside = |&entry: &i32| entry < 0 || entry as usize >= n;
    if let Some(i) = face.iter().position(outside) {
        let place = start + i;
        return Err(Refusal { code: 3, place });
    }
    if face.len() < 3 {
        let place = start;
        return Err(Refusal { code: 4, place });
    }
    seen.clear();
    if let Some(i) = face.iter().position(|&vertex| !seen.insert(vertex)) {
        let place = start + i;
        return Err(Refusal { code: 5, place });
    }
    Ok(())
}

/// The corners at which each edge is used.
fn edges_of(corners: &[Corner]) -> HashMap<(i32, i32), Vec<usize>> {
    let mut edges: HashMap<(i32, i32), Vec<usize>> = HashMap::new();
    for (corner, &Corner { vertex, next }) in corners.iter().enumerate() {
        let other = corners[next].vertex;
        let edge = (vertex.min(other), vertex.max(other));
        edges.entry(edge).or_default().push(corner);
    }
    edges
}

/// Joins the corners at both endpoints of a regular edge.
fn join_across(groups: &mut Groups, corners: &[Corner], a: usize, b: usize) {
    let (a_next, b_next) = (corners[a].next, corners[b].next);
    if corners[a].vertex == corners[b].vertex {
        groups.join(a, b);
        groups.join(a_next, b_next);
    } else {
        groups.join(a, b_next);
        groups.join(a_next, b);
    }
}

/// The cut of a list on n vertices.
pub fn cut(list: &[i32], n: usize) -> Result<Cut, Refusal> {
    let (corners, faces) = corners_of(list, n)?;
    let edges = edges_of(&corners);
    let mut groups = Groups::new(corners.len());
    let mut is_singular = vec![false; n];
    let mut singular_edges = 0;
    for (&(low, high), uses) in &edges {
        match uses[..] {
            [_] => {}
            [a, b] => join_across(&mut groups, &corners, a, b),
            _ => {
                singular_edges += 1;
                is_singular[low as usize] = true;
                is_singular[high as usize] = true;
            }
        }
    }
    let mut number = vec![0; corners.len()];
    let mut map = Vec::new();
    let mut fans = vec![0; n];
    for corner in 0..corners.len() {
        let root = groups.root(corner);
        if root == corner {
            let vertex = corners[corner].vertex;
            number[corner] = map.len() as i32;
            map.push(vertex);
            fans[vertex as usize] += 1;
        } else {
            number[corner] = number[root];
        }
    }
    let mut numbers = number.iter();
    let new_list = list
        .iter()
        .map(|&entry| {
            if entry == -1 {
                -1
            } else {
                *numbers.next().unwrap()
            }
        })
        .collect();
    let singular_vertices = (0..n).filter(|&v| is_singular[v] || fans[v] > 1).count();
    Ok(Cut {
        new_list,
        map,
        faces,
        singular_edges,
        singular_vertices,
    })
}
