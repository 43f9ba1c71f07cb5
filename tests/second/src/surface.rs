//! The surface of a checked list: its edges, its fans, the classes of its vertices.

use crate::faces::Face;
use std::collections::{BTreeMap, BTreeSet};

/// An edge: its two indices, the lower one first.
type Edge = (i32, i32);

/// The edge between two indices, whichever way a face runs along it.
fn edge_between(a: i32, b: i32) -> Edge {
    (a.min(b), a.max(b))
}

/// The faces of a checked list, and where to find an edge or a corner in them.
pub struct Surface {
    faces: Vec<Vec<i32>>,
    /// The number of each face's first corner.
    first_corner: Vec<usize>,
    /// For each edge the faces on it, in list order.
    edges: BTreeMap<Edge, Vec<usize>>,
    /// For each face and vertex of it, which corner of that face it is.
    corners: BTreeMap<(usize, i32), usize>,
}

/// The fans of a surface, in the order of their earliest corners.
pub struct Fans {
    /// For each corner its fan.
    pub fan_of: Vec<usize>,
    /// For each fan its vertex.
    pub vertex_of: Vec<i32>,
}

impl Surface {
    /// The surface of the faces of a checked list.
    pub fn new(parts: &[Face]) -> Surface {
        let mut surface = Surface {
            faces: parts.iter().map(|face| face.entries.to_vec()).collect(),
            first_corner: Vec::new(),
            edges: BTreeMap::new(),
            corners: BTreeMap::new(),
        };
        let mut corner = 0;
        for face in 0..surface.faces.len() {
            surface.first_corner.push(corner);
            corner += surface.faces[face].len();
            surface.enter(face);
        }
        surface
    }

    /// Enters the edges and corners of one face.
    fn enter(&mut self, face: usize) {
        let indices = &self.faces[face];
        for (i, &vertex) in indices.iter().enumerate() {
            let next = indices[(i + 1) % indices.len()];
            let faces_on = self.edges.entry(edge_between(vertex, next)).or_default();
            faces_on.push(face);
            self.corners.insert((face, vertex), i);
        }
    }

    /// The number of edges with three or more faces.
    pub fn singular_edges(&self) -> usize {
        self.edges.values().filter(|faces| 2 < faces.len()).count()
    }

    /// The two neighbours of a vertex in a face.
    fn neighbours(&self, face: usize, vertex: i32) -> [i32; 2] {
        let indices = &self.faces[face];
        let (i, count) = (self.corners[&(face, vertex)], indices.len());
        [indices[(i + count - 1) % count], indices[(i + 1) % count]]
    }

    /// The only other face on an edge of a face.
    fn across(&self, edge: Edge, face: usize) -> Option<usize> {
        match self.edges[&edge][..] {
            [one, other] if one == face => Some(other),
            [other, one] if one == face => Some(other),
            _ => None,
        }
    }

    /// Pivots about a vertex from a face over the edge to `toward`, and on over each next edge at
    /// the vertex, until an edge has not two faces or the first face comes again. Answers the
    /// faces reached, and whether the way came round.
    fn pivot(&self, vertex: i32, first: usize, toward: i32) -> (Vec<usize>, bool) {
        let mut reached = Vec::new();
        let (mut face, mut toward) = (first, toward);
        while let Some(next) = self.across(edge_between(vertex, toward), face) {
            if next == first {
                return (reached, true);
            }
            reached.push(next);
            let [one, other] = self.neighbours(next, vertex);
            toward = if one == toward { other } else { one };
            face = next;
        }
        (reached, false)
    }

    /// The faces of the fan of a vertex that has this face.
    fn fan(&self, vertex: i32, face: usize) -> Vec<usize> {
        let [previous, next] = self.neighbours(face, vertex);
        let (mut fan, came_round) = self.pivot(vertex, face, next);
        if !came_round {
            fan.extend(self.pivot(vertex, face, previous).0);
        }
        fan.push(face);
        fan
    }

    /// All fans. Corners are visited in list order; one that no fan has yet opens the next.
    pub fn fans(&self) -> Fans {
        let mut fan_of = vec![usize::MAX; self.corners.len()];
        let mut vertex_of = Vec::new();
        for (face, indices) in self.faces.iter().enumerate() {
            for (i, &vertex) in indices.iter().enumerate() {
                if fan_of[self.first_corner[face] + i] != usize::MAX {
                    continue;
                }
                for member in self.fan(vertex, face) {
                    let corner = self.first_corner[member] + self.corners[&(member, vertex)];
                    fan_of[corner] = vertex_of.len();
                }
                vertex_of.push(vertex);
            }
        }
        Fans { fan_of, vertex_of }
    }

    /// The endpoints of the edges whose number of faces is as asked.
    fn endpoints(&self, asked: impl Fn(usize) -> bool) -> BTreeSet<i32> {
        let edges = self.edges.iter().filter(|(_, faces)| asked(faces.len()));
        edges.flat_map(|(&(low, high), _)| [low, high]).collect()
    }

    /// The classes of the vertices 0 to n-1.
    pub fn classes(&self, fans: &Fans, n: u64) -> Vec<u8> {
        let singular = self.endpoints(|faces| 2 < faces);
        let boundary = self.endpoints(|faces| faces == 1);
        let mut fan_count: BTreeMap<i32, usize> = BTreeMap::new();
        for &vertex in &fans.vertex_of {
            *fan_count.entry(vertex).or_default() += 1;
        }
        let mut classes = vec![0; n as usize];
        for (vertex, count) in fan_count {
            classes[vertex as usize] = if singular.contains(&vertex) {
                3
            } else if 1 < count {
                4
            } else if boundary.contains(&vertex) {
                2
            } else {
                1
            };
        }
        classes
    }
}
