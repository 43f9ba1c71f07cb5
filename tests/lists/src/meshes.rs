//! Families of meshes. Each makes the largest mesh of its kind with at most the entries asked for.

use crate::chance::Chance;
use crate::LIMIT;
use std::collections::BTreeMap;

/// A list with its vertex count.
#[derive(Clone)]
pub struct Mesh {
    pub list: Vec<i32>,
    pub n: u64,
}

/// What a family is for in the benchmark.
#[derive(Clone, Copy, PartialEq, Eq)]
pub enum Kind {
    /// A mesh as exports have them, or as the paper names them.
    Ordinary,
    /// Made so that many edges fall together in some table or digit.
    Collide,
}

/// A family of meshes.
pub struct Family {
    pub name: &'static str,
    pub kind: Kind,
    pub make: fn(usize) -> Mesh,
}

/// All families, in the order in which they are shown.
pub const FAMILIES: [Family; 18] = [
    ordinary("torus", torus),
    ordinary("torus, shuffled", torus_shuffled),
    ordinary("torus, sparse numbers", torus_sparse),
    ordinary("grid of quads", grid),
    ordinary("voxel bodies", voxels),
    ordinary("Möbius strip", moebius),
    ordinary("fan", fan),
    ordinary("fan, shuffled", fan_shuffled),
    ordinary("unlucky fan", unlucky_fan),
    ordinary("book", book),
    ordinary("prisms, 40 sides", prisms_short),
    ordinary("prisms, 1,000 sides", prisms_long),
    ordinary("one polygon", polygon),
    ordinary("random soup", soup),
    ordinary("loose faces", loose),
    collide("same low byte", same_low_byte),
    collide("same sum", same_sum),
    collide("same exclusive or", same_xor),
];

const fn ordinary(name: &'static str, make: fn(usize) -> Mesh) -> Family {
    Family {
        name,
        kind: Kind::Ordinary,
        make,
    }
}

const fn collide(name: &'static str, make: fn(usize) -> Mesh) -> Family {
    Family {
        name,
        kind: Kind::Collide,
        make,
    }
}

/// The list of some faces, each ended by -1.
pub fn list_of(faces: &[Vec<i32>]) -> Vec<i32> {
    let ended = |face: &Vec<i32>| face.iter().copied().chain([-1]).collect::<Vec<i32>>();
    faces.iter().flat_map(ended).collect()
}

/// The vertex count as the program takes it: the greatest entry plus one.
pub fn tight(list: &[i32]) -> u64 {
    let greatest = list.iter().copied().max().unwrap_or(-1).max(-1);
    (i64::from(greatest) + 1) as u64
}

fn mesh(faces: &[Vec<i32>]) -> Mesh {
    let list = list_of(faces);
    let n = tight(&list);
    Mesh { list, n }
}

/// The faces of a list that passes the check.
fn faces_of(list: &[i32]) -> Vec<Vec<i32>> {
    let faces = list.split(|&entry| entry == -1).map(<[i32]>::to_vec);
    faces.filter(|face| !face.is_empty()).collect()
}

/// Other numbers for the vertices, each once, from 0 to `numbers`-1.
fn renumber(mesh: &Mesh, numbers: usize, chance: &mut Chance) -> Mesh {
    let mut new: Vec<i32> = (0..numbers as i32).collect();
    chance.shuffle(&mut new);
    let renew = |&entry: &i32| {
        if entry < 0 {
            entry
        } else {
            new[entry as usize]
        }
    };
    Mesh {
        list: mesh.list.iter().map(renew).collect(),
        n: numbers as u64,
    }
}

/// The same faces in another order, some turned round, from other corners, the vertices renumbered.
pub fn shuffled(mesh: &Mesh, seed: u64) -> Mesh {
    let mut chance = Chance::new(seed);
    let mut faces = faces_of(&mesh.list);
    chance.shuffle(&mut faces);
    for face in &mut faces {
        let first = chance.below(face.len());
        face.rotate_left(first);
        if chance.once_in(2) {
            face.reverse();
        }
    }
    let list = list_of(&faces);
    renumber(&Mesh { list, n: mesh.n }, mesh.n as usize, &mut chance)
}

/// The sides of the largest near-square of `cells` cells, each side at least `least`.
fn sides(cells: usize, least: usize) -> (usize, usize) {
    let width = ((cells as f64).sqrt() as usize).max(least);
    (width, (cells / width).max(least))
}

/// A torus of three-cornered faces: closed, every edge regular.
pub fn torus(entries: usize) -> Mesh {
    let (width, height) = sides(entries / 8, 3);
    let at = |x: usize, y: usize| (y % height * width + x % width) as i32;
    let mut faces = Vec::new();
    for y in 0..height {
        for x in 0..width {
            let [a, b, c, d] = [at(x, y), at(x + 1, y), at(x + 1, y + 1), at(x, y + 1)];
            faces.push(vec![a, b, c]);
            faces.push(vec![a, c, d]);
        }
    }
    mesh(&faces)
}

fn torus_shuffled(entries: usize) -> Mesh {
    shuffled(&torus(entries), 1)
}

/// A torus whose vertex numbers are spread over all that are permitted, so that n is above the corner count.
fn torus_sparse(entries: usize) -> Mesh {
    renumber(&torus(entries), LIMIT, &mut Chance::new(2))
}

/// A grid of quads with a rim.
pub fn grid(entries: usize) -> Mesh {
    let (width, height) = sides(entries / 5, 1);
    let at = |x: usize, y: usize| (y * (width + 1) + x) as i32;
    let mut faces = Vec::new();
    for y in 0..height {
        for x in 0..width {
            faces.push(vec![at(x, y), at(x + 1, y), at(x + 1, y + 1), at(x, y + 1)]);
        }
    }
    mesh(&faces)
}

/// The four vertices of the side of a voxel that looks along `axis`, to the front or back.
fn voxel_side(cell: [usize; 3], axis: usize, front: bool) -> [[usize; 3]; 4] {
    let (u, v) = ((axis + 1) % 3, (axis + 2) % 3);
    let mut corner = cell;
    corner[axis] += usize::from(front);
    let step = |du: usize, dv: usize| {
        let mut vertex = corner;
        vertex[u] += du;
        vertex[v] += dv;
        vertex
    };
    [step(0, 0), step(1, 0), step(1, 1), step(0, 1)]
}

/// Bodies of voxels, filled at random, of which only the outer sides remain: edges with four faces
/// where two voxels meet along an edge, and bodies that touch in a vertex.
pub fn voxels(entries: usize) -> Mesh {
    // with two cells of five filled a cell has about 1.44 outer sides of 5 entries, more at the rim
    let side = (entries as f64 / 7.9).cbrt().max(2.0) as usize;
    let mut chance = Chance::new(19);
    let filled: Vec<bool> = (0..side * side * side)
        .map(|_| chance.below(5) < 2)
        .collect();
    let is_filled = |cell: [usize; 3]| {
        cell.iter().all(|&x| x < side) && filled[(cell[2] * side + cell[1]) * side + cell[0]]
    };
    let mut numbers: BTreeMap<[usize; 3], i32> = BTreeMap::new();
    let mut faces = Vec::new();
    for i in (0..side * side * side).filter(|&i| filled[i]) {
        let cell = [i % side, i / side % side, i / side / side];
        for axis in 0..3 {
            for front in [false, true] {
                let mut neighbour = cell;
                neighbour[axis] = neighbour[axis].wrapping_add(if front { 1 } else { usize::MAX });
                if is_filled(neighbour) || entries < (faces.len() + 1) * 5 {
                    continue;
                }
                let face = voxel_side(cell, axis, front).map(|vertex| {
                    let next = numbers.len() as i32;
                    *numbers.entry(vertex).or_insert(next)
                });
                faces.push(face.to_vec());
            }
        }
    }
    mesh(&faces)
}

/// A Möbius strip of quads.
pub fn moebius(entries: usize) -> Mesh {
    let count = (entries / 5).max(3) as i32;
    // one rim of both sides: position i and position i + count face each other
    let at = |i: i32| i % (2 * count);
    let quad = |i: i32| vec![at(i), at(i + 1), at(i + 1 + count), at(i + count)];
    mesh(&(0..count).map(quad).collect::<Vec<_>>())
}

/// The faces of a fan round vertex 0, from one end to the other.
fn fan_faces(count: usize) -> Vec<Vec<i32>> {
    let face = |i: i32| vec![0, i + 1, i + 2];
    (0..count as i32).map(face).collect()
}

/// A fan of faces round one vertex, as many as 16,384; its two ends are rims.
pub fn fan(entries: usize) -> Mesh {
    mesh(&fan_faces(entries / 4))
}

fn fan_shuffled(entries: usize) -> Mesh {
    shuffled(&fan(entries), 4)
}

/// A fan in an order that makes long chains of parents. Round the vertex stand x_k r_k y_k x_k+1;
/// the list has the roots r_m .. r_1, then y_1 .. y_m, then x_1 .. x_m.
pub fn unlucky_fan(entries: usize) -> Mesh {
    let m = entries / 12;
    let round = fan_faces(3 * m);
    let mut faces = Vec::new();
    faces.extend((0..m).rev().map(|k| round[3 * k + 1].clone()));
    faces.extend((0..m).map(|k| round[3 * k + 2].clone()));
    faces.extend((0..m).map(|k| round[3 * k].clone()));
    mesh(&faces)
}

/// A book: all faces on one edge.
pub fn book(entries: usize) -> Mesh {
    let page = |i: i32| vec![0, 1, i + 2];
    mesh(&(0..(entries / 4) as i32).map(page).collect::<Vec<_>>())
}

/// One prism from vertex `first` on: bottom, top and a quad for each side.
fn prism(first: i32, count: i32) -> Vec<Vec<i32>> {
    let mut faces = vec![
        (first..first + count).rev().collect(),
        (first + count..first + 2 * count).collect(),
    ];
    for i in 0..count {
        let j = (i + 1) % count;
        let quad = [i, j, j + count, i + count];
        faces.push(quad.map(|vertex| first + vertex).to_vec());
    }
    faces
}

/// Prisms of `count` sides, as many as fit, at least one, of fewer sides if none fits.
fn prisms(entries: usize, count: usize) -> Mesh {
    let entries_of = |count: usize| 2 * (count + 1) + 5 * count;
    let count = count.min((entries - 2) / 7).max(3);
    let prisms = (entries / entries_of(count)).max(1);
    let one = |k: usize| prism((2 * count * k) as i32, count as i32);
    mesh(&(0..prisms).flat_map(one).collect::<Vec<_>>())
}

fn prisms_short(entries: usize) -> Mesh {
    prisms(entries, 40)
}

fn prisms_long(entries: usize) -> Mesh {
    prisms(entries, 1_000)
}

/// One polygon of all entries, without a final -1.
pub fn polygon(entries: usize) -> Mesh {
    let list: Vec<i32> = (0..entries as i32).collect();
    let n = entries as u64;
    Mesh { list, n }
}

/// One polygon of all entries whose last entry repeats the one before.
pub fn polygon_repeating(entries: usize) -> Mesh {
    let mut mesh = polygon(entries);
    mesh.list[entries - 1] = mesh.list[entries - 2];
    mesh
}

/// Random three-cornered faces, about six at a vertex, so that edges of all kinds are met.
pub fn soup(entries: usize) -> Mesh {
    soup_on(entries, (entries / 8).max(4), 5)
}

/// Random three-cornered faces on `n` vertices; neighbours in number meet more often.
fn soup_on(entries: usize, n: usize, seed: u64) -> Mesh {
    let mut chance = Chance::new(seed);
    let near = n.min(8);
    let mut faces = Vec::new();
    while faces.len() < entries / 4 {
        let first = chance.below(n);
        let face = [0; 3].map(|_| ((first + chance.below(near)) % n) as i32);
        if face[0] != face[1] && face[1] != face[2] && face[2] != face[0] {
            faces.push(face.to_vec());
        }
    }
    let mut mesh = mesh(&faces);
    mesh.n = n as u64;
    mesh
}

/// Faces that have nothing in common.
pub fn loose(entries: usize) -> Mesh {
    let face = |i: i32| vec![3 * i, 3 * i + 1, 3 * i + 2];
    mesh(&(0..(entries / 4) as i32).map(face).collect::<Vec<_>>())
}

/// Random faces on the multiples of 256: every index, and so every edge, has the same low byte.
fn same_low_byte(entries: usize) -> Mesh {
    let mut mesh = soup_on(entries, 256, 6);
    for entry in mesh.list.iter_mut().filter(|entry| 0 <= **entry) {
        *entry *= 256;
    }
    mesh.n = LIMIT as u64;
    mesh
}

/// A strip of quads between the numbers from below and the numbers from above: the indices of every
/// edge add up to nearly the same.
fn same_sum(entries: usize) -> Mesh {
    let count = (entries / 5) as i32;
    let high = 2 * count + 1;
    let quad = |i: i32| vec![i, high - i, high - i - 1, i + 1];
    mesh(&(0..count).map(quad).collect::<Vec<_>>())
}

/// A strip of faces between i and i with all its bits turned: an edge's indices differ in every
/// bit, or in the lowest alone.
fn same_xor(entries: usize) -> Mesh {
    let turned = |i: i32| i ^ (LIMIT as i32 - 1);
    let face = |k: i32| {
        let (i, pair) = (k / 2 * 2, k % 2 == 0);
        let last = if pair { turned(i + 1) } else { turned(i) };
        vec![i, i + 1, last]
    };
    let mut mesh = mesh(&(0..(entries / 4) as i32).map(face).collect::<Vec<_>>());
    mesh.n = LIMIT as u64;
    mesh
}
