//! Each public call at 65,536 entries: the longest time and the deepest stack over all families.

use crate::measure::time;
use crate::stack::used;
use lists::meshes::{polygon_repeating, Mesh, FAMILIES};
use lists::LIMIT;
use std::hint::black_box;

/// What one call takes at most.
pub struct Most {
    pub call: &'static str,
    /// The family that takes longest, and its milliseconds.
    pub slowest: (String, f64),
    /// Bytes of stack.
    pub stack: usize,
}

/// The meshes of all families at the limit, and the polygon that repeats an index at its end.
fn meshes() -> Vec<(String, Mesh)> {
    let made = FAMILIES
        .iter()
        .map(|family| (family.name.to_string(), (family.make)(LIMIT)));
    let refused = (
        "one polygon, repeat at its end".to_string(),
        polygon_repeating(LIMIT),
    );
    made.chain([refused]).collect()
}

const CALLS: [&str; 7] = ["check", "edge", "classes", "cut", "read", "write", "face"];

/// One call of the product on a mesh and its text, with buffers of its own.
struct Subject<'a> {
    mesh: &'a Mesh,
    text: Vec<u8>,
    numbers: Vec<i32>,
    map: Vec<i32>,
    classes: Vec<u8>,
    work: Vec<u32>,
}

impl<'a> Subject<'a> {
    fn new(mesh: &'a Mesh) -> Subject<'a> {
        let length = mesh.list.len();
        let mut text = vec![0; 2 + 13 * length];
        let written = second::write(&mesh.list, &mut text)[2] as usize;
        text.truncate(written);
        Subject {
            mesh,
            text,
            numbers: vec![0; length],
            map: vec![0; length],
            classes: vec![0; mesh.n as usize],
            work: vec![0; 4 * length],
        }
    }

    fn call(&mut self, name: &str) {
        let Mesh { list, n } = self.mesh;
        let (numbers, work) = (&mut self.numbers, &mut self.work);
        let code = match name {
            "check" => product::check(list, *n)[0],
            "edge" => product::edge(list, *n, 0, 1)[0],
            "classes" => product::classes(list, *n, &mut self.classes, work)[0],
            "cut" => product::cut(list, *n, numbers, &mut self.map, work)[0],
            "read" => product::read(&self.text, numbers)[0],
            "write" => product::write(list, &mut self.text)[0],
            _ => product::face(list, LIMIT as u64)[0],
        };
        black_box(code);
    }
}

/// The most that each call takes.
pub fn most() -> Vec<Most> {
    let meshes = meshes();
    CALLS.map(|call| most_of(call, &meshes)).into()
}

fn most_of(call: &'static str, meshes: &[(String, Mesh)]) -> Most {
    let mut slowest = (String::new(), 0.0);
    let mut stack = 0;
    for (name, mesh) in meshes {
        let mut subject = Subject::new(mesh);
        stack = stack.max(used(&mut || subject.call(call)));
        let milliseconds = time(|| subject.call(call)).least / 1e6;
        if slowest.1 < milliseconds {
            slowest = (name.clone(), milliseconds);
        }
    }
    Most {
        call,
        slowest,
        stack,
    }
}
