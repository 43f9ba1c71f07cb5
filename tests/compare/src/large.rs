//! The families of meshes to the limits: as they come, shuffled, renumbered, and damaged at the end.

use crate::case::{Call, Case};
use crate::rounds::{list_cases, round_trip};
use crate::tally::Tally;
use lists::chance::Chance;
use lists::meshes::{polygon, polygon_repeating, shuffled, Family, Mesh, FAMILIES};
use lists::LIMIT;

const SIZES: [usize; 4] = [100, 1_000, 10_000, LIMIT];

/// All families in all sizes.
pub fn families(tally: &mut Tally) {
    for entries in SIZES {
        for family in &FAMILIES {
            let origin = format!("family {}, {entries} entries", family.name);
            family_of_size(family, entries, &origin, tally);
        }
    }
}

fn family_of_size(family: &Family, entries: usize, origin: &str, tally: &mut Tally) {
    let mesh = (family.make)(entries);
    let corners = mesh.list.iter().filter(|&&entry| entry != -1).count() as u64;
    accepted(&mesh, origin, tally);
    let mixed = shuffled(&mesh, 8);
    accepted(&mixed, &format!("{origin}, shuffled"), tally);
    // the counts about which the ordering of the edges may go another way
    let counts = [corners, corners + 1, LIMIT as u64];
    let other = counts[mesh.list.len() % 3].clamp(mesh.n, LIMIT as u64);
    let list = mesh.list.clone();
    accepted(
        &Mesh { list, n: other },
        &format!("{origin}, n = {other}"),
        tally,
    );
    for (i, damaged) in damaged(&mesh).iter().enumerate() {
        let mut chance = Chance::new(i as u64);
        tally.count_list();
        for case in list_cases(damaged, mesh.n, &mut chance) {
            tally.try_case(&case, &format!("{origin}, damage {i}"));
        }
    }
}

/// All calls with buffers of exactly the lengths needed, and with work one word short.
fn accepted(mesh: &Mesh, origin: &str, tally: &mut Tally) {
    let Mesh { list, n } = mesh;
    let corners = list.iter().filter(|&&entry| entry != -1).count() as u64;
    let length = list.len() as u64;
    tally.count_list();
    let middle = list.len() / 2;
    let numbers: [(Call, Vec<u64>); 8] = [
        (Call::Check, vec![*n]),
        (
            Call::Edge,
            vec![*n, list[middle] as u64, list[middle - 1] as u64],
        ),
        (Call::Edge, vec![*n, 0, 1]),
        (Call::Classes, vec![*n, *n, 4 * corners]),
        (Call::Classes, vec![*n, *n, 4 * corners - 1]),
        (Call::Cut, vec![*n, length, corners, 4 * corners]),
        (Call::Cut, vec![*n, length, corners, 4 * corners - 1]),
        (Call::Face, vec![length - corners]),
    ];
    for (call, numbers) in numbers {
        tally.try_case(&Case::on_list(call, list, &numbers, length), origin);
    }
    round_trip(list, origin, tally);
}

/// The list with its last corner out of range, repeated, or gone.
fn damaged(mesh: &Mesh) -> [Vec<i32>; 4] {
    let corner = mesh.list.iter().rposition(|&entry| entry != -1);
    let last = corner.expect("a mesh has corners");
    let with = |entry: i32| {
        let mut list = mesh.list.clone();
        list[last] = entry;
        list
    };
    [
        with(mesh.n as i32),
        with(mesh.list[last - 1]),
        with(-1),
        with(-2),
    ]
}

/// One polygon of all entries, with and without a repeat, at each end of it.
pub fn polygons(tally: &mut Tally) {
    for entries in [99, 100, 101, 102, 103, 1_000, LIMIT - 1, LIMIT] {
        let mut lists = vec![polygon(entries).list, polygon_repeating(entries).list];
        for (from, to) in [(0, entries - 1), (entries / 2, entries - 1), (1, 2), (0, 1)] {
            let mut list = polygon(entries).list;
            list[to] = list[from];
            lists.push(list);
        }
        for list in lists {
            tally.count_list();
            for case in list_cases(&list, entries as u64, &mut Chance::new(9)) {
                tally.try_case(&case, &format!("polygon of {entries} entries"));
            }
        }
    }
}
