//! Random lists and texts: one round for each seed, and all of a round follows from its seed.

use crate::case::{Call, Case};
use crate::tally::Tally;
use lists::chance::Chance;
use lists::damage::{random_count, random_list, too_long};
use lists::texts::{random_text, text_of};
use lists::LIMIT;

/// The program is run in one round of so many.
const PROGRAM_EVERY: u64 = 300;

/// A list that is too long is tried in one round of so many.
const TOO_LONG_EVERY: u64 = 2_000;

/// The rounds of all seeds from `seed` on.
pub fn run(seed: u64, count: u64, with_program: bool, tally: &mut Tally) {
    for i in 0..count {
        let seed = seed.wrapping_add(i);
        if tally.is_over() {
            return;
        }
        round(seed, with_program, tally);
    }
}

/// One round.
fn round(seed: u64, with_program: bool, tally: &mut Tally) {
    let origin = format!("seed {seed}; repeat it with: compare {seed} 1");
    let mut chance = Chance::new(seed);
    let list = random_list(&mut chance);
    let n = random_count(&list, &mut chance);
    tally.count_list();
    for case in list_cases(&list, n, &mut chance) {
        tally.try_case(&case, &origin);
    }
    let text = random_text(&list, &mut chance);
    let room = chance.one_of(&[0, 1, 3, 8, list.len(), 400]);
    let garbage = chance.word();
    tally.try_case(
        &Case::on_text(Call::Read, &text, room as u64, garbage),
        &origin,
    );
    round_trip(&list, &origin, tally);
    if seed.is_multiple_of(TOO_LONG_EVERY) {
        let mesh = too_long(&mut chance);
        tally.count_list();
        for case in list_cases(&mesh.list, mesh.n, &mut chance) {
            tally.try_case(&case, &origin);
        }
    }
    if with_program && seed.is_multiple_of(PROGRAM_EVERY) {
        let way = chance.below(3) as u64;
        let valid = text_of(&list, &mut chance);
        for text in [&text, &valid] {
            tally.try_case(&Case::on_text(Call::Program, text, way, 0), &origin);
        }
    }
}

/// A buffer's length about the length needed: exact, long, or short.
fn length(needed: usize, may_be_short: bool, chance: &mut Chance) -> u64 {
    let length = match chance.below(8) {
        0 if may_be_short => 0,
        1 if may_be_short => chance.below(needed + 1),
        2 | 3 if may_be_short => needed.saturating_sub(1),
        4 => needed + 1 + chance.below(9),
        _ => needed,
    };
    length as u64
}

/// An index to ask about: of the list, about its limits, or far away.
fn index(list: &[i32], n: u64, chance: &mut Chance) -> u64 {
    const FAR: [i32; 6] = [-1, -2, i32::MIN, i32::MAX, 65_535, 65_536];
    let index = match chance.below(10) {
        0 => n as i32,
        1 => (n as i32).wrapping_sub(1),
        2 => chance.one_of(&FAR),
        _ if list.is_empty() => chance.below(3) as i32,
        _ => list[chance.below(list.len())],
    };
    index as u64
}

/// The two indices of an edge question, mostly neighbours.
fn edge_numbers(list: &[i32], n: u64, chance: &mut Chance) -> [u64; 3] {
    if 1 < list.len() && chance.once_in(2) {
        let i = chance.below(list.len() - 1);
        return [n, list[i] as u64, list[i + 1] as u64];
    }
    [n, index(list, n, chance), index(list, n, chance)]
}

/// All calls on a list.
pub fn list_cases(list: &[i32], n: u64, chance: &mut Chance) -> Vec<Case> {
    let corners = list.iter().filter(|&&entry| entry != -1).count();
    let faces = list.len() - corners;
    let short = chance.once_in(2);
    let classes = (n as usize).min(LIMIT + 1);
    let ks = [
        0,
        chance.below(faces + 3) as u64,
        faces as u64,
        u64::MAX,
        1 << 32,
    ];
    let longest_text = 2 + list
        .iter()
        .map(|entry| entry.to_string().len() + 2)
        .sum::<usize>();
    let text = longest_text - if list.is_empty() { 0 } else { 2 };
    let numbers: [(Call, Vec<u64>); 6] = [
        (Call::Check, vec![n]),
        (Call::Edge, edge_numbers(list, n, chance).to_vec()),
        (
            Call::Classes,
            vec![
                n,
                length(classes, short, chance),
                length(4 * corners, short, chance),
            ],
        ),
        (
            Call::Cut,
            vec![
                n,
                length(list.len(), short, chance),
                length(corners, short, chance),
                length(4 * corners, short, chance),
            ],
        ),
        (Call::Write, vec![length(text, short, chance)]),
        (Call::Face, vec![chance.one_of(&ks)]),
    ];
    let case =
        |(call, numbers): (Call, Vec<u64>)| Case::on_list(call, list, &numbers, chance.word());
    numbers.into_iter().map(case).collect()
}

/// What the product writes of a list it reads as that list.
pub fn round_trip(list: &[i32], origin: &str, tally: &mut Tally) {
    if LIMIT < list.len() {
        return;
    }
    let mut text = vec![0; 2 + 13 * list.len()];
    let written = product::write(list, &mut text)[2] as usize;
    let mut again = vec![7; list.len()];
    let answer = product::read(&text[..written], &mut again);
    if answer != [0, 0, list.len() as u64] || again != list {
        let what = format!("writing and reading gives {answer:?} and {again:?} for {list:?}");
        tally.fail(&what, origin);
    }
}
