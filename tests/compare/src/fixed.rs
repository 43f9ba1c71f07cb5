//! The bench set of the order with its expected results, and the lists and texts at the limits.

use crate::case::{Call, Case};
use crate::rounds::{list_cases, round_trip};
use crate::tally::Tally;
use lists::chance::Chance;
use lists::meshes::{polygon, tight};
use lists::LIMIT;

/// A list, its vertex count, and what the program's three lines say of its cut.
type Row = (&'static [i32], u64, &'static str);

const BENCH_SET: [Row; 17] = [
    (&[], 0, "0 0 0 0 0 0 0\n[]\n[]\n"),
    (&[7, 3, 9, -1], 10, "0 0 1 3 3 0 0\n[0, 1, 2, -1]\n[7, 3, 9]\n"),
    (
        &[0, 1, 2, -1, 2, 1, 3, -1],
        4,
        "0 0 2 6 4 0 0\n[0, 1, 2, -1, 2, 1, 3, -1]\n[0, 1, 2, 3]\n",
    ),
    (
        &[0, 1, 2, -1, 1, 2, 3],
        4,
        "0 0 2 6 4 0 0\n[0, 1, 2, -1, 1, 2, 3]\n[0, 1, 2, 3]\n",
    ),
    (
        &[0, 1, 2, -1, 0, 3, 4, -1],
        5,
        "0 0 2 6 6 0 1\n[0, 1, 2, -1, 3, 4, 5, -1]\n[0, 1, 2, 0, 3, 4]\n",
    ),
    (
        &[0, 1, 2, -1, 0, 1, 3, -1, 0, 1, 4, -1],
        5,
        "0 0 3 9 9 1 2\n[0, 1, 2, -1, 3, 4, 5, -1, 6, 7, 8, -1]\n[0, 1, 2, 0, 1, 3, 0, 1, 4]\n",
    ),
    (
        &[
            0, 1, 2, -1, 0, 3, 1, -1, 0, 2, 3, -1, 1, 3, 2, -1, 0, 1, 4, -1, 0, 5, 1, -1, 0, 4, 5,
            -1, 1, 5, 4, -1,
        ],
        6,
        "0 0 8 24 8 1 2\n[0, 1, 2, -1, 0, 3, 1, -1, 0, 2, 3, -1, 1, 3, 2, -1, 4, 5, 6, -1, 4, 7, 5, -1, 4, 6, 7, -1, 5, 7, 6, -1]\n[0, 1, 2, 3, 0, 1, 4, 5]\n",
    ),
    (
        &[0, 1, 2, -1, 0, 2, 1, -1],
        3,
        "0 0 2 6 3 0 0\n[0, 1, 2, -1, 0, 2, 1, -1]\n[0, 1, 2]\n",
    ),
    (&[0, 1, -1], 2, "4 0 0 0 0 0 0\n"),
    (&[-1], 0, "4 0 0 0 0 0 0\n"),
    (&[0, 1, 2, -1, -1], 3, "4 4 0 0 0 0 0\n"),
    (&[0, 1, 5, -1], 5, "3 2 0 0 0 0 0\n"),
    (&[0, 1, 5, -1], 6, "0 0 1 3 3 0 0\n[0, 1, 2, -1]\n[0, 1, 5]\n"),
    (&[0, 0, -2], 3, "3 2 0 0 0 0 0\n"),
    (&[0, 1, 2, -1, 0, 3, 0, -1], 4, "5 6 0 0 0 0 0\n"),
    (
        &[65_535, 0, 1],
        65_536,
        "0 0 1 3 3 0 0\n[0, 1, 2]\n[65535, 0, 1]\n",
    ),
    (&[0, 1, 2], 65_537, "2 0 0 0 0 0 0\n"),
];

/// The classes that the bench set names.
const CLASSES: [(&[i32], &[u8]); 4] = [
    (&[7, 3, 9, -1], &[0, 0, 0, 2, 0, 0, 0, 2, 0, 2]),
    (&[0, 1, 2, -1, 0, 3, 4, -1], &[4, 2, 2, 2, 2]),
    (BENCH_SET[6].0, &[3, 3, 1, 1, 1, 1]),
    (&[0, 1, 2, -1, 0, 2, 1, -1], &[1, 1, 1]),
];

/// Texts with the answer of reading them into a list of three entries.
const TEXTS: [(&str, [u64; 3]); 48] = [
    ("[-2147483648]", [0, 0, 1]),
    ("[2147483648]", [12, 1, 0]),
    ("[2147483647]", [0, 0, 1]),
    ("[-2147483649]", [12, 1, 0]),
    ("[ +2147483648 x", [12, 2, 0]),
    ("", [11, 0, 0]),
    (" ", [11, 1, 0]),
    ("#[", [11, 2, 0]),
    ("#\n", [11, 2, 0]),
    ("#\r[]", [0, 0, 0]),
    ("[", [11, 1, 0]),
    ("[1", [11, 2, 0]),
    ("[1 ", [11, 3, 0]),
    ("[1 #]", [11, 5, 0]),
    ("[1 #]\n]", [0, 0, 1]),
    ("]", [11, 0, 0]),
    ("[]", [0, 0, 0]),
    ("[,,\t\r\n ]", [0, 0, 0]),
    ("[]]", [11, 2, 0]),
    ("[] [", [11, 3, 0]),
    ("[] 1", [11, 3, 0]),
    ("[] # 1", [0, 0, 0]),
    ("[] #\r1", [11, 5, 0]),
    ("[[", [11, 1, 0]),
    ("[1[", [11, 2, 0]),
    ("[x", [11, 1, 0]),
    ("[1x 2]", [11, 1, 0]),
    ("[1 x2]", [11, 3, 0]),
    ("x[1]", [11, 0, 0]),
    (" 1[1]", [11, 1, 0]),
    ("[+]", [11, 1, 0]),
    ("[-]", [11, 1, 0]),
    ("[--1]", [11, 1, 0]),
    ("[1-2]", [11, 1, 0]),
    ("[0x1]", [11, 1, 0]),
    ("[+07 -0 00]", [0, 0, 3]),
    ("[0000000000000000001]", [0, 0, 1]),
    ("[-00000000002147483648]", [0, 0, 1]),
    ("[00000000002147483648]", [12, 1, 0]),
    ("[{1]", [11, 1, 0]),
    ("[1\u{b}2]", [11, 1, 0]),
    ("[1\0]", [11, 1, 0]),
    ("[1 2 3 4]", [13, 7, 0]),
    ("[1 2 3 x]", [11, 7, 0]),
    ("[1 2 3 9999999999]", [12, 7, 0]),
    ("[1 2 3 4", [13, 7, 0]),
    ("[1 2 3", [11, 6, 0]),
    ("[1#2\n3#4\r]", [0, 0, 2]),
];

/// The product's cut of a list, shown as the program shows it.
fn shown_cut(list: &[i32], n: u64) -> String {
    let mut new_list = vec![7; list.len()];
    let mut map = vec![7; list.len()];
    let mut work = vec![7; 4 * list.len()];
    let answer = product::cut(list, n, &mut new_list, &mut map, &mut work);
    let words: Vec<String> = answer.iter().map(u64::to_string).collect();
    let numbers = words.join(" ") + "\n";
    if answer[0] != 0 {
        return numbers;
    }
    let map = &map[..answer[4] as usize];
    format!("{numbers}{new_list:?}\n{map:?}\n")
}

/// The bench set: the product against the expected results, and all calls against the second program.
pub fn bench_set(tally: &mut Tally) {
    let origin = "bench set";
    for (list, n, expected) in BENCH_SET {
        tally.count_list();
        let shown = shown_cut(list, n);
        if shown != expected {
            tally.fail(&format!("{list:?}, n = {n} is cut to {shown:?}"), origin);
        }
        for case in list_cases(list, n, &mut Chance::new(n)) {
            tally.try_case(&case, origin);
        }
    }
    for (list, expected) in CLASSES {
        let mut classes = vec![9; expected.len()];
        let mut work = vec![7; 4 * list.len()];
        let answer = product::classes(list, expected.len() as u64, &mut classes, &mut work);
        if answer != [0, 0] || classes != expected {
            tally.fail(&format!("{list:?} has classes {classes:?}"), origin);
        }
    }
    for (text, expected) in TEXTS {
        let answer = product::read(text.as_bytes(), &mut [7; 3]);
        if answer != expected {
            tally.fail(&format!("{text:?} is read with {answer:?}"), origin);
        }
        for room in [0, 1, 3, 9] {
            let case = Case::on_text(Call::Read, text.as_bytes(), room, room);
            tally.try_case(&case, origin);
        }
    }
}

/// Lists at the limits: 65,535 to 65,537 entries and far more, and vertex counts about 65,536.
pub fn lists_at_limits(tally: &mut Tally) {
    let mut chance = Chance::new(1);
    for length in [LIMIT - 1, LIMIT, LIMIT + 1, 3 * LIMIT] {
        let lists = [
            vec![-1; length],
            vec![0; length],
            vec![i32::MIN; length],
            polygon(length).list,
            lists::meshes::loose(length + 4).list[..length].to_vec(),
            (0..length as i32).rev().collect(),
        ];
        for list in lists {
            for n in [0, tight(&list), 65_536, 65_537] {
                tally.count_list();
                for case in list_cases(&list, n, &mut chance) {
                    tally.try_case(&case, "lists at the limits");
                }
            }
        }
    }
}

/// A text of `count` numbers.
fn text_of_many(count: usize, number: &str) -> Vec<u8> {
    let mut text = String::from("[");
    for _ in 0..count {
        text += number;
        text += " ";
    }
    (text + "]").into_bytes()
}

/// Texts at the limits: as many numbers as a list may have and more, and the longest written text.
pub fn texts_at_limits(tally: &mut Tally) {
    let origin = "texts at the limits";
    for count in [LIMIT - 1, LIMIT, LIMIT + 1, LIMIT + 2] {
        for number in ["7", "-2147483648", "x"] {
            let text = text_of_many(count, number);
            for room in [LIMIT - 1, LIMIT, LIMIT + 1, LIMIT + 100] {
                let case = Case::on_text(Call::Read, &text, room as u64, 1);
                tally.try_case(&case, origin);
            }
        }
    }
    for length in [LIMIT, LIMIT + 1] {
        let list = vec![i32::MIN; length];
        let needed = 13 * length as u64;
        for room in [0, needed - 1, needed, needed + 9] {
            let case = Case::on_list(Call::Write, &list, &[room], 1);
            tally.try_case(&case, origin);
        }
        round_trip(&list, origin, tally);
    }
    let entries: Vec<i32> = (0..32).flat_map(powers_about).collect();
    for entry in entries {
        round_trip(&[entry, -1, entry], origin, tally);
        let needed = 6 + 2 * entry.to_string().len() as u64;
        for room in [needed - 1, needed] {
            let case = Case::on_list(Call::Write, &[entry, entry, 0, 1], &[room + 2], 1);
            tally.try_case(&case, origin);
        }
    }
}

/// Entries about powers of two and of ten, of both signs.
fn powers_about(power: u32) -> Vec<i32> {
    let ten = 10i32.checked_pow(power).unwrap_or(i32::MAX);
    let two = 1i32.wrapping_shl(power);
    let about = |x: i32| [x, x.wrapping_sub(1), x.wrapping_add(1), x.wrapping_neg()];
    [about(ten), about(two)].concat()
}
