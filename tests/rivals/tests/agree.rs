//! The rivals of the benchmark answer as the second program does.

use lists::chance::Chance;
use lists::damage::{random_count, random_list};
use lists::meshes::{polygon_repeating, FAMILIES};

/// Answer, new list, map and work of a cut, with garbage in the buffers before.
type Cut = ([u64; 7], Vec<i32>, Vec<i32>, Vec<u32>);

type Call = fn(&[i32], u64, &mut [i32], &mut [i32], &mut [u32]) -> [u64; 7];

fn cut_with(list: &[i32], call: Call, n: u64) -> Cut {
    let mut new_list = vec![-7; list.len() + 1];
    let mut map = vec![-7; list.len() + 1];
    let mut work = vec![7; 4 * list.len() + 1];
    let answer = call(list, n, &mut new_list, &mut map, &mut work);
    (answer, new_list, map, work)
}

fn agree(list: &[i32], n: u64) {
    let expected = cut_with(list, second::cut, n);
    let unchecked = cut_with(list, rivals::unchecked::cut, n);
    assert_eq!(expected, unchecked, "{list:?} {n}");
    let (answer, new_list, map, _) = expected;
    match rivals::baseline::cut(list, n as usize) {
        Err(refusal) => assert_eq!(
            [refusal.code, refusal.place as u64],
            answer[..2],
            "{list:?} {n}"
        ),
        Ok(cut) => {
            let counts = [cut.faces, cut.singular_edges, cut.singular_vertices];
            assert_eq!(
                counts.map(|count| count as u64),
                [answer[2], answer[5], answer[6]]
            );
            assert_eq!(cut.new_list, new_list[..list.len()]);
            assert_eq!(cut.map, map[..answer[4] as usize]);
        }
    }
}

#[test]
fn random_lists() {
    let mut codes = [0; 16];
    for seed in 0..20_000 {
        let mut chance = Chance::new(seed);
        let list = random_list(&mut chance);
        let n = random_count(&list, &mut chance);
        agree(&list, n);
        codes[second::check(&list, n)[0] as usize] += 1;
    }
    println!("codes of the check: {codes:?}");
    assert!([0, 2, 3, 4, 5].iter().all(|&code| 100 < codes[code]));
}

#[test]
fn families() {
    for entries in [100, 1_000, 65_536] {
        for family in &FAMILIES {
            let mesh = (family.make)(entries);
            let answer = second::check(&mesh.list, mesh.n);
            println!("{} {entries}: {} {answer:?}", family.name, mesh.list.len());
            assert_eq!(answer[0], 0, "{}", family.name);
            agree(&mesh.list, mesh.n);
        }
        let mesh = polygon_repeating(entries);
        agree(&mesh.list, mesh.n);
    }
}
