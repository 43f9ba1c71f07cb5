//! The bench set of the order, as the second program answers it.

/// Cuts with buffers of the lengths needed and gives back the answer, the new list and the map.
fn cut(list: &[i32], n: u64) -> ([u64; 7], Vec<i32>, Vec<i32>) {
    let mut new_list = vec![-7; list.len()];
    let mut map = vec![-7; list.len()];
    let mut work = vec![7; 4 * list.len()];
    let answer = second::cut(list, n, &mut new_list, &mut map, &mut work);
    map.truncate(answer[4] as usize);
    (answer, new_list, map)
}

fn classes(list: &[i32], n: u64) -> Vec<u8> {
    let mut classes = vec![9; n as usize];
    let mut work = vec![7; 4 * list.len()];
    assert_eq!(second::classes(list, n, &mut classes, &mut work), [0, 0]);
    classes
}

fn printed(input: &str) -> String {
    String::from_utf8(second::program(input.as_bytes())).unwrap()
}

#[test]
fn printed_cases() {
    assert_eq!(
        printed("[0 1 2 -1 0 3 4 -1]"),
        "0 0 2 6 6 0 1\n[0, 1, 2, -1, 3, 4, 5, -1]\n[0, 1, 2, 0, 3, 4]\n"
    );
    assert_eq!(printed("[0 1 2 -1 0 3 0 -1]"), "5 6 0 0 0 0 0\n");
    assert_eq!(printed(""), "11 0 0 0 0 0 0\n");
    assert_eq!(printed("[]"), "0 0 0 0 0 0 0\n[]\n[]\n");
    assert_eq!(printed("[2147483647]"), "2 0 0 0 0 0 0\n");
    assert_eq!(printed(&" ".repeat(16_384)), "11 16384 0 0 0 0 0\n");
    assert_eq!(printed(&" ".repeat(16_385)), "14 16384 0 0 0 0 0\n");
}

#[test]
fn lists_and_maps() {
    assert_eq!(cut(&[], 0), ([0; 7], vec![], vec![]));
    let one = [7, 3, 9, -1];
    assert_eq!(cut(&one, 10).1, [0, 1, 2, -1]);
    assert_eq!(cut(&one, 10).2, [7, 3, 9]);
    assert_eq!(classes(&one, 10), [0, 0, 0, 2, 0, 0, 0, 2, 0, 2]);
    for pair in [&[0, 1, 2, -1, 2, 1, 3, -1][..], &[0, 1, 2, -1, 1, 2, 3]] {
        let (answer, new_list, map) = cut(pair, 4);
        assert_eq!((answer, new_list), ([0, 0, 2, 6, 4, 0, 0], pair.to_vec()));
        assert_eq!(map, [0, 1, 2, 3]);
    }
    assert_eq!(classes(&[0, 1, 2, -1, 0, 3, 4, -1], 5), [4, 2, 2, 2, 2]);
    let (answer, _, map) = cut(&[0, 1, 2, -1, 0, 1, 3, -1, 0, 1, 4, -1], 5);
    assert_eq!(answer, [0, 0, 3, 9, 9, 1, 2]);
    assert_eq!(map, [0, 1, 2, 0, 1, 3, 0, 1, 4]);
    let (answer, new_list, _) = cut(&[0, 1, 2, -1, 0, 2, 1, -1], 3);
    assert_eq!(answer, [0, 0, 2, 6, 3, 0, 0]);
    assert_eq!(new_list, [0, 1, 2, -1, 0, 2, 1, -1]);
    assert_eq!(classes(&[0, 1, 2, -1, 0, 2, 1, -1], 3), [1, 1, 1]);
}

#[test]
fn two_tetrahedra() {
    let list = [
        0, 1, 2, -1, 0, 3, 1, -1, 0, 2, 3, -1, 1, 3, 2, -1, 0, 1, 4, -1, 0, 5, 1, -1, 0, 4, 5, -1,
        1, 5, 4, -1,
    ];
    let (answer, new_list, map) = cut(&list, 6);
    assert_eq!(answer, [0, 0, 8, 24, 8, 1, 2]);
    assert_eq!(new_list[16..20], [4, 5, 6, -1]);
    assert_eq!(new_list[20..], [4, 7, 5, -1, 4, 6, 7, -1, 5, 7, 6, -1]);
    assert_eq!(map, [0, 1, 2, 3, 0, 1, 4, 5]);
    assert_eq!(classes(&list, 6), [3, 3, 1, 1, 1, 1]);
}

#[test]
fn refusals() {
    let check = |list: &[i32], n| second::check(list, n);
    assert_eq!(check(&[0, 1, -1], 2), [4, 0, 0, 0]);
    assert_eq!(check(&[-1], 0), [4, 0, 0, 0]);
    assert_eq!(check(&[0, 1, 2, -1, -1], 3), [4, 4, 0, 0]);
    assert_eq!(check(&[0, 1, 5, -1], 5), [3, 2, 0, 0]);
    assert_eq!(check(&[0, 1, 5, -1], 6), [0, 0, 1, 3]);
    assert_eq!(check(&[0, 0, -2], 3), [3, 2, 0, 0]);
    assert_eq!(check(&[65_535, 0, 1], 65_536), [0, 0, 1, 3]);
    assert_eq!(check(&[], 65_537), [2, 0, 0, 0]);
    assert_eq!(check(&vec![-1; 65_537], 1), [1, 0, 0, 0]);
}

#[test]
fn texts() {
    let read = |text: &str| second::read(text.as_bytes(), &mut [0; 3]);
    assert_eq!(read("[-2147483648]"), [0, 0, 1]);
    assert_eq!(read("[2147483648]"), [12, 1, 0]);
    assert_eq!(read("[0000000000000000001 -0,+07]"), [0, 0, 3]);
    assert_eq!(read("[1 2 3 4]"), [13, 7, 0]);
    assert_eq!(read("[1 2 3 x]"), [11, 7, 0]);
    assert_eq!(read("[1-2]"), [11, 1, 0]);
    assert_eq!(read("[1 # ]"), [11, 6, 0]);
    assert_eq!(read("[1#\r]#"), [0, 0, 1]);
    assert_eq!(read("[1[2]"), [11, 2, 0]);
    assert_eq!(read("[1] ]"), [11, 4, 0]);
    assert_eq!(read(" x[1]"), [11, 1, 0]);
}
