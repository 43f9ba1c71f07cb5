//! The product through its C interface: a safe function for each `brimclif_*`.
//!
//! A slice passes as pointer and length, an answer into an array of its own. Each function has the
//! arguments and the answer of its counterpart in `second`.

mod interface {
    extern "C" {
        pub fn brimclif_check(list: *const i32, len: usize, n: u64, answer: *mut u64);
        pub fn brimclif_edge(
            list: *const i32,
            len: usize,
            n: u64,
            a: i32,
            b: i32,
            answer: *mut u64,
        );
        pub fn brimclif_classes(
            list: *const i32,
            len: usize,
            n: u64,
            classes: *mut u8,
            classes_len: usize,
            work: *mut u32,
            work_len: usize,
            answer: *mut u64,
        );
        pub fn brimclif_cut(
            list: *const i32,
            len: usize,
            n: u64,
            new_list: *mut i32,
            new_len: usize,
            map: *mut i32,
            map_len: usize,
            work: *mut u32,
            work_len: usize,
            answer: *mut u64,
        );
        pub fn brimclif_read(
            text: *const u8,
            text_len: usize,
            list: *mut i32,
            list_len: usize,
            answer: *mut u64,
        );
        pub fn brimclif_write(
            list: *const i32,
            len: usize,
            text: *mut u8,
            text_len: usize,
            answer: *mut u64,
        );
        pub fn brimclif_face(list: *const i32, len: usize, k: u64, span: *mut u64);
    }
}

/// What an answer holds before the call: no call may leave any of it.
const UNANSWERED: u64 = 0xdead_beef_dead_beef;

/// The check: code, place, faces, corners.
pub fn check(list: &[i32], n: u64) -> [u64; 4] {
    let mut answer = [UNANSWERED; 4];
    // SAFETY: pointer and length are those of a slice, the answer has four numbers.
    unsafe { interface::brimclif_check(list.as_ptr(), list.len(), n, answer.as_mut_ptr()) };
    answer
}

/// The edge question: code, place, faces.
pub fn edge(list: &[i32], n: u64, a: i32, b: i32) -> [u64; 3] {
    let mut answer = [UNANSWERED; 3];
    // SAFETY: pointer and length are those of a slice, the answer has three numbers.
    unsafe { interface::brimclif_edge(list.as_ptr(), list.len(), n, a, b, answer.as_mut_ptr()) };
    answer
}

/// The class call: code, place.
pub fn classes(list: &[i32], n: u64, classes: &mut [u8], work: &mut [u32]) -> [u64; 2] {
    let mut answer = [UNANSWERED; 2];
    // SAFETY: pointers and lengths are those of slices, the answer has two numbers.
    unsafe {
        interface::brimclif_classes(
            list.as_ptr(),
            list.len(),
            n,
            classes.as_mut_ptr(),
            classes.len(),
            work.as_mut_ptr(),
            work.len(),
            answer.as_mut_ptr(),
        )
    };
    answer
}

/// The cut: code, place, faces, corners, new vertices, singular edges, singular vertices.
pub fn cut(
    list: &[i32],
    n: u64,
    new_list: &mut [i32],
    map: &mut [i32],
    work: &mut [u32],
) -> [u64; 7] {
    let mut answer = [UNANSWERED; 7];
    // SAFETY: pointers and lengths are those of slices, the answer has seven numbers.
    unsafe {
        interface::brimclif_cut(
            list.as_ptr(),
            list.len(),
            n,
            new_list.as_mut_ptr(),
            new_list.len(),
            map.as_mut_ptr(),
            map.len(),
            work.as_mut_ptr(),
            work.len(),
            answer.as_mut_ptr(),
        )
    };
    answer
}

/// The text reader: code, place, entries read.
pub fn read(text: &[u8], list: &mut [i32]) -> [u64; 3] {
    let mut answer = [UNANSWERED; 3];
    // SAFETY: pointers and lengths are those of slices, the answer has three numbers.
    unsafe {
        interface::brimclif_read(
            text.as_ptr(),
            text.len(),
            list.as_mut_ptr(),
            list.len(),
            answer.as_mut_ptr(),
        )
    };
    answer
}

/// The text writer: code, place, text length.
pub fn write(list: &[i32], text: &mut [u8]) -> [u64; 3] {
    let mut answer = [UNANSWERED; 3];
    // SAFETY: pointers and lengths are those of slices, the answer has three numbers.
    unsafe {
        interface::brimclif_write(
            list.as_ptr(),
            list.len(),
            text.as_mut_ptr(),
            text.len(),
            answer.as_mut_ptr(),
        )
    };
    answer
}

/// Showing one face: where it starts and ends.
pub fn face(list: &[i32], k: u64) -> [u64; 2] {
    let mut span = [UNANSWERED; 2];
    // SAFETY: pointer and length are those of a slice, the span has two numbers.
    unsafe { interface::brimclif_face(list.as_ptr(), list.len(), k, span.as_mut_ptr()) };
    span
}
