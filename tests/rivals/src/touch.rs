//! One touch of every entry of the list and of the buffers: no cut can take less.

/// Reads the list and writes new list, map and work once.
pub fn touch(list: &[i32], new_list: &mut [i32], map: &mut [i32], work: &mut [u32]) {
    for (to, from) in new_list.iter_mut().zip(list) {
        *to = from.wrapping_add(1);
    }
    for (to, from) in map.iter_mut().zip(list) {
        *to = from.wrapping_sub(1);
    }
    work.fill(0);
}
