//! The functions of host/lentilraft.h that are measured, or make what is.

#[rustfmt::skip]
unsafe extern "C" {
    pub fn lentilraft_new_volume(volume: *mut u8, length: usize, nodes: u64, entries: u64, chunks: u64, size: u64) -> u32;
    pub fn lentilraft_check(volume: *const u8, length: usize) -> u32;
    pub fn lentilraft_write(volume: *mut u8, length: usize, node: u64, offset: u64, bytes: *const u8, bytes_length: usize, count: *mut u64) -> u32;
    pub fn lentilraft_read(volume: *const u8, length: usize, node: u64, offset: u64, buffer: *mut u8, buffer_length: usize, count: *mut u64) -> u32;
    pub fn lentilraft_find_node(volume: *const u8, length: usize, start: u64, path: *const u8, path_length: usize, node: *mut u64) -> u32;
    pub fn lentilraft_next_entry(volume: *const u8, length: usize, directory: u64, from: u32, name_start: *mut u64, name_length: *mut u64, index: *mut u32, node: *mut u64) -> u32;
    pub fn lentilraft_create(volume: *mut u8, length: usize, parent: u64, name: *const u8, name_length: usize, kind: u8, node: *mut u64) -> u32;
    pub fn lentilraft_unlink(volume: *mut u8, length: usize, start: u64, path: *const u8, path_length: usize, expected: u8, opens: u64, node: *mut u64) -> u32;
    pub fn lentilraft_remove(volume: *mut u8, length: usize, node: u64) -> u32;
}
