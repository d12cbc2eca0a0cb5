//! The declarations, under the names in the archive. A slice passes as its pointer and its length.

use super::Pair;

// SAFETY: a test holds names, parameters and records to the library's source. The functions marked safe get
// only numbers and references, which Rust keeps valid, aligned and unshared.
unsafe extern "C" {
    pub fn murgwethan_create(
        p: &mut Pair,
        kind: u32,
        capacity: u32,
        rights_one: u32,
        rights_two: u32,
        ring_one: *const u8,
        ring_one_len: usize,
        table_one: *const u32,
        table_one_len: usize,
        ring_two: *const u8,
        ring_two_len: usize,
        table_two: *const u32,
        table_two_len: usize,
    ) -> i64;
    pub fn murgwethan_write(
        p: &mut Pair,
        handle: u32,
        ring: *mut u8,
        ring_len: usize,
        table: *mut u32,
        table_len: usize,
        bytes: *const u8,
        bytes_len: usize,
    ) -> i64;
    pub fn murgwethan_read(
        p: &mut Pair,
        handle: u32,
        peek: bool,
        ring: *const u8,
        ring_len: usize,
        table: *const u32,
        table_len: usize,
        buffer: *mut u8,
        buffer_len: usize,
    ) -> i64;
    pub safe fn murgwethan_set_disposition(
        p: &mut Pair,
        handle: u32,
        disposition: u32,
        peer_disposition: u32,
    ) -> i64;
    pub safe fn murgwethan_shutdown(p: &mut Pair, handle: u32, read: bool, write: bool) -> i64;
    pub safe fn murgwethan_set_read_threshold(p: &mut Pair, handle: u32, threshold: u64) -> i64;
    pub safe fn murgwethan_set_write_threshold(p: &mut Pair, handle: u32, threshold: u64) -> i64;
    pub safe fn murgwethan_thresholds(p: &mut Pair, handle: u32, out: &mut [u64; 2]) -> i64;
    pub fn murgwethan_info(
        p: &mut Pair,
        handle: u32,
        table: *const u32,
        table_len: usize,
        out: &mut [u64; 6],
    ) -> i64;
    pub safe fn murgwethan_wait(p: &mut Pair, handle: u32, key: u64, mask: u32, edge: u8) -> i64;
    pub safe fn murgwethan_take(p: &mut Pair, out: &mut [u64; 5]) -> i64;
    pub safe fn murgwethan_cancel(p: &mut Pair, handle: u32, key: u64) -> i64;
    pub safe fn murgwethan_close(p: &mut Pair, handle: u32) -> i64;
    pub safe fn murgwethan_signal(p: &mut Pair, handle: u32) -> i64;
    pub fn murgwethan_user_write(
        p: &mut Pair,
        handle: u32,
        options: u32,
        base: u64,
        memory: *mut u8,
        memory_len: usize,
        address: u64,
        count: u64,
        count_at: u64,
        ring: *mut u8,
        ring_len: usize,
        table: *mut u32,
        table_len: usize,
    ) -> i64;
    pub fn murgwethan_user_read(
        p: &mut Pair,
        handle: u32,
        options: u32,
        base: u64,
        memory: *mut u8,
        memory_len: usize,
        address: u64,
        count: u64,
        count_at: u64,
        ring: *const u8,
        ring_len: usize,
        table: *const u32,
        table_len: usize,
    ) -> i64;
    pub safe fn murgwethan_user_set_disposition(
        p: &mut Pair,
        handle: u32,
        disposition: u32,
        peer_disposition: u32,
    ) -> i64;
    pub safe fn murgwethan_user_shutdown(p: &mut Pair, handle: u32, options: u32) -> i64;
}
