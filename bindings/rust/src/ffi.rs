//! The C face as include/khumbuseal.h declares it: the same names, in the same order. Byte pointers come with their
//! lengths; what a call may write overlaps nothing else that is lent to it, which Rust's `&mut` sees to.

extern "C" {
    pub fn khumbuseal_hash_start(record: *mut u8, key: *const u8, key_len: usize, multiplies: *mut u64) -> u8;
    pub fn khumbuseal_hash_feed_blocks(
        record: *mut u8,
        route: u8,
        data: *const u8,
        data_len: usize,
        multiplies: *mut u64,
    ) -> u8;
    pub fn khumbuseal_hash_feed_padded(
        record: *mut u8,
        route: u8,
        data: *const u8,
        data_len: usize,
        multiplies: *mut u64,
    ) -> u8;
    pub fn khumbuseal_hash_feed_piece(
        record: *mut u8,
        route: u8,
        data: *const u8,
        data_len: usize,
        multiplies: *mut u64,
    ) -> u8;
    pub fn khumbuseal_hash_finish(record: *const u8, route: u8, tag: *mut u8, multiplies: *mut u64) -> u8;
    pub fn khumbuseal_hash_reset(record: *mut u8) -> u8;
    pub fn khumbuseal_hash_join(first: *mut u8, second: *const u8, blocks: u64, dots: *mut u64) -> u8;
    pub fn khumbuseal_hash_key_belongs(record: *const u8) -> u8;

    pub fn khumbuseal_ghash(key: *const u8, key_len: usize, data: *const u8, data_len: usize, tag: *mut u8) -> u8;
    pub fn khumbuseal_ghash_start(record: *mut u8, key: *const u8, key_len: usize) -> u8;
    pub fn khumbuseal_ghash_feed_padded(record: *mut u8, data: *const u8, data_len: usize);
    pub fn khumbuseal_ghash_finish(record: *const u8, tag: *mut u8);

    pub fn khumbuseal_seal(
        key: *const u8,
        key_len: usize,
        nonce: *const u8,
        nonce_len: usize,
        ad: *const u8,
        ad_len: usize,
        plaintext: *const u8,
        plaintext_len: usize,
        out: *mut u8,
        out_len: usize,
    ) -> u8;
    pub fn khumbuseal_open(
        key: *const u8,
        key_len: usize,
        nonce: *const u8,
        nonce_len: usize,
        ad: *const u8,
        ad_len: usize,
        sealed: *const u8,
        sealed_len: usize,
        out: *mut u8,
        out_len: usize,
    ) -> u8;

    pub fn khumbuseal_frame_write(
        kind: u8,
        key: *const u8,
        key_len: usize,
        nonce: *const u8,
        nonce_len: usize,
        plaintext: *const u8,
        plaintext_len: usize,
        out: *mut u8,
        out_len: usize,
        written: *mut usize,
    ) -> u8;
    pub fn khumbuseal_frame_read(
        key: *const u8,
        key_len: usize,
        data: *const u8,
        data_len: usize,
        out: *mut u8,
        out_len: usize,
        kind: *mut u8,
        len: *mut usize,
        taken: *mut usize,
        lat: *mut i32,
        lon: *mut i32,
        alt: *mut i32,
        time: *mut u32,
    ) -> u8;
    pub fn khumbuseal_frame_front(data: *const u8, data_len: usize, kind: *mut u8, taken: *mut usize) -> u8;
    pub fn khumbuseal_scan(log: *const u8, log_len: usize, frames: *mut u64, stop: *mut u8) -> usize;

    pub fn khumbuseal_position_to_bytes(lat: i32, lon: i32, alt: i32, time: u32, bytes: *mut u8);
    pub fn khumbuseal_position_from_bytes(
        bytes: *const u8,
        lat: *mut i32,
        lon: *mut i32,
        alt: *mut i32,
        time: *mut u32,
    );
    pub fn khumbuseal_position_is_in_range(lat: i32, lon: i32, alt: i32) -> u8;
}
