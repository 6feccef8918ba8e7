//! This library, by its C face (include/khumbuseal.h).

use super::{Contender, KEYS, NONCE, contender};
use ffi::*;
use std::hint::black_box;

// The Rust binding's declarations, of which the clock needs a few.
#[allow(dead_code)]
#[path = "../../../bindings/rust/src/ffi.rs"]
mod ffi;

const RECORD_SIZE: usize = 168;
const TAG_SIZE: usize = 16;
const ROUTES: [(u8, &str); 3] = [
    (0, "ours, wide: 64-bit limbs"),
    (1, "ours, narrow: 32-bit limbs"),
    (2, "ours, R/F products"),
];

type Sealing = unsafe extern "C" fn(
    key: *const u8,
    key_len: usize,
    nonce: *const u8,
    nonce_len: usize,
    ad: *const u8,
    ad_len: usize,
    text: *const u8,
    text_len: usize,
    out: *mut u8,
    out_len: usize,
) -> u8;

/// All of the data in one call under one key, the key's expansion and the finish included.
fn hash(route: u8, key: &[u8], data: &[u8]) -> [u8; TAG_SIZE] {
    let mut record = [0; RECORD_SIZE];
    let mut tag = [0; TAG_SIZE];
    let mut multiplies = 0;
    let answers = unsafe {
        [
            khumbuseal_hash_start(
                record.as_mut_ptr(),
                key.as_ptr(),
                key.len(),
                &mut multiplies,
            ),
            khumbuseal_hash_feed_blocks(
                record.as_mut_ptr(),
                route,
                data.as_ptr(),
                data.len(),
                &mut multiplies,
            ),
            khumbuseal_hash_finish(record.as_ptr(), route, tag.as_mut_ptr(), &mut multiplies),
        ]
    };
    assert_eq!(answers, [0; 3], "the library refuses to hash");
    tag
}

fn run(call: Sealing, key: &[u8], text: &[u8], out: &mut [u8]) {
    let answer = unsafe {
        call(
            key.as_ptr(),
            key.len(),
            NONCE.as_ptr(),
            NONCE.len(),
            std::ptr::null(),
            0,
            text.as_ptr(),
            text.len(),
            out.as_mut_ptr(),
            out.len(),
        )
    };
    assert_eq!(answer, 0, "the library refuses");
}

fn sealed(key: &[u8], text: &[u8]) -> Vec<u8> {
    let mut out = vec![0; text.len() + TAG_SIZE];
    run(khumbuseal_seal, key, text, &mut out);
    out
}

/// A hash on each route.
pub fn hashes(data: &[u8]) -> Vec<[u8; TAG_SIZE]> {
    ROUTES
        .iter()
        .map(|&(route, _)| hash(route, KEYS[0], data))
        .collect()
}

pub fn hashing(data: &[u8]) -> Vec<Contender<'_>> {
    ROUTES
        .iter()
        .map(|&(route, who)| {
            contender(who.into(), move || {
                black_box(hash(route, black_box(KEYS[0]), black_box(data)));
            })
        })
        .collect()
}

fn who(key: &[u8]) -> String {
    format!("ours, AES-{}-GCM-SIV", 8 * key.len())
}

pub fn sealing(text: &[u8]) -> Vec<Contender<'_>> {
    let sealing_under = |key: &'static [u8]| {
        let mut out = vec![0; text.len() + TAG_SIZE];
        contender(who(key), move || {
            run(khumbuseal_seal, black_box(key), black_box(text), &mut out)
        })
    };
    KEYS.into_iter().map(sealing_under).collect()
}

pub fn opening(text: &[u8]) -> Vec<Contender<'_>> {
    let opening_under = |key: &'static [u8]| {
        let sealed = sealed(key, text);
        let mut out = vec![0; text.len()];
        contender(who(key), move || {
            run(
                khumbuseal_open,
                black_box(key),
                black_box(&sealed),
                &mut out,
            )
        })
    };
    KEYS.into_iter().map(opening_under).collect()
}
