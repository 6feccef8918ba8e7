//! Those we compare with.

use super::{Contender, KEYS, contender};
use polyval::{
    Block, Polyval,
    universal_hash::{Array, UniversalHash},
};
use std::hint::black_box;

fn blocks(data: &[u8]) -> Vec<Block> {
    data.chunks_exact(16)
        .map(|b| Array(b.try_into().unwrap()))
        .collect()
}

fn polyval_hash(blocks: &[Block]) -> [u8; 16] {
    let mut hash = Polyval::new(&Array(black_box(KEYS[0]).try_into().unwrap()));
    hash.update(black_box(blocks));
    hash.finalize().into()
}

/// A time of a wrong answer says nothing.
pub fn agree_with(hashes: &[[u8; 16]], data: &[u8]) {
    let right = polyval_hash(&blocks(data));
    assert!(
        hashes.iter().all(|hash| *hash == right),
        "the hashes differ"
    );
}

pub fn hashing(data: &[u8]) -> Vec<Contender<'_>> {
    let whole = blocks(data);
    let mut all = vec![contender(
        "polyval 0.7.3, software, 64-bit limbs".into(),
        move || {
            black_box(polyval_hash(&whole));
        },
    )];
    all.extend(bearssl::hashing(data));
    all
}

pub fn sealing(text: &[u8]) -> Vec<Contender<'_>> {
    bearssl::running(1, text)
}

pub fn opening(text: &[u8]) -> Vec<Contender<'_>> {
    bearssl::running(0, text)
}

#[cfg(bearssl)]
mod bearssl {
    use super::super::NONCE;
    use super::*;

    unsafe extern "C" {
        fn bearssl_ghash(key: *const u8, data: *const u8, len: usize, tag: *mut u8);
        fn bearssl_gcm(
            encrypt: i32,
            key: *const u8,
            key_len: usize,
            nonce: *const u8,
            text: *mut u8,
            len: usize,
            tag: *mut u8,
        );
    }

    pub fn hashing(data: &[u8]) -> Vec<Contender<'_>> {
        vec![contender("BearSSL, GHASH, ctmul64".into(), move || {
            let mut tag = [0; 16];
            unsafe {
                bearssl_ghash(
                    KEYS[0].as_ptr(),
                    data.as_ptr(),
                    data.len(),
                    tag.as_mut_ptr(),
                )
            };
            black_box(tag);
        })]
    }

    /// Another mode than ours, for scale: AES-GCM derives no keys, and opens without comparing the tag.
    pub fn running(encrypt: i32, text: &[u8]) -> Vec<Contender<'_>> {
        let running_under = |key: &'static [u8]| {
            let mut buffer = text.to_vec();
            contender(
                format!("BearSSL, AES-{}-GCM, ct64, ctmul64", 8 * key.len()),
                move || {
                    let mut tag = [0; 16];
                    unsafe {
                        bearssl_gcm(
                            encrypt,
                            key.as_ptr(),
                            key.len(),
                            NONCE.as_ptr(),
                            buffer.as_mut_ptr(),
                            buffer.len(),
                            tag.as_mut_ptr(),
                        )
                    };
                    black_box(tag);
                },
            )
        };
        KEYS.into_iter().map(running_under).collect()
    }
}

#[cfg(not(bearssl))]
mod bearssl {
    use super::Contender;

    pub fn hashing(_: &[u8]) -> Vec<Contender<'_>> {
        Vec::new()
    }

    pub fn running(_: i32, _: &[u8]) -> Vec<Contender<'_>> {
        Vec::new()
    }
}
