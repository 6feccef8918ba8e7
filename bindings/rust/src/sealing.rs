//! AES-GCM-SIV (RFC 8452) with keys of 16 or 32 bytes.

use crate::ffi;
use crate::refusal::{done, Refusal};

/// The bytes of a hash or a tag.
pub const TAG_SIZE: usize = 16;
/// The bytes of a nonce.
pub const NONCE_SIZE: usize = 12;
/// The most associated data that is taken.
pub const MAX_AD: usize = 1024;
/// The most plaintext that is sealed at once.
pub const MAX_PLAINTEXT: usize = 65536;
/// The longest sealed part that is opened: the most plaintext, and the tag.
pub const MAX_SEALED: usize = 65552;

/// Seals: the front of `out` gets the ciphertext, then the tag, and is handed back; it needs 16 bytes more than the
/// plaintext. Take a fresh nonce for each message under a key. Refuses with 1, 2, 4, 5, 7, in this order.
pub fn seal<'a>(
    key: &[u8],
    nonce: &[u8],
    ad: &[u8],
    plaintext: &[u8],
    out: &'a mut [u8],
) -> Result<&'a mut [u8], Refusal> {
    // SAFETY: each pointer holds for its length; only `out` is written, and it overlaps nothing.
    done(unsafe {
        ffi::khumbuseal_seal(
            key.as_ptr(),
            key.len(),
            nonce.as_ptr(),
            nonce.len(),
            ad.as_ptr(),
            ad.len(),
            plaintext.as_ptr(),
            plaintext.len(),
            out.as_mut_ptr(),
            out.len(),
        )
    })?;
    Ok(&mut out[..plaintext.len() + TAG_SIZE])
}

/// Opens: the front of `out` gets the plaintext, once the tag has agreed, and is handed back; it needs 16 bytes less
/// than the sealed part has. Refuses with 1, 2, 4, 6, 5, 7, 8, in this order.
pub fn open<'a>(
    key: &[u8],
    nonce: &[u8],
    ad: &[u8],
    sealed: &[u8],
    out: &'a mut [u8],
) -> Result<&'a mut [u8], Refusal> {
    // SAFETY: as in `seal`.
    done(unsafe {
        ffi::khumbuseal_open(
            key.as_ptr(),
            key.len(),
            nonce.as_ptr(),
            nonce.len(),
            ad.as_ptr(),
            ad.len(),
            sealed.as_ptr(),
            sealed.len(),
            out.as_mut_ptr(),
            out.len(),
        )
    })?;
    Ok(&mut out[..sealed.len() - TAG_SIZE])
}
