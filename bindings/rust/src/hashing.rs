//! POLYVAL over a message in parts, and GHASH.

use crate::ffi;
use crate::refusal::{done, Refusal};
use crate::sealing::TAG_SIZE;

/// The bytes of a hash record.
pub const RECORD_SIZE: usize = 168;
/// The bytes of the stored key, at the front of a hash record.
pub const STORED_KEY_SIZE: usize = 128;
/// The bytes of a GHASH record.
pub const GHASH_RECORD_SIZE: usize = 32;
/// The bytes of a key of hashing.
pub const HASH_KEY_SIZE: usize = 16;

/// How a hash is computed. The routes differ in time alone, where [`Hash::key_belongs`].
#[derive(Clone, Copy, Debug, PartialEq, Eq)]
#[repr(u8)]
pub enum Route {
    /// 64-bit limbs.
    Wide = 0,
    /// 32-bit limbs.
    Narrow = 1,
    /// The stored powers of the key with their D values; counts its multiplies.
    Rf = 2,
}

/// A hash under way: its key, what was fed, and up to 15 bytes that wait for more. A call that refuses leaves it as it
/// was, so that it still stands for what was fed before; a refused start yields none.
///
/// Each call that computes says how many 64 by 64 bit carryless products it spent: 0 but on the route [`Route::Rf`].
///
/// It holds its key in the clear. Two are equal when their bytes are.
#[derive(Clone, PartialEq, Eq)]
pub struct Hash([u8; RECORD_SIZE]);

impl core::fmt::Debug for Hash {
    /// Shows nothing of the key or of what was fed.
    fn fmt(&self, f: &mut core::fmt::Formatter<'_>) -> core::fmt::Result {
        f.debug_struct("Hash").finish_non_exhaustive()
    }
}

type Feed = unsafe extern "C" fn(*mut u8, u8, *const u8, usize, *mut u64) -> u8;

impl Hash {
    /// Starts a hash under a key of 16 bytes, and says what the expansion of the key spent. Refuses with 1.
    pub fn start(key: &[u8]) -> Result<(Hash, u64), Refusal> {
        let mut record = [0; RECORD_SIZE];
        let mut multiplies = 0;
        // SAFETY: the key's pointer holds for its length, and the record has the size that the call writes.
        done(unsafe { ffi::khumbuseal_hash_start(record.as_mut_ptr(), key.as_ptr(), key.len(), &mut multiplies) })?;
        Ok((Hash(record), multiplies))
    }

    /// A record from its bytes, as [`Hash::as_bytes`] gave them. Any bytes are one, and every call answers for it.
    pub fn from_bytes(bytes: [u8; RECORD_SIZE]) -> Hash {
        Hash(bytes)
    }

    /// The record's bytes, to be stored or sent. Whoever has them has the key.
    pub fn as_bytes(&self) -> &[u8; RECORD_SIZE] {
        &self.0
    }

    fn feed(&mut self, call: Feed, route: Route, data: &[u8]) -> Result<u64, Refusal> {
        let mut multiplies = 0;
        // SAFETY: the record has the size that the calls read and write, and data's pointer holds for its length.
        done(unsafe { call(self.0.as_mut_ptr(), route as u8, data.as_ptr(), data.len(), &mut multiplies) })?;
        Ok(multiplies)
    }

    /// Feeds whole blocks. Refuses with 14 where bytes are pending, then with 3.
    pub fn feed_blocks(&mut self, route: Route, data: &[u8]) -> Result<u64, Refusal> {
        self.feed(ffi::khumbuseal_hash_feed_blocks, route, data)
    }

    /// Feeds blocks of which the last may be short: it is filled with zeros. Refuses with 14 where bytes are pending.
    pub fn feed_padded(&mut self, route: Route, data: &[u8]) -> Result<u64, Refusal> {
        self.feed(ffi::khumbuseal_hash_feed_padded, route, data)
    }

    /// Feeds any bytes; what does not fill a block waits for the next piece. Refuses with 14 where the record claims
    /// more than 15 pending bytes.
    pub fn feed_piece(&mut self, route: Route, data: &[u8]) -> Result<u64, Refusal> {
        self.feed(ffi::khumbuseal_hash_feed_piece, route, data)
    }

    /// The hash of all that was fed, pending bytes filled with zeros to a block. More may be fed afterwards. Refuses
    /// with 14 where the record claims more than 15 pending bytes.
    pub fn finish(&self, route: Route) -> Result<([u8; TAG_SIZE], u64), Refusal> {
        let mut tag = [0; TAG_SIZE];
        let mut multiplies = 0;
        // SAFETY: the record and the tag have the sizes that the call reads and writes.
        done(unsafe { ffi::khumbuseal_hash_finish(self.0.as_ptr(), route as u8, tag.as_mut_ptr(), &mut multiplies) })?;
        Ok((tag, multiplies))
    }

    /// Keeps the key and forgets what was fed. Refuses with 14 where the record claims more than 15 pending bytes.
    pub fn reset(&mut self) -> Result<(), Refusal> {
        // SAFETY: the record has the size that the call reads and writes.
        done(unsafe { ffi::khumbuseal_hash_reset(self.0.as_mut_ptr()) })
    }

    /// Puts a second part, of so many blocks, behind this one, and says how many dots that took. Refuses with 14 where
    /// either has pending bytes or their keys are unlike.
    pub fn join(&mut self, second: &Hash, blocks: u64) -> Result<u64, Refusal> {
        let mut dots = 0;
        // SAFETY: both records have the size that the call reads; the first, which it writes, is not the second.
        done(unsafe { ffi::khumbuseal_hash_join(self.0.as_mut_ptr(), second.0.as_ptr(), blocks, &mut dots) })?;
        Ok(dots)
    }

    /// Whether every stored power and D value belongs to the stored key. True of every record that was started.
    pub fn key_belongs(&self) -> bool {
        // SAFETY: the record has the size that the call reads.
        unsafe { ffi::khumbuseal_hash_key_belongs(self.0.as_ptr()) == 1 }
    }
}

/// A GHASH (NIST SP 800-38D) under way. It holds its key in the clear.
#[derive(Clone, PartialEq, Eq)]
pub struct Ghash([u8; GHASH_RECORD_SIZE]);

impl core::fmt::Debug for Ghash {
    /// Shows nothing of the key or of what was fed.
    fn fmt(&self, f: &mut core::fmt::Formatter<'_>) -> core::fmt::Result {
        f.debug_struct("Ghash").finish_non_exhaustive()
    }
}

impl Ghash {
    /// Starts a GHASH under a key of 16 bytes. Refuses with 1.
    pub fn start(key: &[u8]) -> Result<Ghash, Refusal> {
        let mut record = [0; GHASH_RECORD_SIZE];
        // SAFETY: the key's pointer holds for its length, and the record has the size that the call writes.
        done(unsafe { ffi::khumbuseal_ghash_start(record.as_mut_ptr(), key.as_ptr(), key.len()) })?;
        Ok(Ghash(record))
    }

    /// A record from its bytes, as [`Ghash::as_bytes`] gave them. Any bytes are one.
    pub fn from_bytes(bytes: [u8; GHASH_RECORD_SIZE]) -> Ghash {
        Ghash(bytes)
    }

    /// The record's bytes. Whoever has them has the key.
    pub fn as_bytes(&self) -> &[u8; GHASH_RECORD_SIZE] {
        &self.0
    }

    /// Feeds blocks of which the last may be short: it is filled with zeros.
    pub fn feed_padded(&mut self, data: &[u8]) {
        // SAFETY: the record has the size that the call reads and writes, and data's pointer holds for its length.
        unsafe { ffi::khumbuseal_ghash_feed_padded(self.0.as_mut_ptr(), data.as_ptr(), data.len()) }
    }

    /// The GHASH of all that was fed. More may be fed afterwards.
    pub fn finish(&self) -> [u8; TAG_SIZE] {
        let mut tag = [0; TAG_SIZE];
        // SAFETY: the record and the tag have the sizes that the call reads and writes.
        unsafe { ffi::khumbuseal_ghash_finish(self.0.as_ptr(), tag.as_mut_ptr()) }
        tag
    }
}

/// The GHASH of whole blocks in one call. Refuses with 1, then with 3.
pub fn ghash(key: &[u8], blocks: &[u8]) -> Result<[u8; TAG_SIZE], Refusal> {
    let mut tag = [0; TAG_SIZE];
    // SAFETY: each pointer holds for its length, and the tag has the size that the call writes.
    done(unsafe { ffi::khumbuseal_ghash(key.as_ptr(), key.len(), blocks.as_ptr(), blocks.len(), tag.as_mut_ptr()) })?;
    Ok(tag)
}
