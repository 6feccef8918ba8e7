//! Khumbuseal for Rust: hashing (POLYVAL, GHASH), sealing (AES-GCM-SIV, RFC 8452) and message frames.
//!
//! Safe functions over the C face of a library that is written in Rattle and proved: each function under these is
//! proved to meet a contract that fixes its result and every byte it may write. What is here is not proved but tested:
//! that the module `ffi` declares the functions as `include/khumbuseal.h` does, and that slices are handed on as pointers with
//! their lengths. `docs/USING.md` says how to choose keys and nonces, and what to do about each refusal.
//!
//! ```
//! use khumbuseal::{frame_read, frame_write, Message, Position, Refusal};
//!
//! # fn main() -> Result<(), Refusal> {
//! let key = [7; 32]; // of your own, from a good source
//! let nonce = [1; 12]; // never the same twice under one key
//! let here = Position { lat: 279_881_000, lon: 869_250_000, alt: 536_400, time: 1_700_000_000 };
//!
//! let mut frame = [0; 48];
//! let frame = frame_write(&Message::Position(here), &key, &nonce, &mut frame)?;
//!
//! let mut plaintext = [0; khumbuseal::MAX_FRAME_PLAINTEXT];
//! let (message, taken) = frame_read(&key, frame, &mut plaintext)?;
//! assert_eq!((message, taken), (Message::Position(here), 48));
//!
//! // a frame that was cut is told of, and nothing is made of its missing bytes
//! assert_eq!(frame_read(&key, &frame[..47], &mut plaintext), Err(Refusal::CutShort));
//! # Ok(())
//! # }
//! ```
#![no_std]
#![deny(missing_docs, unsafe_op_in_unsafe_fn)]

mod ffi;
mod frames;
mod hashing;
mod refusal;
mod sealing;

pub use frames::{frame_front, frame_read, frame_write, scan, Kind, Message, Position, Scan};
pub use frames::{
    ALTITUDES, FRAME_OVERHEAD, LATITUDES, LONGITUDES, MARK, MAX_FRAME, MAX_FRAME_PLAINTEXT, POSITION_SIZE,
};
pub use hashing::{ghash, Ghash, Hash, Route, GHASH_RECORD_SIZE, HASH_KEY_SIZE, RECORD_SIZE, STORED_KEY_SIZE};
pub use refusal::Refusal;
pub use sealing::{open, seal, MAX_AD, MAX_PLAINTEXT, MAX_SEALED, NONCE_SIZE, TAG_SIZE};
