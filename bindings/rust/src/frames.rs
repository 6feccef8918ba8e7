//! Frames: positions, texts and check-ins, sealed; what stands at the front of a log, and its scan.

use core::ops::RangeInclusive;

use crate::ffi;
use crate::refusal::{done, Refusal};

/// The byte that a frame begins with.
pub const MARK: u8 = 0x4B;
/// The longest plaintext of a frame: so much room is enough for [`frame_read`].
pub const MAX_FRAME_PLAINTEXT: usize = 160;
/// The longest frame: so much room is enough for [`frame_write`].
pub const MAX_FRAME: usize = 192;
/// What a frame has besides its plaintext: 16 bytes in front, and the tag.
pub const FRAME_OVERHEAD: usize = 32;
/// The bytes of a position, which are the plaintext of its frame.
pub const POSITION_SIZE: usize = 16;
/// The latitudes that a frame may hold, in 10^-7 degree.
pub const LATITUDES: RangeInclusive<i32> = -900_000_000..=900_000_000;
/// The longitudes that a frame may hold, in 10^-7 degree.
pub const LONGITUDES: RangeInclusive<i32> = -1_800_000_000..=1_800_000_000;
/// The altitudes that a frame may hold, in cm.
pub const ALTITUDES: RangeInclusive<i32> = -50_000..=1_000_000;

/// A position in the units that a frame holds.
#[derive(Clone, Copy, Debug, PartialEq, Eq)]
pub struct Position {
    /// Latitude in 10^-7 degree: one of [`LATITUDES`].
    pub lat: i32,
    /// Longitude in 10^-7 degree: one of [`LONGITUDES`].
    pub lon: i32,
    /// Altitude in cm: one of [`ALTITUDES`].
    pub alt: i32,
    /// Time in seconds.
    pub time: u32,
}

impl Position {
    /// The sixteen bytes of the position, in range or not.
    pub fn to_bytes(self) -> [u8; POSITION_SIZE] {
        let mut bytes = [0; POSITION_SIZE];
        // SAFETY: bytes has the size that the call writes.
        unsafe { ffi::khumbuseal_position_to_bytes(self.lat, self.lon, self.alt, self.time, bytes.as_mut_ptr()) }
        bytes
    }

    /// The position that sixteen bytes spell, in range or not.
    pub fn from_bytes(bytes: &[u8; POSITION_SIZE]) -> Position {
        let mut p = Position { lat: 0, lon: 0, alt: 0, time: 0 };
        // SAFETY: bytes has the size that the call reads; the four cells are apart.
        unsafe { ffi::khumbuseal_position_from_bytes(bytes.as_ptr(), &mut p.lat, &mut p.lon, &mut p.alt, &mut p.time) }
        p
    }

    /// Whether a frame may hold it.
    pub fn is_in_range(self) -> bool {
        // SAFETY: the call takes numbers alone.
        unsafe { ffi::khumbuseal_position_is_in_range(self.lat, self.lon, self.alt) == 1 }
    }
}

/// The kinds of frame.
#[derive(Clone, Copy, Debug, PartialEq, Eq)]
#[repr(u8)]
pub enum Kind {
    /// A position.
    Position = 1,
    /// A text of 1 to 160 bytes, any bytes.
    Text = 2,
    /// A check-in, which says nothing more.
    CheckIn = 3,
}

/// What a frame says.
#[derive(Clone, Copy, Debug, PartialEq, Eq)]
pub enum Message<'a> {
    /// Where, how high and when.
    Position(Position),
    /// A text of 1 to 160 bytes, any bytes.
    Text(&'a [u8]),
    /// That the sender is there.
    CheckIn,
}

/// The kind of a whole frame.
fn kind_of(number: u8) -> Kind {
    match number {
        1 => Kind::Position,
        2 => Kind::Text,
        3 => Kind::CheckIn,
        _ => unreachable!("the library accepts no other kind"),
    }
}

/// Writes a frame: the front of `out` gets it and is handed back; it needs 32 bytes more than the plaintext has (16 in
/// a position, none in a check-in). Take a fresh nonce for each frame under a key. Refuses with 11, 13, 1, 2, 7, in
/// this order.
pub fn frame_write<'a>(
    message: &Message<'_>,
    key: &[u8],
    nonce: &[u8],
    out: &'a mut [u8],
) -> Result<&'a mut [u8], Refusal> {
    let fields;
    let (kind, plaintext): (Kind, &[u8]) = match *message {
        Message::Position(position) => {
            fields = position.to_bytes();
            (Kind::Position, &fields)
        }
        Message::Text(text) => (Kind::Text, text),
        Message::CheckIn => (Kind::CheckIn, &[]),
    };
    let mut written = 0;
    // SAFETY: each pointer holds for its length; `out` and the cell, which are written, overlap nothing.
    done(unsafe {
        ffi::khumbuseal_frame_write(
            kind as u8,
            key.as_ptr(),
            key.len(),
            nonce.as_ptr(),
            nonce.len(),
            plaintext.as_ptr(),
            plaintext.len(),
            out.as_mut_ptr(),
            out.len(),
            &mut written,
        )
    })?;
    Ok(&mut out[..written])
}

/// Reads the first frame of `data`: what it says, and how many bytes it took. What follows it is ignored. Its plaintext
/// goes to the front of `out`, once the tag has agreed. Refuses with 9, 10, 11, 12, 1, 7, 8, 13, in this order.
pub fn frame_read<'a>(key: &[u8], data: &[u8], out: &'a mut [u8]) -> Result<(Message<'a>, usize), Refusal> {
    let (mut kind, mut len, mut taken) = (0, 0, 0);
    let mut p = Position { lat: 0, lon: 0, alt: 0, time: 0 };
    // SAFETY: each pointer holds for its length; `out` and the cells, which are written, overlap nothing.
    done(unsafe {
        ffi::khumbuseal_frame_read(
            key.as_ptr(),
            key.len(),
            data.as_ptr(),
            data.len(),
            out.as_mut_ptr(),
            out.len(),
            &mut kind,
            &mut len,
            &mut taken,
            &mut p.lat,
            &mut p.lon,
            &mut p.alt,
            &mut p.time,
        )
    })?;
    let message = match kind_of(kind) {
        Kind::Position => Message::Position(p),
        Kind::Text => Message::Text(&out[..len]),
        Kind::CheckIn => Message::CheckIn,
    };
    Ok((message, taken))
}

/// The kind and the bytes of the whole frame that `data` begins with. Needs no key, and does not say that it opens.
/// Refuses with 9, 10, 11, 12, in this order.
pub fn frame_front(data: &[u8]) -> Result<(Kind, usize), Refusal> {
    let (mut kind, mut taken) = (0, 0);
    // SAFETY: data's pointer holds for its length; the cells are apart.
    done(unsafe { ffi::khumbuseal_frame_front(data.as_ptr(), data.len(), &mut kind, &mut taken) })?;
    Ok((kind_of(kind), taken))
}

/// What a scan found.
#[derive(Clone, Copy, Debug, PartialEq, Eq)]
pub struct Scan<'a> {
    /// The longest prefix of the log that is made of whole frames.
    pub whole: &'a [u8],
    /// How many they are.
    pub frames: u64,
    /// Why no frame follows them; none at the exact end of the log. It is no refusal: the frames before it stand.
    pub stop: Option<Refusal>,
}

/// Scans a log for whole frames. Needs no key, and does not say that they open.
pub fn scan(log: &[u8]) -> Scan<'_> {
    let (mut frames, mut stop) = (0, 0);
    // SAFETY: log's pointer holds for its length; the cells are apart.
    let taken = unsafe { ffi::khumbuseal_scan(log.as_ptr(), log.len(), &mut frames, &mut stop) };
    Scan { whole: &log[..taken], frames, stop: done(stop).err() }
}
