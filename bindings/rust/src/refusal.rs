//! The answers of document 01. Answer 0, done, is `Ok`.

/// Why a call refused, with document 01's number. What was lent to a refused call is as it was before.
#[derive(Clone, Copy, Debug, PartialEq, Eq, Hash)]
#[repr(u8)]
pub enum Refusal {
    /// The hash key is not 16 bytes, or the sealing key not 16 or 32.
    KeyLength = 1,
    /// The nonce is not 12 bytes.
    NonceLength = 2,
    /// A whole-block feed whose length is not a multiple of 16.
    NotWholeBlocks = 3,
    /// The associated data is over [`MAX_AD`](crate::MAX_AD).
    AdTooLong = 4,
    /// The plaintext is over [`MAX_PLAINTEXT`](crate::MAX_PLAINTEXT), or the sealed part over
    /// [`MAX_SEALED`](crate::MAX_SEALED).
    TextTooLong = 5,
    /// The sealed part is under 16 bytes.
    SealedTooShort = 6,
    /// The output is too small.
    NoRoom = 7,
    /// Not what was sealed: the key, the nonce, the associated data or a byte differs.
    TagDiffers = 8,
    /// The first byte is not 0x4B.
    NotAFrame = 9,
    /// There is no such kind of frame.
    UnknownKind = 10,
    /// The length is not allowed for the kind.
    LengthForKind = 11,
    /// The frame is cut short.
    CutShort = 12,
    /// The position is out of range.
    OutOfRange = 13,
    /// The record claims more than 15 pending bytes, has some where none may be, or its key is unlike the other's.
    BadRecord = 14,
    /// A program's log is over its limit. No function of this crate answers it.
    LogTooLong = 15,
}

impl Refusal {
    const ALL: [Refusal; 15] = [
        Refusal::KeyLength,
        Refusal::NonceLength,
        Refusal::NotWholeBlocks,
        Refusal::AdTooLong,
        Refusal::TextTooLong,
        Refusal::SealedTooShort,
        Refusal::NoRoom,
        Refusal::TagDiffers,
        Refusal::NotAFrame,
        Refusal::UnknownKind,
        Refusal::LengthForKind,
        Refusal::CutShort,
        Refusal::OutOfRange,
        Refusal::BadRecord,
        Refusal::LogTooLong,
    ];

    /// Document 01's number, 1 to 15.
    pub const fn number(self) -> u8 {
        self as u8
    }

    /// The refusal that has this number. There is none for 0, which means done, and none over 15.
    pub fn from_number(number: u8) -> Option<Refusal> {
        Refusal::ALL.get(usize::from(number).wrapping_sub(1)).copied()
    }
}

impl core::fmt::Display for Refusal {
    fn fmt(&self, f: &mut core::fmt::Formatter<'_>) -> core::fmt::Result {
        f.write_str(match self {
            Refusal::KeyLength => "the key is of a wrong length",
            Refusal::NonceLength => "the nonce is not 12 bytes long",
            Refusal::NotWholeBlocks => "the length is not a multiple of 16",
            Refusal::AdTooLong => "the associated data is too long",
            Refusal::TextTooLong => "the text is too long",
            Refusal::SealedTooShort => "the sealed part is under 16 bytes",
            Refusal::NoRoom => "the output is too small",
            Refusal::TagDiffers => "the tag differs",
            Refusal::NotAFrame => "no frame stands here",
            Refusal::UnknownKind => "the kind of frame is unknown",
            Refusal::LengthForKind => "the length is not allowed for the kind",
            Refusal::CutShort => "the frame is cut short",
            Refusal::OutOfRange => "the position is out of range",
            Refusal::BadRecord => "the hash record does not allow this",
            Refusal::LogTooLong => "the log is too long",
        })
    }
}

impl core::error::Error for Refusal {}

/// Answer 0 as `Ok`, any other as its refusal.
pub(crate) fn done(answer: u8) -> Result<(), Refusal> {
    match Refusal::from_number(answer) {
        Some(refusal) => Err(refusal),
        None if answer == 0 => Ok(()),
        None => unreachable!("no contract of the library allows this answer"),
    }
}
