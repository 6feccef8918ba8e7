//! The binding's numbers, each by its literal: document 01's answers, limits, kinds and ranges, and the sizes of RFC
//! 8452. The other tests use the names alone, so that two numbers exchanged are seen here.

use khumbuseal::{Kind, Refusal, Route};

#[test]
fn answers() {
    let numbers = [
        (Refusal::KeyLength, 1),
        (Refusal::NonceLength, 2),
        (Refusal::NotWholeBlocks, 3),
        (Refusal::AdTooLong, 4),
        (Refusal::TextTooLong, 5),
        (Refusal::SealedTooShort, 6),
        (Refusal::NoRoom, 7),
        (Refusal::TagDiffers, 8),
        (Refusal::NotAFrame, 9),
        (Refusal::UnknownKind, 10),
        (Refusal::LengthForKind, 11),
        (Refusal::CutShort, 12),
        (Refusal::OutOfRange, 13),
        (Refusal::BadRecord, 14),
        (Refusal::LogTooLong, 15),
    ];
    for (refusal, number) in numbers {
        assert_eq!(refusal.number(), number);
        assert_eq!(Refusal::from_number(number), Some(refusal));
    }
    assert_eq!(Refusal::from_number(0), None);
    for number in numbers.len() + 1..=255 {
        assert_eq!(Refusal::from_number(number as u8), None);
    }
    assert_eq!(Refusal::CutShort.to_string(), "the frame is cut short");
}

#[test]
fn kinds_and_routes() {
    assert_eq!([Kind::Position as u8, Kind::Text as u8, Kind::CheckIn as u8], [1, 2, 3]);
    assert_eq!([Route::Wide as u8, Route::Narrow as u8, Route::Rf as u8], [0, 1, 2]);
    assert_eq!(khumbuseal::MARK, 0x4B);
}

#[test]
fn sizes_and_limits() {
    assert_eq!(khumbuseal::RECORD_SIZE, 168);
    assert_eq!(khumbuseal::STORED_KEY_SIZE, 128);
    assert_eq!(khumbuseal::GHASH_RECORD_SIZE, 32);
    assert_eq!(khumbuseal::HASH_KEY_SIZE, 16);
    assert_eq!(khumbuseal::TAG_SIZE, 16);
    assert_eq!(khumbuseal::NONCE_SIZE, 12);
    assert_eq!(khumbuseal::MAX_AD, 1024);
    assert_eq!(khumbuseal::MAX_PLAINTEXT, 65536);
    assert_eq!(khumbuseal::MAX_SEALED, 65552);
    assert_eq!(khumbuseal::POSITION_SIZE, 16);
    assert_eq!(khumbuseal::FRAME_OVERHEAD, 32);
    assert_eq!(khumbuseal::MAX_FRAME_PLAINTEXT, 160);
    assert_eq!(khumbuseal::MAX_FRAME, 192);
}

#[test]
fn ranges() {
    assert_eq!(khumbuseal::LATITUDES, -900_000_000..=900_000_000);
    assert_eq!(khumbuseal::LONGITUDES, -1_800_000_000..=1_800_000_000);
    assert_eq!(khumbuseal::ALTITUDES, -50_000..=1_000_000);
}
