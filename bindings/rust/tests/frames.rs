//! Document 01, "Frame (ours)" and "Cases". The frames written out here were made by tests/second.

mod common;

use common::unhex;
use khumbuseal::{frame_front, frame_read, frame_write, scan, seal, Kind, Message, Position, Refusal, Scan};
use khumbuseal::{
    ALTITUDES, FRAME_OVERHEAD, LATITUDES, LONGITUDES, MARK, MAX_FRAME, MAX_FRAME_PLAINTEXT, POSITION_SIZE,
};

/// Buffers are filled with this byte, so that one which a call should have left alone shows.
const UNTOUCHED: u8 = 0xA5;

const HERE: Position = Position { lat: 279_881_000, lon: -9_999_999, alt: -50_000, time: 1_700_000_000 };

fn key() -> Vec<u8> {
    (0..32).collect()
}

fn nonce() -> Vec<u8> {
    (16..28).collect()
}

fn position_frame() -> Vec<u8> {
    unhex("4b012000101112131415161718191a1bd99a57be4dc87c7ad298cf8afe7d48f23b7968b2b2a1e1e60161fe1e1a545a9d")
}

fn text_frame() -> Vec<u8> {
    unhex("4b021600101112131415161718191a1bc549a50a20b42efee04207704ac0a2dc5c52af5b9ce0")
}

fn check_in_frame() -> Vec<u8> {
    unhex("4b031000101112131415161718191a1b004abc394f9e3c43dab740b192c466c5")
}

#[test]
fn frames_are_written_and_read() {
    let cases = [
        (Message::Position(HERE), 16, position_frame()),
        (Message::Text(b"Namche"), 32, text_frame()),
        (Message::CheckIn, 16, check_in_frame()),
    ];
    for (message, key_len, frame) in cases {
        let mut out = [UNTOUCHED; 200];
        assert_eq!(frame_write(&message, &key()[..key_len], &nonce(), &mut out).unwrap(), frame);
        assert!(out[frame.len()..].iter().all(|&b| b == UNTOUCHED));
        let followed = [&frame[..], b"more"].concat();
        let mut out = [UNTOUCHED; MAX_FRAME_PLAINTEXT];
        assert_eq!(frame_read(&key()[..key_len], &followed, &mut out), Ok((message, frame.len())));
        for cut in 0..frame.len() {
            let mut out = [UNTOUCHED; MAX_FRAME_PLAINTEXT];
            assert_eq!(frame_read(&key()[..key_len], &frame[..cut], &mut out), Err(Refusal::CutShort));
            assert_eq!(out, [UNTOUCHED; MAX_FRAME_PLAINTEXT]);
        }
        for at in 4..frame.len() {
            let (mut damaged, mut out) = (frame.clone(), [UNTOUCHED; MAX_FRAME_PLAINTEXT]);
            damaged[at] ^= 1;
            assert_eq!(frame_read(&key()[..key_len], &damaged, &mut out), Err(Refusal::TagDiffers));
            assert_eq!(out, [UNTOUCHED; MAX_FRAME_PLAINTEXT]);
        }
    }
}

#[test]
fn writing_refuses_in_order() {
    let far = Message::Position(Position { alt: ALTITUDES.end() + 1, ..HERE });
    let mut out = [UNTOUCHED; 300];
    let mut write = |message: &Message, key_len: usize, nonce: &[u8], room: usize| {
        let refusal = frame_write(message, &key()[..key_len], nonce, &mut out[..room]).err();
        assert_eq!(out, [UNTOUCHED; 300]);
        refusal
    };
    assert_eq!(write(&Message::Text(&[]), 15, &[], 0), Some(Refusal::LengthForKind));
    assert_eq!(write(&Message::Text(&[0; MAX_FRAME_PLAINTEXT + 1]), 15, &[], 0), Some(Refusal::LengthForKind));
    assert_eq!(write(&far, 15, &[], 0), Some(Refusal::OutOfRange));
    assert_eq!(write(&Message::Text(&[0; MAX_FRAME_PLAINTEXT]), 15, &[], 0), Some(Refusal::KeyLength));
    assert_eq!(write(&Message::Position(HERE), 32, &[], 0), Some(Refusal::NonceLength));
    assert_eq!(write(&Message::CheckIn, 32, &nonce(), FRAME_OVERHEAD - 1), Some(Refusal::NoRoom));
}

#[test]
fn reading_refuses_in_order() {
    let order = [
        Refusal::NotAFrame,
        Refusal::UnknownKind,
        Refusal::LengthForKind,
        Refusal::CutShort,
        Refusal::KeyLength,
        Refusal::NoRoom,
        Refusal::TagDiffers,
        Refusal::OutOfRange,
    ];
    let front = [MARK, Kind::Position as u8, 32, 0];
    for faults in 0..256usize {
        let has = |fault: usize| faults >> fault & 1 == 1;
        let there = Position { alt: ALTITUDES.end() + i32::from(has(7)), ..HERE };
        let mut frame = [&front, &nonce()[..], &[0; 32]].concat();
        seal(&key(), &nonce(), &front, &there.to_bytes(), &mut frame[16..]).unwrap();
        *frame.last_mut().unwrap() ^= u8::from(has(6));
        frame[2] += u8::from(has(2));
        frame[1] = if has(1) { Kind::CheckIn as u8 + 1 } else { Kind::Position as u8 };
        frame[0] -= u8::from(has(0));
        let mut out = [UNTOUCHED; POSITION_SIZE];
        let data = &frame[..frame.len() - usize::from(has(3))];
        let room = POSITION_SIZE - usize::from(has(5));
        let given = frame_read(&key()[..if has(4) { 31 } else { 32 }], data, &mut out[..room]);
        match order.iter().enumerate().find(|(fault, _)| has(*fault)) {
            None => assert_eq!(given, Ok((Message::Position(there), POSITION_SIZE + FRAME_OVERHEAD))),
            Some((_, &refusal)) => {
                assert_eq!(given, Err(refusal));
                assert_eq!(out, [UNTOUCHED; POSITION_SIZE]);
            }
        }
    }
}

#[test]
fn fronts_of_document_01() {
    let front = |start: &[u8], size: usize| {
        let mut data = start.to_vec();
        data.resize(size, 0);
        frame_front(&data)
    };
    assert_eq!(front(&[], 0), Err(Refusal::CutShort));
    let [position, text, check_in] = [Kind::Position as u8, Kind::Text as u8, Kind::CheckIn as u8];
    assert_eq!(front(&[MARK - 1], 1), Err(Refusal::NotAFrame));
    assert_eq!(front(&[MARK], 1), Err(Refusal::CutShort));
    assert_eq!(front(&[MARK, 0], 2), Err(Refusal::UnknownKind));
    assert_eq!(front(&[MARK, text, 177, 0], 4), Err(Refusal::LengthForKind));
    assert_eq!(front(&[MARK, text, 176, 0], MAX_FRAME - 1), Err(Refusal::CutShort));
    assert_eq!(front(&[MARK, text, 176, 0], MAX_FRAME), Ok((Kind::Text, MAX_FRAME)));
    assert_eq!(front(&[MARK, position, 32, 0], 48), Ok((Kind::Position, 48)));
    assert_eq!(front(&[MARK, check_in, 16, 0], 100), Ok((Kind::CheckIn, FRAME_OVERHEAD)));
}

#[test]
fn a_log_is_scanned() {
    let log = [position_frame(), text_frame(), check_in_frame()].concat();
    let ends = [0, 48, 86, 118];
    for size in 0..=log.len() {
        let frames = ends.iter().filter(|&&end| end <= size).count() - 1;
        let stop = if size == ends[frames] { None } else { Some(Refusal::CutShort) };
        assert_eq!(scan(&log[..size]), Scan { whole: &log[..ends[frames]], frames: frames as u64, stop });
    }
    let more = [&log[..], &[0]].concat();
    assert_eq!(scan(&more), Scan { whole: &log, frames: 3, stop: Some(Refusal::NotAFrame) });
}

#[test]
fn positions_keep_their_signs() {
    let cases = [
        (Position { lat: -1, lon: -1, alt: -1, time: 1 }, "ffffffffffffffffffffffff01000000", true),
        (
            Position { lat: -9_999_999, lon: 9_999_999, alt: -50_001, time: 0 },
            "816967ff7f969800af3cffff00000000",
            false,
        ),
        (
            Position { lat: *LATITUDES.start(), lon: *LONGITUDES.start(), alt: *ALTITUDES.start(), time: u32::MAX },
            "00175bca002eb694b03cffffffffffff",
            true,
        ),
        (
            Position { lat: *LATITUDES.end(), lon: *LONGITUDES.end(), alt: *ALTITUDES.end(), time: 0 },
            "00e9a43500d2496b40420f0000000000",
            true,
        ),
        (
            Position { lat: i32::MIN, lon: i32::MAX, alt: i32::MIN, time: 1 << 31 },
            "00000080ffffff7f0000008000000080",
            false,
        ),
    ];
    for (position, bytes, in_range) in cases {
        assert_eq!(position.to_bytes().to_vec(), unhex(bytes));
        assert_eq!(Position::from_bytes(&unhex(bytes).try_into().unwrap()), position);
        assert_eq!(position.is_in_range(), in_range);
    }
}
