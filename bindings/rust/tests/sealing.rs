//! RFC 8452's lists, and the refusals of sealing and opening in document 01's order.

mod common;

use common::unhex;
use khumbuseal::{open, seal, Refusal, MAX_AD, MAX_PLAINTEXT, MAX_SEALED, NONCE_SIZE, TAG_SIZE};

/// Buffers are filled with this byte, so that one which a call should have left alone shows.
const UNTOUCHED: u8 = 0xA5;

const APPENDIX_C: &str = include_str!("../../../tests/vectors/rfc8452_appendix_c.txt");
const SECTION_8: &str = include_str!("../../../tests/vectors/rfc8452_section_8.txt");

/// The lines of both lists, `REQUEST = ANSWER`: whether one was altered, the words of its request and of its answer.
fn lines() -> impl Iterator<Item = (bool, Vec<&'static str>, Vec<&'static str>)> {
    APPENDIX_C.lines().chain(SECTION_8.lines()).filter(|line| !line.starts_with('#')).map(|line| {
        let (request, answer) = line.trim_start_matches('!').split_once(" = ").unwrap();
        (line.starts_with('!'), request.split(' ').collect(), answer.split(' ').collect())
    })
}

/// What a request to seal or to open answers: the number, and all of the buffer. What is handed back is the buffer's front.
fn answered(request: &[&str]) -> (u8, Vec<u8>) {
    let [key, nonce, ad, text] = [1, 2, 3, 4].map(|at| unhex(request[at]));
    let mut out = vec![UNTOUCHED; request[5].parse().unwrap()];
    let given = match request[0] {
        "seal" => seal(&key, &nonce, &ad, &text, &mut out),
        "open" => open(&key, &nonce, &ad, &text, &mut out),
        other => panic!("{other} is neither"),
    };
    let given = given.map(|part| part.to_vec());
    if let Ok(part) = &given {
        assert_eq!(part, &out[..part.len()]);
        assert_eq!(part.len(), if request[0] == "seal" { text.len() + 16 } else { text.len() - 16 });
    }
    (given.err().map_or(0, Refusal::number), out)
}

#[test]
fn the_lists_of_rfc_8452() {
    let mut right = 0;
    for (altered, request, answer) in lines() {
        let wanted = (answer[0].parse().unwrap(), unhex(answer[1]));
        assert_eq!(answered(&request) == wanted, !altered, "{request:?}");
        right += usize::from(!altered);
    }
    assert!(right > 350);
}

/// The first refusal of the order whose fault is in the set.
fn first_of(order: &[Refusal], faults: usize) -> Option<Refusal> {
    (0..order.len()).find(|i| faults >> i & 1 == 1).map(|i| order[i])
}

#[test]
fn sealing_refuses_in_order() {
    for faults in 0..32 {
        let has = |fault: usize| faults >> fault & 1 == 1;
        let text = vec![4; MAX_PLAINTEXT + usize::from(has(3))];
        let mut out = vec![UNTOUCHED; text.len() + TAG_SIZE - usize::from(has(4))];
        let given = seal(
            &[1; 32][..if has(0) { 31 } else { 32 }],
            &[2; NONCE_SIZE][..NONCE_SIZE - usize::from(has(1))],
            &vec![3; MAX_AD + usize::from(has(2))],
            &text,
            &mut out,
        );
        let order =
            [Refusal::KeyLength, Refusal::NonceLength, Refusal::AdTooLong, Refusal::TextTooLong, Refusal::NoRoom];
        let wanted = first_of(&order, faults);
        assert_eq!(given.err(), wanted);
        assert!(wanted.is_none() || out.iter().all(|&b| b == UNTOUCHED));
    }
}

#[test]
fn opening_refuses_in_order() {
    for faults in 0..128 {
        let has = |fault: usize| faults >> fault & 1 == 1;
        if has(3) && has(4) {
            continue; // too short and too long at once
        }
        let mut sealed = [0; MAX_SEALED + 1];
        seal(&[1; 16], &[2; NONCE_SIZE], &[3; MAX_AD], &[4; MAX_PLAINTEXT], &mut sealed).unwrap();
        sealed[MAX_SEALED - 1] ^= u8::from(has(6));
        let size = if has(3) { TAG_SIZE - 1 } else { MAX_SEALED + usize::from(has(4)) };
        let mut out = vec![UNTOUCHED; size.saturating_sub(TAG_SIZE + usize::from(has(5)))];
        let given = open(
            &[1; 16][..if has(0) { 0 } else { 16 }],
            &[2; NONCE_SIZE + 1][..NONCE_SIZE + usize::from(has(1))],
            &vec![3; MAX_AD + usize::from(has(2))],
            &sealed[..size],
            &mut out,
        );
        let order = [
            Refusal::KeyLength,
            Refusal::NonceLength,
            Refusal::AdTooLong,
            Refusal::SealedTooShort,
            Refusal::TextTooLong,
            Refusal::NoRoom,
            Refusal::TagDiffers,
        ];
        let wanted = first_of(&order, faults);
        assert_eq!(given.err(), wanted);
        assert!(out.iter().all(|&b| b == if wanted.is_none() { 4 } else { UNTOUCHED }));
    }
}
