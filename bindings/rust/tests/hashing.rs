//! RFC 8452 appendix A, document 01's "Field", "Feeding and joining" and "Cost".

mod common;

use common::unhex;
use khumbuseal::{ghash, Ghash, Hash, Refusal, Route, HASH_KEY_SIZE, RECORD_SIZE, STORED_KEY_SIZE};

const ROUTES: [Route; 3] = [Route::Wide, Route::Narrow, Route::Rf];

/// Where a record has the count of its pending bytes: behind the key, the sum and the pending store.
const COUNT: usize = STORED_KEY_SIZE + 32;

fn h() -> Vec<u8> {
    unhex("25629347589242761d31f826ba4b757b")
}

fn x() -> Vec<u8> {
    unhex("4f4f95668c83dfb6401762bb2d01a262d1a24ddd2721d006bbe45f20d3c9f362")
}

fn polyval_of_x() -> Vec<u8> {
    unhex("f7a3b47b846119fae5b7866cf5e5b77e")
}

fn start(key: &[u8]) -> Hash {
    let (hash, multiplies) = Hash::start(key).unwrap();
    assert_eq!(multiplies, 19);
    hash
}

fn tag_of(hash: &Hash, route: Route) -> Vec<u8> {
    hash.finish(route).unwrap().0.to_vec()
}

#[test]
fn appendix_a_by_every_feed_and_route() {
    for route in ROUTES {
        let cost = |multiplies| if route == Route::Rf { multiplies } else { 0 };
        let mut hash = start(&h());
        assert_eq!(hash.feed_blocks(route, &x()), Ok(cost(10)));
        assert_eq!(tag_of(&hash, route), polyval_of_x());
        hash.reset().unwrap();
        assert!(hash == start(&h()));
        assert_eq!(hash.feed_padded(route, &x()), Ok(cost(10)));
        assert_eq!(tag_of(&hash, route), polyval_of_x());
        for cut in 0..=32 {
            let mut hash = start(&h());
            assert_eq!(hash.feed_piece(route, &x()[..cut]), Ok(cost(5 * (cut as u64 / 16))));
            assert_eq!(hash.as_bytes()[COUNT], cut as u8 % 16);
            hash.feed_piece(route, &x()[cut..]).unwrap();
            assert_eq!(tag_of(&hash, route), polyval_of_x());
        }
    }
}

#[test]
fn the_unit_and_the_zero_key() {
    for route in ROUTES {
        let mut hash = start(&unhex("010000000000000000000000000000c2"));
        hash.feed_blocks(route, &x()[..16]).unwrap();
        assert_eq!(tag_of(&hash, route), x()[..16]);
        let mut hash = start(&[0; 16]);
        hash.feed_padded(route, &x()[..17]).unwrap();
        assert_eq!(tag_of(&hash, route), [0; 16]);
    }
}

#[test]
fn a_refused_call_yields_nothing_and_leaves_the_record() {
    for size in (0..40).filter(|&size| size != HASH_KEY_SIZE) {
        assert_eq!(Hash::start(&[1; 40][..size]).err(), Some(Refusal::KeyLength));
    }
    for route in ROUTES {
        let mut hash = start(&h());
        assert_eq!(hash.feed_blocks(route, &[0; 15]), Err(Refusal::NotWholeBlocks));
        hash.feed_piece(route, &x()[..15]).unwrap();
        let before = hash.clone();
        assert_eq!(hash.feed_blocks(route, &[0; 15]), Err(Refusal::BadRecord));
        assert_eq!(hash.feed_padded(route, &[]), Err(Refusal::BadRecord));
        assert!(hash == before);
        hash.feed_piece(route, &x()[15..]).unwrap();
        assert_eq!(tag_of(&hash, route), polyval_of_x());
    }
}

#[test]
fn a_record_that_claims_too_much() {
    let mut bytes = *start(&h()).as_bytes();
    bytes[COUNT] = 16;
    for route in ROUTES {
        let mut hash = Hash::from_bytes(bytes);
        assert_eq!(hash.feed_blocks(route, &[]), Err(Refusal::BadRecord));
        assert_eq!(hash.feed_padded(route, &[]), Err(Refusal::BadRecord));
        assert_eq!(hash.feed_piece(route, &[]), Err(Refusal::BadRecord));
        assert_eq!(hash.finish(route), Err(Refusal::BadRecord));
        assert_eq!(hash.reset(), Err(Refusal::BadRecord));
        assert_eq!(hash.as_bytes(), &bytes);
    }
}

#[test]
fn whether_the_stored_key_belongs() {
    let right = *start(&h()).as_bytes();
    assert!(Hash::from_bytes(right).key_belongs());
    assert_eq!(format!("{:?}", Hash::from_bytes(right)), "Hash { .. }");
    for at in 0..RECORD_SIZE {
        let mut bytes = right;
        bytes[at] ^= 4;
        assert_eq!(Hash::from_bytes(bytes).key_belongs(), at >= STORED_KEY_SIZE);
    }
    assert!(Hash::from_bytes([0; RECORD_SIZE]).key_belongs());
}

#[test]
fn parts_join() {
    let (mut first, mut second) = (start(&h()), start(&h()));
    first.feed_blocks(Route::Wide, &x()[..16]).unwrap();
    second.feed_blocks(Route::Rf, &x()[16..]).unwrap();
    assert_eq!(first.join(&second, 1), Ok(1));
    assert_eq!(tag_of(&first, Route::Narrow), polyval_of_x());
    assert_eq!(first.join(&second, u64::MAX), Ok(127));
    let before = first.clone();
    assert_eq!(first.join(&start(&[1; 16]), 1), Err(Refusal::BadRecord));
    second.feed_piece(Route::Wide, &[1]).unwrap();
    assert_eq!(first.join(&second, 1), Err(Refusal::BadRecord));
    assert!(first == before);
}

#[test]
fn ghash_of_appendix_a() {
    let tag = unhex("bd9b3997046731fb96251b91f9c99d7a");
    assert_eq!(ghash(&h(), &x()).unwrap().to_vec(), tag);
    assert_eq!(ghash(&h()[..15], &x()[..31]), Err(Refusal::KeyLength));
    assert_eq!(ghash(&h(), &x()[..31]), Err(Refusal::NotWholeBlocks));
    let mut parts = Ghash::start(&h()).unwrap();
    parts.feed_padded(&x()[..16]);
    parts.feed_padded(&[]);
    let mut parts = Ghash::from_bytes(*parts.as_bytes());
    parts.feed_padded(&x()[16..]);
    assert_eq!(parts.finish().to_vec(), tag);
    assert_eq!(Ghash::start(&[0; HASH_KEY_SIZE + 1]).err(), Some(Refusal::KeyLength));
}
