//! Times hashing, sealing and opening: ours, the crate polyval 0.7.3 with its software backend on 64-bit limbs, and
//! BearSSL. All in this one process, each in its turn in every round, so that the machine's moods meet all alike.
//! Time is the processor's for this thread, so that other work on the machine does not count.
//! Prints a row for each: what, who, and the median, least and greatest time in nanoseconds, parted by tabs.

use std::hint::black_box;

mod others;
mod ours;

const ROUNDS: usize = 21;
const HASHED: usize = 1 << 20;
const SEALED: [usize; 3] = [16, 160, 4096];

/// A round of a short call repeats it, so that the clock's own grain does not show.
const LEAST_NANOSECONDS: f64 = 200_000.0;

const KEY: [u8; 32] = [
    0x25, 0x62, 0x93, 0x47, 0x58, 0x92, 0x42, 0x76, 0x1d, 0x31, 0xf8, 0x26, 0xba, 0x4b, 0x75, 0x7b,
    0x01, 0x23, 0x45, 0x67, 0x89, 0xab, 0xcd, 0xef, 0xfe, 0xdc, 0xba, 0x98, 0x76, 0x54, 0x32, 0x10,
];
/// Of 16 bytes, which hashing takes too, and of 32.
pub const KEYS: [&[u8]; 2] = [KEY.split_at(16).0, &KEY];
pub const NONCE: [u8; 12] = *b"twelve bytes";

/// Who does it, and one call of it.
pub struct Contender<'a> {
    pub who: String,
    pub call: Box<dyn FnMut() + 'a>,
}

pub fn contender<'a>(who: String, call: impl FnMut() + 'a) -> Contender<'a> {
    Contender {
        who,
        call: Box::new(call),
    }
}

fn main() {
    let data = noise(HASHED);
    others::agree_with(&ours::hashes(&data), &data);
    let mut hashing = others::hashing(&data);
    hashing.extend(ours::hashing(&data));
    time("hash 1 MiB", hashing);
    for len in SEALED {
        let text = &data[..len];
        let mut sealing = others::sealing(text);
        sealing.extend(ours::sealing(text));
        time(&format!("seal {len} bytes"), sealing);
        let mut opening = others::opening(text);
        opening.extend(ours::opening(text));
        time(&format!("open {len} bytes"), opening);
    }
}

/// Bytes without a pattern.
fn noise(len: usize) -> Vec<u8> {
    let mut state = 1u64;
    let mut next = || {
        state ^= state << 13;
        state ^= state >> 7;
        state ^= state << 17;
        state as u8
    };
    (0..len).map(|_| next()).collect()
}

fn time(what: &str, mut contenders: Vec<Contender>) {
    let repeats: Vec<usize> = contenders.iter_mut().map(repeats_of).collect();
    let mut times = vec![Vec::with_capacity(ROUNDS); contenders.len()];
    for _ in 0..ROUNDS {
        for (i, contender) in contenders.iter_mut().enumerate() {
            times[i].push(nanoseconds(contender, repeats[i]));
        }
    }
    for (contender, mut taken) in contenders.iter().zip(times) {
        taken.sort_by(f64::total_cmp);
        let (median, least, greatest) = (taken[ROUNDS / 2], taken[0], taken[ROUNDS - 1]);
        println!(
            "{what}\t{}\t{median:.1}\t{least:.1}\t{greatest:.1}",
            contender.who
        );
    }
}

/// The time of one call, of so many in a row.
fn nanoseconds(contender: &mut Contender, repeats: usize) -> f64 {
    let start = thread_time();
    for _ in 0..repeats {
        black_box(&mut contender.call)();
    }
    (thread_time() - start) / repeats as f64
}

/// The time that the processor gave to this thread, in nanoseconds.
fn thread_time() -> f64 {
    #[repr(C)]
    struct Timespec {
        seconds: i64,
        nanoseconds: i64,
    }
    unsafe extern "C" {
        fn clock_gettime(clock: i32, time: *mut Timespec) -> i32;
    }
    const CLOCK_THREAD_CPUTIME_ID: i32 = 3;
    let mut time = Timespec {
        seconds: 0,
        nanoseconds: 0,
    };
    assert_eq!(
        unsafe { clock_gettime(CLOCK_THREAD_CPUTIME_ID, &mut time) },
        0
    );
    time.seconds as f64 * 1e9 + time.nanoseconds as f64
}

fn repeats_of(contender: &mut Contender) -> usize {
    nanoseconds(contender, 1);
    (LEAST_NANOSECONDS / nanoseconds(contender, 1)).ceil() as usize
}
