//! Speaks the line protocol for what polyval 0.7.3 has, by calls of the crate alone. It answers `.` to
//! every other line: it has nothing to say there, and to a bad line neither.
//!
//! Built three ways: with the software backend on 64-bit limbs, with it on 32-bit limbs, and with the CPU's
//! intrinsics. On a CPU without them the third ends at once with status 3.

use polyval::{
    Block, Polyval,
    hazmat::FieldElement,
    universal_hash::{Array, Reset, UniversalHash},
};
use std::io::{BufRead, Write};

mod backend;
mod words;

use words::{Record, element, hex, word32, word64};

fn main() -> std::io::Result<()> {
    if !backend::present() {
        eprintln!("this CPU has no carryless product of 64 by 64 bits");
        std::process::exit(3);
    }
    let mut out = std::io::BufWriter::new(std::io::stdout().lock());
    for line in std::io::stdin().lock().split(b'\n') {
        let line = line?;
        let answer = std::str::from_utf8(&line).ok().and_then(answer);
        writeln!(out, "{}", answer.as_deref().unwrap_or("."))?;
    }
    out.flush()
}

/// The answer to one line, if the crate has one.
fn answer(line: &str) -> Option<String> {
    let words: Vec<&str> = line.split(' ').collect();
    match words[..] {
        ["product64", x, y] => product64(word64(x)?, word64(y)?),
        ["bmul32", x, y] => Some(format!(
            "{:08x}",
            FieldElement::word_product_32(word32(x)?, word32(y)?)
        )),
        ["reverse64", x] => Some(format!("{:016x}", word64(x)?.reverse_bits())),
        ["reverse32", x] => Some(format!("{:08x}", word32(x)?.reverse_bits())),
        ["add", a, b] => shown(element(a)? + element(b)?),
        ["dot" | "dot32", a, b] => shown(backend::dot(element(a)?, element(b)?)),
        ["mulx", a] => shown(element(a)?.mulx()),
        ["reverse", a] => shown(element(a)?.reverse()),
        ["ghash", key, data] => ghash(element(key)?, &hex(data)?),
        ["reset", record] => reset(&Record::parse(record)?),
        [feed @ ("blocks" | "padded"), route, record, data] => {
            feed_record(feed, route, Record::parse(record)?, hex(data)?)
        }
        _ => backend::answer(&words),
    }
}

fn shown(a: FieldElement) -> Option<String> {
    Some(words::shown(a))
}

/// Both words of the product. Each factor is put into the high half: dot divides by x^128, which is what the
/// two shifts by 64 multiply with, and nothing is left to reduce.
fn product64(x: u64, y: u64) -> Option<String> {
    let high = |w: u64| FieldElement::from(u128::from(w) << 64);
    let product = u128::from(backend::dot(high(x), high(y)));
    Some(format!(
        "{:016x} {:016x}",
        product as u64,
        (product >> 64) as u64
    ))
}

/// RFC 8452 appendix A, in the crate's own words: the byte reverse of POLYVAL under mulx of the reversed key.
fn ghash(key: FieldElement, data: &[u8]) -> Option<String> {
    if data.len() % 16 != 0 {
        return None;
    }
    let turned: Vec<Block> = blocks(data)
        .iter()
        .map(|b| FieldElement::from(b).reverse().into())
        .collect();
    let mut hash = Polyval::new(&key.reverse().mulx().into());
    hash.update(&turned);
    Some(format!(
        "0 {}",
        words::shown(FieldElement::from(hash.finalize()).reverse())
    ))
}

fn reset(record: &Record) -> Option<String> {
    let mut hash = backend::hash_of(record);
    hash.reset();
    Some(format!("0 {}", record.with_acc(hash.finalize().into())))
}

/// One call of `update`. Padding is universal-hash's part and not the crate's: it is done here.
fn feed_record(feed: &str, route: &str, record: Record, mut data: Vec<u8>) -> Option<String> {
    if !backend::has_route(route) {
        return None;
    }
    let short = data.len() % 16;
    if short != 0 {
        if feed == "blocks" {
            return None;
        }
        data.resize(data.len() + 16 - short, 0);
    }
    cpufeatures::multiplies();
    let acc = backend::update(&record, &blocks(&data));
    Some(format!(
        "0 {} {}",
        record.with_acc(acc),
        cpufeatures::multiplies()
    ))
}

fn blocks(data: &[u8]) -> Vec<Block> {
    data.chunks_exact(16)
        .map(|b| Array(b.try_into().unwrap()))
        .collect()
}
