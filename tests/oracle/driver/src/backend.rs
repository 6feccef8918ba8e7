//! What differs between the builds: how the crate multiplies and hashes, and which requests it has.

use super::words::Record;
use super::{Block, FieldElement, Polyval, UniversalHash};

#[cfg(polyval_backend = "soft")]
pub use soft::*;

#[cfg(not(polyval_backend = "soft"))]
pub use cpu::*;

/// The software backend, on the limbs that the build chose. It stores H alone, so that it has nothing to
/// say of expanded keys, and both uncounted routes are its.
#[cfg(polyval_backend = "soft")]
mod soft {
    use super::*;

    pub fn present() -> bool {
        true
    }

    pub fn dot(a: FieldElement, b: FieldElement) -> FieldElement {
        a * b
    }

    pub fn has_route(route: &str) -> bool {
        matches!(route, "wide" | "narrow")
    }

    /// The accumulator is private here, and a fresh one is zero: it comes in with a block.
    pub fn update(record: &Record, blocks: &[Block]) -> FieldElement {
        let mut blocks = blocks.to_vec();
        let Some(first) = blocks.first_mut() else {
            return record.acc;
        };
        *first = (FieldElement::from(*first) + record.acc).into();
        let mut hash = Polyval::new(&record.key[0].into());
        hash.update(&blocks);
        hash.finalize().into()
    }

    pub fn hash_of(record: &Record) -> Polyval {
        let mut hash = Polyval::new(&record.key[0].into());
        hash.update(&[record.acc.into()]);
        hash
    }

    pub fn answer(_: &[&str]) -> Option<String> {
        None
    }
}

/// The CPU's intrinsics: the R/F route, on any stored key.
#[cfg(not(polyval_backend = "soft"))]
mod cpu {
    use super::*;
    use crate::words::{self, Key};

    pub fn present() -> bool {
        Polyval::expanded(&[0; 16]).is_some()
    }

    fn expanded(h: FieldElement) -> Key {
        Polyval::expanded(&h.into()).unwrap()
    }

    /// a times h, with h's companion: a lone block that is zero, hashed from the accumulator a.
    pub fn dot(a: FieldElement, h: FieldElement) -> FieldElement {
        update(
            &Record {
                key: expanded(h),
                acc: a,
            },
            &[FieldElement::default().into()],
        )
    }

    pub fn has_route(route: &str) -> bool {
        route == "rf"
    }

    pub fn update(record: &Record, blocks: &[Block]) -> FieldElement {
        let mut hash = hash_of(record);
        hash.update(blocks);
        hash.finalize().into()
    }

    pub fn hash_of(record: &Record) -> Polyval {
        Polyval::stored(&record.key, record.acc)
    }

    pub fn answer(words: &[&str]) -> Option<String> {
        match *words {
            ["rf", a, b] => Some(words::shown(dot(words::element(a)?, words::element(b)?))),
            ["expand", h] => expand(words::element(h)?),
            ["check", key] => check(&words::key(key)?),
            ["start", h] => start(words::element(h)?),
            _ => None,
        }
    }

    fn expand(h: FieldElement) -> Option<String> {
        cpufeatures::multiplies();
        Some(format!(
            "{} {}",
            words::shown_key(&expanded(h)),
            cpufeatures::multiplies()
        ))
    }

    /// Whether the key is the one that the crate expands from its first element.
    fn check(key: &Key) -> Option<String> {
        let same = words::shown_key(key) == words::shown_key(&expanded(key[0]));
        Some(u8::from(same).to_string())
    }

    fn start(h: FieldElement) -> Option<String> {
        cpufeatures::multiplies();
        let record = Record {
            key: expanded(h),
            acc: FieldElement::default(),
        };
        Some(format!(
            "0 {} {}",
            record.with_acc(record.acc),
            cpufeatures::multiplies()
        ))
    }
}
