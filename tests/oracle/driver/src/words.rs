//! The words of the protocol as values of the crate, and back.

use polyval::hazmat::FieldElement;

pub fn hex(word: &str) -> Option<Vec<u8>> {
    if word == "-" {
        return Some(Vec::new());
    }
    let lower = word.bytes().all(|c| matches!(c, b'0'..=b'9' | b'a'..=b'f'));
    if !lower || word.is_empty() || word.len() % 2 != 0 {
        return None;
    }
    (0..word.len())
        .step_by(2)
        .map(|at| u8::from_str_radix(&word[at..at + 2], 16).ok())
        .collect()
}

pub fn element(word: &str) -> Option<FieldElement> {
    let bytes: [u8; 16] = hex(word)?.try_into().ok()?;
    Some(bytes.into())
}

pub fn word64(word: &str) -> Option<u64> {
    Some(u64::from_be_bytes(hex(word)?.try_into().ok()?))
}

pub fn word32(word: &str) -> Option<u32> {
    Some(u32::from_be_bytes(hex(word)?.try_into().ok()?))
}

pub fn shown(a: FieldElement) -> String {
    <[u8; 16]>::from(a)
        .iter()
        .map(|b| format!("{b:02x}"))
        .collect()
}

pub type Key = [FieldElement; 8];

pub fn key(word: &str) -> Option<Key> {
    let bytes = hex(word)?;
    if bytes.len() != 128 {
        return None;
    }
    let item = |i: usize| {
        <[u8; 16]>::try_from(&bytes[16 * i..16 * i + 16])
            .unwrap()
            .into()
    };
    Some(std::array::from_fn(item))
}

pub fn shown_key(key: &Key) -> String {
    key.iter().map(|a| shown(*a)).collect()
}

/// A record with nothing pending: the crate keeps no bytes between its calls.
pub struct Record {
    pub key: Key,
    pub acc: FieldElement,
}

impl Record {
    pub fn parse(word: &str) -> Option<Record> {
        let parts: Vec<&str> = word.split(':').collect();
        match parts[..] {
            [stored, acc, pending, "0"] => {
                element(pending)?;
                Some(Record {
                    key: key(stored)?,
                    acc: element(acc)?,
                })
            }
            _ => None,
        }
    }

    /// The record after a call, in the protocol's words.
    pub fn with_acc(&self, acc: FieldElement) -> String {
        format!(
            "{}:{}:{}:0",
            shown_key(&self.key),
            shown(acc),
            "0".repeat(32)
        )
    }
}
