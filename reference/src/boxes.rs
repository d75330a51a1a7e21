//! Boxes and lists of them (docs/FORMAT.md, 'A box' and '`fetch(rec, preamble, lines)`').

use crate::faults::{Cause, Fault};
use std::fmt;

#[derive(Clone, Copy, Debug, PartialEq, Eq)]
pub enum Kind {
    Word,
    Rule,
}

impl Kind {
    pub fn number(self) -> i64 {
        match self {
            Kind::Word => 1,
            Kind::Rule => 2,
        }
    }
}

/// Which text holds a word.
#[derive(Clone, Copy, Debug, PartialEq, Eq)]
pub enum Store {
    Preamble,
    Lines,
}

impl Store {
    pub fn number(self) -> i64 {
        match self {
            Store::Preamble => 0,
            Store::Lines => 1,
        }
    }
}

/// Of a rule the store, the place and the length mean nothing, and are 0.
#[derive(Clone, Copy, Debug, PartialEq, Eq)]
pub struct BoxRecord {
    pub kind: Kind,
    pub x: i64,
    pub y: i64,
    pub width: i64,
    pub height: i64,
    pub depth: i64,
    pub store: Store,
    pub place: i64,
    pub len: i64,
}

#[derive(Clone, Debug, PartialEq, Eq)]
pub struct BoxList {
    pub width: i64,
    pub height: i64,
    pub boxes: Vec<BoxRecord>,
}

impl fmt::Display for BoxRecord {
    fn fmt(&self, f: &mut fmt::Formatter<'_>) -> fmt::Result {
        let BoxRecord { kind, x, y, width, height, depth, store, place, len } = self;
        let (kind, store) = (kind.number(), store.number());
        write!(f, "{kind} {x} {y} {width} {height} {depth} {store} {place} {len}")
    }
}

/// The bytes that a word's box names.
pub fn fetch<'a>(record: &BoxRecord, preamble: &'a [u8], lines: &'a [u8]) -> Result<&'a [u8], Fault> {
    let text = match (record.kind, record.store) {
        (Kind::Rule, _) => return Err(Cause::BadBox.at(0)),
        (Kind::Word, Store::Preamble) => preamble,
        (Kind::Word, Store::Lines) => lines,
    };
    let place = usize::try_from(record.place).ok();
    let end = place.zip(usize::try_from(record.len).ok()).and_then(|(place, len)| place.checked_add(len));
    place.zip(end).and_then(|(place, end)| text.get(place..end)).ok_or(Cause::BadBox.at(0))
}

#[cfg(test)]
mod tests {
    use super::*;

    fn word(store: Store, place: i64, len: i64) -> BoxRecord {
        BoxRecord { kind: Kind::Word, x: -1, y: 7, width: 20, height: 7, depth: 2, store, place, len }
    }

    #[test]
    fn parts_of_texts() {
        let get = |store, place, len| fetch(&word(store, place, len), b"abc", b"de").map_err(|fault| fault.to_string());
        let bad = || Err("fault 28 place 0 layer 3".to_string());
        assert_eq!(get(Store::Preamble, 1, 2), Ok(b"bc".as_slice()));
        assert_eq!(get(Store::Lines, 0, 2), Ok(b"de".as_slice()));
        assert_eq!(get(Store::Lines, 2, 0), Ok(b"".as_slice()));
        assert_eq!(get(Store::Lines, 3, 0), bad());
        assert_eq!(get(Store::Lines, 1, 2), bad());
        assert_eq!(get(Store::Preamble, -1, 1), bad());
        assert_eq!(get(Store::Preamble, 1, -1), bad());
        assert_eq!(get(Store::Preamble, i64::MAX, i64::MAX), bad());
        let rule = BoxRecord { kind: Kind::Rule, ..word(Store::Lines, 0, 1) };
        assert_eq!(fetch(&rule, b"abc", b"de").map_err(|fault| fault.to_string()), bad());
    }

    #[test]
    fn shown_in_decimal() {
        assert_eq!(word(Store::Lines, 3, 1).to_string(), "1 -1 7 20 7 2 1 3 1");
    }
}
