//! Makes a script smaller while something still holds of it.

use crate::script::lines_of;
use std::time::{Duration, Instant};

/// The lines, then the texts in them, with all dropped that can be dropped. `holds` is asked for two minutes at most.
pub fn shrink(script: &[u8], mut holds: impl FnMut(&[u8]) -> bool) -> Vec<u8> {
    let until = Instant::now() + Duration::from_secs(120);
    let mut lines: Vec<Vec<u8>> = lines_of(script).map(<[u8]>::to_vec).collect();
    drop_parts(&mut lines, |lines| Instant::now() < until && holds(&joined(lines)));
    for index in 0..lines.len() {
        shrink_text(&mut lines, index, |lines| Instant::now() < until && holds(&joined(lines)));
    }
    drop_parts(&mut lines, |lines| Instant::now() < until && holds(&joined(lines)));
    joined(&lines)
}

fn joined(lines: &[Vec<u8>]) -> Vec<u8> {
    lines.join(b"\n".as_slice())
}

/// Drops runs of elements, halves first, then ever shorter ones, until no single one can go.
fn drop_parts<T: Clone>(parts: &mut Vec<T>, mut holds: impl FnMut(&[T]) -> bool) {
    let mut size = parts.len().div_ceil(2);
    while size > 0 {
        let dropped = drop_runs(parts, size, &mut holds);
        if !dropped || size > 1 {
            size /= 2;
        }
    }
}

fn drop_runs<T: Clone>(parts: &mut Vec<T>, size: usize, holds: &mut impl FnMut(&[T]) -> bool) -> bool {
    let mut dropped = false;
    let mut place = 0;
    while place < parts.len() {
        let mut fewer = parts.clone();
        fewer.drain(place..(place + size).min(parts.len()));
        if holds(&fewer) {
            *parts = fewer;
            dropped = true;
        } else {
            place += size;
        }
    }
    dropped
}

/// Shortens what stands behind `preamble `, `word ` or `line `, by bytes; one byte stays.
fn shrink_text(lines: &mut [Vec<u8>], index: usize, mut holds: impl FnMut(&[Vec<u8>]) -> bool) {
    let Some(line) = lines.get(index).cloned() else {
        return;
    };
    let begins = |names: [&[u8]; 3]| names.iter().any(|name| line.starts_with(name));
    let unit = if begins([b"preamble-hex ", b"word-hex ", b"line-hex "]) { 2 } else { 1 };
    let texted = unit == 2 || begins([b"preamble ", b"word ", b"line "]);
    let Some(space) = line.iter().position(|&b| b == b' ').filter(|_| texted) else {
        return;
    };
    let (name, text) = line.split_at(space + 1);
    let mut bytes: Vec<Vec<u8>> = text.chunks(unit).map(<[u8]>::to_vec).collect();
    let mut tried = lines.to_vec();
    drop_parts(&mut bytes, |bytes| {
        if let Some(slot) = tried.get_mut(index) {
            *slot = [name, &bytes.concat()].concat();
        }
        !bytes.is_empty() && holds(&tried)
    });
    if let Some(slot) = lines.get_mut(index) {
        *slot = [name, &bytes.concat()].concat();
    }
}

#[cfg(test)]
mod tests {
    use super::*;

    #[test]
    fn what_matters_stays() {
        let script = b"room 1 1 1 1\ntake\nword abcdef\n; x\nlay\nword-hex 414243\ntake";
        let some_line = |s: &[u8], name: &[u8], part: &[u8]| {
            lines_of(s).any(|l| l.strip_prefix(name).is_some_and(|text| text.windows(part.len()).any(|w| w == part)))
        };
        let found = shrink(script, |s| some_line(s, b"word ", b"e") && some_line(s, b"word-hex ", b"42"));
        assert_eq!(found.escape_ascii().to_string(), "word e\\nword-hex 42");
    }
}
