//! Generated text of lines: rows, \noalign, and what goes wrong in them.

use crate::lengths::G;
use crate::random::Rng;
use crate::spelling::points;
use crate::texts::{any_tokens, damaged, insert, Look, Text};

/// How rows are to look: how their items look, and of a hundred cells how many end by \span, or begin with \omit.
#[derive(Clone, Debug)]
pub struct RowLook {
    pub items: Look,
    /// Columns in which no entry is to end, so that they become void.
    pub voids: Vec<bool>,
    pub spans: usize,
    pub omits: usize,
}

/// Any line; most are well formed.
pub fn line(rng: &mut Rng, look: &RowLook) -> Vec<u8> {
    match rng.weighted(&[62, 9, 12, 7, 6, 4]) {
        0 => row(rng, look),
        1 => noalign(rng),
        2 => {
            let text = row(rng, look);
            row_damaged(rng, &text)
        }
        3 => {
            let text = noalign(rng);
            row_damaged(rng, &text)
        }
        4 => any_row_tokens(rng),
        _ => spaces(rng),
    }
}

pub fn row(rng: &mut Rng, look: &RowLook) -> Vec<u8> {
    let mut text = Text { rng, look: &look.items, bytes: vec![], open_control: false };
    if text.rng.percent(25) {
        text.spaces();
    }
    let columns = look.items.columns + usize::from(text.rng.percent(3));
    let mut stop = if text.rng.percent(25) { text.rng.below(columns) } else { columns - 1 };
    while stop + 1 < columns && look.voids.get(stop) == Some(&true) {
        stop += 1;
    }
    for column in 0..=stop {
        if column > 0 {
            let void = look.voids.get(column - 1).copied().unwrap_or(false);
            parting(&mut text, if void { 100 } else { look.spans });
        }
        cell(&mut text, look);
    }
    text.control(b"\\cr");
    let mut bytes = text.bytes;
    if rng.percent(20) {
        let rest = rng.pick(" ab&c\\cr", &["}", "\\cr", "$", "a", "\\noalign{\\hrule}", "\\\\", "1", "  "]);
        bytes.extend_from_slice(rest.as_bytes());
    }
    bytes
}

/// Of a hundred, so many are \span.
fn parting(text: &mut Text, spans: usize) {
    if text.rng.percent(spans) {
        text.control(b"\\span");
    } else {
        text.plain(b"&");
    }
}

fn cell(text: &mut Text, look: &RowLook) {
    if text.rng.percent(30) {
        text.spaces();
    }
    if text.rng.percent(look.omits) {
        text.control(b"\\omit");
    }
    for _ in 0..text.rng.below(look.items.items + 2) {
        text.item();
    }
    if text.rng.percent(15) {
        text.spaces();
    }
}

/// \noalign in all its spellings, some of them refused.
pub fn noalign(rng: &mut Rng) -> Vec<u8> {
    let before = rng.pick("", &["", "", " ", "\n ", "  "]);
    let behind = rng.pick("", &["", "", " ", "  ", "\n"]);
    let inside = match rng.weighted(&[40, 40, 12, 8]) {
        0 => format!("\\hrule{}", rng.pick("", &["", " ", " \n "])),
        1 => {
            let high = rng.pick(9, &[200_000, G]);
            let length = points(rng.from_to(0, high));
            format!("\\vskip{}{length}{}", rng.pick("", &[" ", " ", "  "]), rng.pick("", &["", " ", "\n"]))
        }
        2 => {
            let lengths = ["-0pt", "-1pt", "0pt", "255.99999pt", "256pt", "-0.0000001pt", "0.000015pt  ", "1pt\\kern", "1ptplus1fil"];
            format!("\\vskip {}", rng.pick("1pt", &lengths))
        }
        _ => {
            let insides = [" \\hrule", "\\hrule\\hrule", "\\kern1pt", "\\vskip", "\\vskip ", "\\hfil", "", "a", "\\cr", "{", "$", "\\x"];
            rng.pick(" \\vskip1pt", &insides).into()
        }
    };
    let close = rng.pick("}", &["}", "}", "}", "}", "}", "} ", "}a", "}\\cr", "}$", "", "{", " }"]);
    format!("{before}\\noalign{behind}{{{inside}{close}").into_bytes()
}

fn spaces(rng: &mut Rng) -> Vec<u8> {
    (0..rng.below(5)).map(|_| rng.pick(b' ', b"\n")).collect()
}

/// What is odd in a row, besides what is odd in any text.
const ODD: [&str; 40] = [
    "\\omit", "\\omit ", " \\omit", "\\omit\\omit", "\\omit\\span", "\\span", "\\span\\omit", "\\span \\omit ", "&", "&&",
    "& &", " & ", "\\cr", "\\cr\n ", "\\noalign", "\\noalign{", "\\noalign{\\hrule}", "\\noalign{\\vskip 1pt}",
    "\\noalign {\\vskip", "\\noalign{ \\hrule}", "\\noalign{\\vskip1pt  }", "\\noalign x", "\\noalign\\kern", "\\noalign$",
    "\\noalign\\x", "\\hrule", "\\vskip 1pt", "\\vskip", "#", "{}", "\\tabskip1pt", "\\kern x", "\\kern", "\\kern$",
    "\\kern&", "\\kern 1pt  ", "\\kern-1ptab", "\\kern\\cr", "\\kern \\x", "}",
];

fn odd_in_a_row(rng: &mut Rng) -> Vec<u8> {
    match rng.weighted(&[86, 8, 6]) {
        0 => rng.pick(" ", &ODD).as_bytes().to_vec(),
        1 => vec![b'a'; rng.pick(255, &[254, 256, 257, 700])],
        _ => vec![(rng.draw() & 0xff) as u8],
    }
}

/// One byte damaged, an odd token put in, cut short, or damaged as a preamble would be.
pub fn row_damaged(rng: &mut Rng, text: &[u8]) -> Vec<u8> {
    let mut bytes = text.to_vec();
    let place = rng.below(bytes.len() + 1);
    match rng.weighted(&[22, 8, 30, 15, 25]) {
        0 => {
            let any = (rng.draw() & 0xff) as u8;
            let byte = rng.pick(any, b"\\{}&# \n$a1.-p");
            let end = (place + 1).min(bytes.len());
            bytes.splice(place..end, [byte]);
        }
        1 => {
            let end = (place + 1).min(bytes.len());
            drop(bytes.drain(place..end));
        }
        2 => insert(&mut bytes, place, &odd_in_a_row(rng)),
        3 => bytes.truncate(place),
        _ => return damaged(rng, text),
    }
    bytes
}

fn any_row_tokens(rng: &mut Rng) -> Vec<u8> {
    if rng.percent(30) {
        return any_tokens(rng);
    }
    let mut text = vec![];
    for _ in 0..1 + rng.below(8) {
        if rng.percent(50) {
            text.extend_from_slice(rng.pick("a", &["b ", "\\hfil ", "&", "\\span\\omit ", " "]).as_bytes());
        } else {
            text.extend(odd_in_a_row(rng));
        }
    }
    if rng.percent(70) {
        text.extend_from_slice(b"\\cr");
    }
    text
}

/// Kerns, none above the largest length, that add up to so much.
pub fn kerns(sum: i64) -> Vec<u8> {
    let mut text = vec![];
    let mut rest = sum;
    while rest != 0 {
        let part = rest.clamp(-G, G);
        text.extend_from_slice(format!("\\kern{}", points(part)).as_bytes());
        rest -= part;
    }
    text
}

#[cfg(test)]
mod tests {
    use super::*;
    use crate::measure::Measurer;
    use crate::table::{Table, K, LARGEST};

    #[test]
    fn kerns_add_up() {
        for sum in [0, 1, -1, G, G + 1, -G - 1, K, -K] {
            let mut table = Table::make(b"#\\cr", Measurer::usual(), [0, 0, 0], LARGEST).unwrap();
            let text = [kerns(sum), b"\\cr".to_vec()].concat();
            assert_eq!(table.line(&text), Ok(Some(text.len())));
            assert_eq!(table.ask(1), Ok(Some(vec![sum])));
        }
    }
}
