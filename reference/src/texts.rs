//! Generated manuscript text: lengths, glue, words, preambles, and damage to them.

use crate::lengths::G;
use crate::random::Rng;
use crate::spelling::points;

/// How a preamble is to look.
#[derive(Clone, Debug)]
pub struct Look {
    pub columns: usize,
    /// At most so many items in a part, as a rule.
    pub items: usize,
    /// The last byte that has a character.
    pub last: u8,
    /// Of a hundred places where \tabskip may stand, in how many it does.
    pub tabskips: usize,
    /// Of a hundred gaps, how many have a stretch.
    pub stretches: usize,
    /// How often an item is \hfil, where any other is one 88 times.
    pub fills: usize,
    /// Newlines among the spaces.
    pub newlines: bool,
    pub parts: Parts,
}

#[derive(Clone, Copy, Debug, PartialEq, Eq)]
pub enum Parts {
    /// Up to `items` in each.
    Usual,
    /// Some hold exactly 64.
    Full,
    /// Some hold about 64 of the largest kerns, so that entries come near to their largest size.
    Heavy,
}

pub fn preamble(rng: &mut Rng, look: &Look) -> Vec<u8> {
    let mut text = Text { rng, look, bytes: vec![], open_control: false };
    for column in 0..look.columns {
        if column > 0 {
            text.plain(b"&");
        }
        text.template();
    }
    text.plain(b"\\cr");
    text.open_control = true;
    if text.rng.percent(20) {
        text.spaces();
    }
    text.bytes
}

/// A preamble without items, that every measurer accepts.
pub fn bare_preamble(columns: usize) -> Vec<u8> {
    let mut text = vec![b"#".as_slice(); columns].join(b"&".as_slice());
    text.extend_from_slice(b"\\cr");
    text
}

pub struct Text<'a> {
    pub rng: &'a mut Rng,
    pub look: &'a Look,
    pub bytes: Vec<u8>,
    /// A control word stands at the end, and a letter behind it would be read with it.
    pub open_control: bool,
}

impl Text<'_> {
    pub fn plain(&mut self, bytes: &[u8]) {
        if self.open_control && bytes.first().is_some_and(u8::is_ascii_alphabetic) {
            self.bytes.push(b' ');
        }
        self.open_control = false;
        self.bytes.extend_from_slice(bytes);
    }

    pub fn control(&mut self, name: &[u8]) {
        self.plain(name);
        self.open_control = true;
        if self.rng.percent(50) {
            self.spaces();
        }
    }

    pub fn spaces(&mut self) {
        let count = 1 + self.rng.below(3);
        for _ in 0..count {
            let byte = if self.look.newlines && self.rng.percent(40) { b'\n' } else { b' ' };
            self.plain(&[byte]);
        }
    }

    fn template(&mut self) {
        if self.rng.percent(25) {
            self.spaces();
        }
        let heavy = match self.look.parts {
            Parts::Heavy => self.rng.weighted(&[10, 40, 40, 10]),
            _ => 0,
        };
        self.part(heavy % 2 == 1);
        self.plain(b"#");
        self.part(heavy >= 2);
    }

    fn part(&mut self, heavy: bool) {
        match self.look.parts {
            Parts::Full if self.rng.percent(40) => self.exact_part(64),
            Parts::Heavy if heavy => self.heavy_part(),
            _ => {
                for _ in 0..self.rng.below(self.look.items + 1) {
                    self.tabskip_perhaps();
                    self.item();
                }
                self.tabskip_perhaps();
            }
        }
    }

    fn tabskip_perhaps(&mut self) {
        if self.rng.percent(self.look.tabskips) {
            self.control(b"\\tabskip");
            let glue = glue(self.rng, self.look.stretches);
            self.plain(&glue);
            if self.rng.percent(30) {
                self.spaces();
            }
        }
    }

    pub fn item(&mut self) {
        match self.rng.weighted(&[40, 12, 18, 18, self.look.fills]) {
            0 => {
                let word = manuscript_word(self.rng, self.look.last);
                self.plain(&word);
            }
            1 => {
                let escape = escape(self.rng);
                self.plain(escape);
            }
            2 => self.spaces(),
            3 => {
                self.control(b"\\kern");
                let length = length(self.rng);
                self.plain(length.as_bytes());
                if self.rng.percent(30) {
                    self.spaces();
                }
            }
            _ => self.control(b"\\hfil"),
        }
    }

    /// So many items, none of which runs together with the next.
    fn exact_part(&mut self, count: usize) {
        for _ in 0..count {
            match self.rng.weighted(&[50, 30, 20]) {
                0 => self.plain(b"\\hfil"),
                1 => self.plain(b"\\&"),
                _ => {
                    let length = points(self.rng.from_to(-9, 9));
                    self.plain(&[b"\\kern", length.as_bytes()].concat());
                }
            }
        }
    }

    fn odd_perhaps(&mut self, wanted: bool) {
        if wanted {
            let high = self.rng.pick("zz|", &["|", "0z", "\\}", "\\_"]).as_bytes().to_vec();
            let token = if self.rng.percent(30) { high } else { odd(self.rng) };
            self.plain(&token);
        }
    }

    fn heavy_part(&mut self) {
        let size = self.rng.pick(G, &[-G]);
        let kern = format!("\\kern{}", points(size));
        if self.rng.percent(30) {
            let few = self.rng.pick(62, &[63, 64, 65, -62, -63, -64, -65, 1, -1]);
            self.plain(format!("\\kern{}", points(few)).as_bytes());
            return;
        }
        for _ in 0..self.rng.from_to(61, 64) {
            self.plain(kern.as_bytes());
        }
    }
}

fn escape(rng: &mut Rng) -> &'static [u8] {
    rng.pick(b"\\&".as_slice(), &[b"\\#", b"\\$", b"\\%", b"\\_", b"\\{", b"\\}"])
}

/// Letters and other word bytes, as a rule up to the last that has a character.
fn manuscript_word(rng: &mut Rng, last: u8) -> Vec<u8> {
    let len = if rng.percent(2) { rng.pick(254, &[255]) } else { 1 + rng.below(6) };
    let highest = last.clamp(b'0', 126);
    (0..len).map(|_| manuscript_byte(rng, highest)).collect()
}

fn manuscript_byte(rng: &mut Rng, highest: u8) -> u8 {
    let byte = rng.from_to(33, i64::from(highest)) as u8;
    match byte {
        b'\\' | b'{' | b'}' | b'&' | b'#' | b'$' | b'%' | b'^' | b'_' | b'~' => b'0',
        byte => byte,
    }
}

/// A length that is well formed and in its range, in one of the many ways to spell one.
pub fn length(rng: &mut Rng) -> String {
    match rng.weighted(&[50, 14, 8, 10, 8, 5, 5]) {
        0 => points(rng.from_to(-60, 60)),
        1 => points(rng.from_to(-200_000, 200_000)),
        2 => format!("{}pt", rng.from_to(-5, 5)),
        3 => half(rng),
        4 => {
            let count = 1 + rng.below(17);
            format!("{}{}.{}pt", sign(rng), rng.below(3), digits(rng, count))
        }
        5 => {
            let edges = ["255.99999pt", "255.999992pt", "00000000pt", "-0pt", "-0.0pt", "00000255.0pt"];
            format!("{}{}", if rng.percent(50) { "" } else { "-" }, rng.pick("0pt", &edges)).replace("--", "-")
        }
        _ => points(rng.from_to(-G, G)),
    }
}

fn sign(rng: &mut Rng) -> &'static str {
    if rng.percent(30) {
        "-"
    } else {
        ""
    }
}

/// An odd number of 131,072ths, just between two whole scaled points, or one digit below it.
fn half(rng: &mut Rng) -> String {
    let odd = 2 * rng.from_to(0, 65_535) + 1;
    let below = rng.from_to(0, 1);
    let decimals = odd * 762_939_453_125 - below;
    format!("{}{}.{decimals:017}pt", sign(rng), rng.below(2))
}

fn digits(rng: &mut Rng, count: usize) -> String {
    (0..count).map(|_| char::from(b'0' + rng.below(10) as u8)).collect()
}

/// A length, perhaps with `plus` and a stretch.
pub fn glue(rng: &mut Rng, stretches: usize) -> Vec<u8> {
    let mut text = length(rng);
    if rng.percent(stretches) {
        let amount = match rng.weighted(&[50, 20, 10, 10, 10]) {
            0 => format!("{}", rng.below(4)),
            1 => format!("{}.{}", rng.below(256), digits(rng, 3)),
            2 => "255.99999".into(),
            // 1, 2 and 3 sp.
            3 => rng.pick("0.00002", &["0.00003", "0.00005"]).into(),
            _ => "0".into(),
        };
        let unit = rng.pick("fil", &["pt", "fill", "filll"]);
        let before = rng.pick("", &[" "]);
        let behind = rng.pick("", &[" ", "  "]);
        text.push_str(&format!("{before}plus{behind}{amount}{unit}"));
    }
    text.into_bytes()
}

/// Tokens, good and bad, for damage and for texts of any tokens.
const ODD: [&str; 92] = [
    "&", "#", "{", "}", " ", "  ", "a", "Zz9", "-", ".", "\\cr", "\\cr ", "\\crab", "\\cr1", "\\Cr", "\\omit", "\\span ",
    "\\noalign", "\\noalign{\\hrule}", "\\hrule", "\\vskip", "\\vskip 1pt", "\\foo", "\\", "\\ ", "\\1", "\\\\", "\\^",
    "\\~", "\\&", "\\#", "\\$", "\\%", "\\_", "\\{", "\\}", "$", "%", "^", "_", "~", "\x00", "\t", "\r", "\x7f",
    "\\hfil", "\\hfila", "\\hfill", "\\HFIL", "\\kern", "\\kern ", "\\kern5", "\\kern 5 pt", "\\kern5px", "\\kern5PT",
    "\\kern1.pt", "\\kern.5pt", "\\kern--1pt", "\\kern- 1pt", "\\kern+1pt", "\\kern-pt", "\\kern\\kern", "\\kern\\foo",
    "\\kern$", "\\kern5$", "\\kern&", "\\kern256pt", "\\kern-256pt", "\\kern255.999993pt", "\\kern255.999999pt",
    "\\kern123456789pt", "\\kern12345678pt", "\\kern0.123456789012345678pt", "\\kern3ptabc", "\\tabskip", "\\tabskip x",
    "\\tabskip1pt plus", "\\tabskip1ptplush", "\\tabskip1pt plus-1fil", "\\tabskip1pt plus 1f", "\\tabskip1pt plus 1fi",
    "\\tabskip1pt plus1fillll", "\\tabskip1pt  plus 1fil", "\\tabskip1pt plus 256fil", "\\tabskip1pt plus\\x",
    "\\tabskip1pt plus %", "\\kern000000001pt", "\\kern000000000.5pt", "\\kern0.000000000000000000pt",
    "\\tabskip000000001pt", "\\tabskip0pt plus 000000001fil", "\\tabskip0ptplus0.000000000000000001fill",
];

fn odd(rng: &mut Rng) -> Vec<u8> {
    match rng.weighted(&[84, 7, 3, 2, 4]) {
        0 => rng.pick("\n", &ODD).as_bytes().to_vec(),
        1 => vec![b'a'; rng.pick(255, &[256, 257, 600])],
        2 => b"\\hfil".repeat(rng.pick(64, &[65, 66])),
        3 => [b"\\kern".as_slice(), &vec![b'x'; 256]].concat(),
        _ => vec![(rng.draw() & 0xff) as u8],
    }
}

/// A text with one to three small damages.
pub fn damaged(rng: &mut Rng, text: &[u8]) -> Vec<u8> {
    let mut text = text.to_vec();
    for _ in 0..1 + rng.weighted(&[75, 15, 10]) {
        let place = rng.below(text.len() + 1);
        let end = (place + 1 + rng.below(4)).min(text.len());
        match rng.weighted(&[50, 15, 10, 7, 12, 6]) {
            0 => insert(&mut text, place, &odd(rng)),
            1 => drop(text.drain(place..end)),
            2 => {
                let byte = (rng.draw() & 0xff) as u8;
                text.splice(place..end.min(place + 1), [byte]);
            }
            3 => text.truncate(place),
            4 => {
                text.truncate(place);
                text.extend(odd(rng));
            }
            _ => {
                let again = text.get(place..end).unwrap_or(&[]).to_vec();
                insert(&mut text, place, &again);
            }
        }
    }
    text
}

pub fn insert(text: &mut Vec<u8>, place: usize, more: &[u8]) {
    text.splice(place..place, more.iter().copied());
}

/// A text of any tokens.
pub fn any_tokens(rng: &mut Rng) -> Vec<u8> {
    let mut text = vec![];
    for _ in 0..rng.below(24) {
        if rng.percent(25) {
            text.extend_from_slice(rng.pick("#", &["&", "#&", "#", "a", "\\hfil "]).as_bytes());
        } else {
            text.extend(odd(rng));
        }
    }
    if rng.percent(60) {
        text.extend_from_slice(b"\\cr");
    }
    text
}

/// Exactly so many columns, one of them with a part of so many items, perhaps with an odd token behind these.
pub fn counted_preamble(rng: &mut Rng, columns: usize, items: usize, odd_one: bool) -> Vec<u8> {
    let look = Look { columns, items: 0, last: 126, tabskips: 0, stretches: 0, fills: 12, newlines: false, parts: Parts::Usual };
    let mut text = Text { rng, look: &look, bytes: vec![], open_control: false };
    let full = text.rng.below(2 * columns);
    for part in 0..2 * columns {
        if part > 0 {
            text.plain(if part % 2 == 1 { b"#" } else { b"&" });
        }
        if part == full {
            text.exact_part(items);
            text.odd_perhaps(odd_one);
        }
    }
    text.plain(b"\\cr");
    text.bytes
}

/// The bytes of a word that a host puts.
pub fn host_word(rng: &mut Rng, last: u8) -> Vec<u8> {
    let len = match rng.weighted(&[86, 4, 3, 3, 2, 2]) {
        0 => 1 + rng.below(8),
        1 => 1 + rng.below(60),
        2 => 255,
        3 => 256,
        4 => rng.pick(254, &[257, 300, 1000]),
        _ => 0,
    };
    let highest = i64::from(last.max(33));
    let mut word: Vec<u8> = (0..len).map(|_| rng.from_to(33, highest) as u8).collect();
    spoil(rng, &mut word, last);
    word
}

/// In some words, bytes without a character, a foreign byte, or both.
fn spoil(rng: &mut Rng, word: &mut [u8], last: u8) {
    if rng.percent(4) && last < 126 {
        for _ in 0..1 + rng.below(3) {
            let byte = rng.from_to(i64::from(last) + 1, 126) as u8;
            set_byte(rng, word, byte);
        }
    }
    if rng.percent(4) {
        let byte = rng.pick(32, &[0, 9, 10, 13, 31, 127, 128, 200, 255]);
        set_byte(rng, word, byte);
    }
}

fn set_byte(rng: &mut Rng, word: &mut [u8], byte: u8) {
    let place = rng.below(word.len());
    if let Some(slot) = word.get_mut(place) {
        *slot = byte;
    }
}

#[cfg(test)]
mod tests {
    use super::*;
    use crate::lengths::{glue_at, length_at};

    #[test]
    fn lengths_and_glue_are_good() {
        let mut rng = Rng::new(1);
        for _ in 0..20_000 {
            let text = length(&mut rng);
            assert_eq!(length_at(text.as_bytes(), 0).map(|(_, end)| end), Ok(text.len()), "{text}");
            let text = glue(&mut rng, 45);
            assert!(glue_at(&text, 0).is_ok(), "{}", text.escape_ascii());
        }
    }
}
