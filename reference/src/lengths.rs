//! Lengths, stretches and glue (docs/FORMAT.md, 'Units and numbers' to 'Gaps').

use crate::faults::{Cause, Fault};
use crate::reading::{run_end, spaces_end, token_at};

/// The largest size of a length and of a stretch, one less than 256 points.
pub const G: i64 = 16_777_215;

#[derive(Clone, Copy, Debug, PartialEq, Eq, Default)]
pub struct Gap {
    pub natural: i64,
    pub stretch: i64,
    pub order: i64,
}

impl Gap {
    pub fn new(natural: i64, stretch: i64, order: i64) -> Option<Gap> {
        let good = (-G..=G).contains(&natural) && (0..=G).contains(&stretch) && (0..=3).contains(&order);
        good.then_some(Gap { natural, stretch, order })
    }
}

/// A length and the place behind it.
pub fn length_at(text: &[u8], place: usize) -> Result<(i64, usize), Fault> {
    let negative = text.get(place) == Some(&b'-');
    if !negative {
        begins_with_a_digit(text, place)?;
    }
    let ill_formed = Cause::BadLength.at(place);
    let (size, behind) = amount_at(text, place + usize::from(negative)).ok_or(ill_formed)?;
    if !text.get(behind..).is_some_and(|rest| rest.starts_with(b"pt")) || size > G {
        return Err(ill_formed);
    }
    Ok((if negative { -size } else { size }, one_space_on(text, behind + 2)))
}

/// A length, perhaps with a stretch, and the place behind it.
pub fn glue_at(text: &[u8], place: usize) -> Result<(Gap, usize), Fault> {
    let (natural, behind) = length_at(text, place)?;
    if !text.get(behind..).is_some_and(|rest| rest.starts_with(b"plus")) {
        return Ok((Gap { natural, stretch: 0, order: 0 }, behind));
    }
    let (stretch, order, end) = stretch_at(text, spaces_end(text, behind + 4))?;
    Ok((Gap { natural, stretch, order }, end))
}

fn stretch_at(text: &[u8], place: usize) -> Result<(i64, i64, usize), Fault> {
    begins_with_a_digit(text, place)?;
    let ill_formed = Cause::BadLength.at(place);
    let (size, behind) = amount_at(text, place).ok_or(ill_formed)?;
    let (order, unit) = stretch_unit(text.get(behind..).unwrap_or(&[])).ok_or(ill_formed)?;
    if size > G {
        return Err(ill_formed);
    }
    Ok((size, order, one_space_on(text, behind + unit)))
}

/// The order by the longest unit that fits, and how long that is.
fn stretch_unit(rest: &[u8]) -> Option<(i64, usize)> {
    let units: [(&[u8], i64); 4] = [(b"filll", 3), (b"fill", 2), (b"fil", 1), (b"pt", 0)];
    units.iter().find(|(unit, _)| rest.starts_with(unit)).map(|(unit, order)| (*order, unit.len()))
}

/// The fault of what stands where a number must begin, if no digit does.
fn begins_with_a_digit(text: &[u8], place: usize) -> Result<(), Fault> {
    match text.get(place) {
        None => Err(Cause::BadLength.at(text.len())),
        Some(byte) if byte.is_ascii_digit() => Ok(()),
        Some(_) => match token_at(text, place) {
            Err(fault) if matches!(fault.cause, Cause::BadByte | Cause::UnknownControl) => Err(fault),
            _ => Err(Cause::BadLength.at(place)),
        },
    }
}

/// An amount in 65,536ths, and the place behind its last digit.
fn amount_at(text: &[u8], place: usize) -> Option<(i64, usize)> {
    let (whole, behind) = digits_at(text, place, 8)?;
    let size = whole.iter().fold(0, |n, digit| n * 10 + i64::from(digit - b'0')) * 65_536;
    if text.get(behind) != Some(&b'.') {
        return Some((size, behind));
    }
    let (fraction, end) = digits_at(text, behind + 1, 17)?;
    Some((size + round_decimals(fraction), end))
}

/// The longest run of digits, of which there are 1 to `most`.
fn digits_at(text: &[u8], place: usize, most: usize) -> Option<(&[u8], usize)> {
    let end = run_end(text, place, |b| b.is_ascii_digit());
    let digits = text.get(place..end)?;
    (1..=most).contains(&digits.len()).then_some((digits, end))
}

/// TeX: The Program, section 102.
fn round_decimals(digits: &[u8]) -> i64 {
    let sum = digits.iter().rev().fold(0, |a, digit| (a + i64::from(digit - b'0') * 131_072) / 10);
    (sum + 1) / 2
}

fn one_space_on(text: &[u8], place: usize) -> usize {
    match text.get(place) {
        Some(b' ' | b'\n') => place + 1,
        _ => place,
    }
}

#[cfg(test)]
mod tests {
    use super::*;

    fn sp(text: &str) -> i64 {
        length_at(text.as_bytes(), 0).unwrap().0
    }

    fn refused(text: &str) -> String {
        length_at(text.as_bytes(), 0).unwrap_err().to_string()
    }

    #[test]
    fn m5_and_m6() {
        assert_eq!(sp("0.1pt"), 6_554);
        assert_eq!(sp("0.4pt"), 26_214);
        assert_eq!(sp("-0.5pt"), -32_768);
        assert_eq!(sp("255.99999pt"), 16_777_215);
        assert_eq!(sp("-255.99999pt"), -16_777_215);
        for text in ["256pt", "255.999999pt", "255.99999999pt", "-256pt"] {
            assert_eq!(refused(text), "fault 3 place 0 layer 1", "{text}");
        }
    }

    #[test]
    fn halves_go_up() {
        assert_eq!(sp("0.00000762939453125pt"), 1);
        assert_eq!(sp("0.00000762939453124pt"), 0);
        assert_eq!(sp("0.99999999999999999pt"), 65_536);
    }

    /// Against the nearest 65,536th, by whole numbers of up to 17 decimals.
    #[test]
    fn rounding_is_to_the_nearest() {
        let mut rng = crate::random::Rng::new(5);
        for _ in 0..20_000 {
            let count = 1 + rng.below(17);
            let digits: Vec<u8> = (0..count).map(|_| b'0' + rng.below(10) as u8).collect();
            let number = digits.iter().fold(0i128, |n, d| n * 10 + i128::from(d - b'0'));
            let one = 10i128.pow(count as u32);
            let nearest = (number * 131_072 + one).div_euclid(2 * one);
            assert_eq!(i128::from(round_decimals(&digits)), nearest, "{digits:?}");
        }
    }

    #[test]
    fn ill_formed_lengths() {
        let bad = [
            "-pt", "- 1pt", "--1pt", "+1pt", ".5pt", "1.pt", "1.", "123456789pt", "0.123456789012345678pt", "1 pt",
            "1PT", "1px", "5$", "&", "}", "{", "#", "\\cr", "\\&", " 1pt", "x", "1p", "-", "-$", "-\\foo", "1fil",
        ];
        for text in bad {
            assert_eq!(refused(text), "fault 3 place 0 layer 1", "{text}");
        }
        assert_eq!(refused(&"a".repeat(256)), "fault 3 place 0 layer 1");
        assert_eq!(refused(""), "fault 3 place 0 layer 1");
        assert_eq!(length_at(b"ab", 2).unwrap_err().to_string(), "fault 3 place 2 layer 1");
        assert_eq!(refused("$"), "fault 1 place 0 layer 1");
        assert_eq!(refused("\\foo"), "fault 2 place 0 layer 1");
        assert_eq!(refused("\\"), "fault 2 place 0 layer 1");
    }

    #[test]
    fn what_stands_behind_a_length() {
        assert_eq!(length_at(b"3ptabc", 0), Ok((196_608, 3)));
        assert_eq!(length_at(b"3pt  ", 0), Ok((196_608, 4)));
        assert_eq!(length_at(b"3pt\n", 0), Ok((196_608, 4)));
        assert_eq!(length_at(b"-0pt", 0), Ok((0, 4)));
        assert_eq!(length_at(b"00000001.5pt", 0), Ok((98_304, 12)));
    }

    #[test]
    fn glue() {
        let gap = |natural, stretch, order| Gap { natural, stretch, order };
        assert_eq!(glue_at(b"1pt", 0), Ok((gap(65_536, 0, 0), 3)));
        assert_eq!(glue_at(b"1pt plus1fil", 0), Ok((gap(65_536, 65_536, 1), 12)));
        assert_eq!(glue_at(b"1ptplus \n 1fillll", 0), Ok((gap(65_536, 65_536, 3), 16)));
        assert_eq!(glue_at(b"1pt  plus 1fil", 0), Ok((gap(65_536, 0, 0), 4)));
        assert_eq!(glue_at(b"1pt Plus 1fil", 0), Ok((gap(65_536, 0, 0), 4)));
        assert_eq!(glue_at(b"0pt plus 0fil  ", 0), Ok((gap(0, 0, 1), 14)));
        assert_eq!(glue_at(b"0pt plus 1fill", 0), Ok((gap(0, 65_536, 2), 14)));
        assert_eq!(glue_at(b"0pt plus 1pt", 0), Ok((gap(0, 65_536, 0), 12)));
        let refused = |text: &[u8]| glue_at(text, 0).unwrap_err().to_string();
        assert_eq!(refused(b"0pt plush"), "fault 3 place 8 layer 1");
        assert_eq!(refused(b"0pt plus"), "fault 3 place 8 layer 1");
        assert_eq!(refused(b"0pt plus  "), "fault 3 place 10 layer 1");
        assert_eq!(refused(b"0pt plus -1fil"), "fault 3 place 9 layer 1");
        assert_eq!(refused(b"0pt plus 1f"), "fault 3 place 9 layer 1");
        assert_eq!(refused(b"0pt plus 1fi"), "fault 3 place 9 layer 1");
        assert_eq!(refused(b"0pt plus 256fil"), "fault 3 place 9 layer 1");
        assert_eq!(refused(b"0pt plus \xff"), "fault 1 place 9 layer 1");
        assert_eq!(refused(b"0pt plus \\x"), "fault 2 place 9 layer 1");
    }

    #[test]
    fn gaps_have_ranges() {
        assert!(Gap::new(G, G, 3).is_some() && Gap::new(-G, 0, 0).is_some());
        for (natural, stretch, order) in [(G + 1, 0, 0), (-G - 1, 0, 0), (0, -1, 0), (0, G + 1, 0), (0, 0, -1), (0, 0, 4)] {
            assert_eq!(Gap::new(natural, stretch, order), None);
        }
    }
}
