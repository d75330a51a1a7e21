//! Measurers: monospaced, and twin of two of them (docs/MEASURERS.md). An extent is its list of sides.

use crate::faults::{Cause, Fault};
use crate::lengths::G;
use crate::reading::LONGEST_WORD;

pub type Extent = Vec<i64>;

pub const WIDEST_PITCH: i64 = 4_194_304;

#[derive(Clone, Copy, Debug, PartialEq, Eq)]
pub struct Mono {
    pub pitch: i64,
    pub height: i64,
    pub depth: i64,
    pub last: i64,
}

impl Mono {
    pub fn new(numbers: [i64; 4]) -> Result<Mono, Fault> {
        let [pitch, height, depth, last] = numbers;
        let good = (0..=WIDEST_PITCH).contains(&pitch)
            && (0..=G).contains(&height)
            && (0..=G).contains(&depth)
            && (32..=126).contains(&last);
        if good {
            Ok(Mono { pitch, height, depth, last })
        } else {
            Err(Cause::MeasurerRange.at(0))
        }
    }

    /// A word's width, or the place of the first byte without a character.
    fn width(&self, word: &[u8]) -> Result<i64, usize> {
        match word.iter().position(|&b| i64::from(b) > self.last) {
            Some(missing) => Err(missing),
            None => Ok(word.iter().map(|_| self.pitch).sum()),
        }
    }
}

#[derive(Clone, Copy, Debug, PartialEq, Eq)]
pub enum Measurer {
    Mono(Mono),
    /// The strip's, then the window's.
    Twin(Mono, Mono),
}

impl Measurer {
    /// What `strip` has, and a script that says nothing.
    pub fn usual() -> Measurer {
        Measurer::Mono(Mono { pitch: 10, height: 7, depth: 2, last: 126 })
    }

    pub fn sides(&self) -> usize {
        self.monos().len()
    }

    /// The measurers of the sides, in their order.
    pub fn monos(&self) -> Vec<&Mono> {
        match self {
            Measurer::Mono(one) => vec![one],
            Measurer::Twin(strip, window) => vec![strip, window],
        }
    }

    /// A word's width, or the place that the first refusal names.
    pub fn word(&self, word: &[u8]) -> Result<Extent, usize> {
        self.monos().iter().map(|mono| mono.width(word)).collect()
    }

    /// Of any word on a side; nothing on a side that there is not.
    pub fn height_and_depth(&self, side: usize) -> (i64, i64) {
        self.monos().get(side).map_or((0, 0), |mono| (mono.height, mono.depth))
    }

    pub fn space(&self) -> Extent {
        self.monos().iter().map(|mono| mono.pitch).collect()
    }

    /// A source length as it enters the kind: plain and twin take it unaltered.
    pub fn entered(&self, length: i64) -> Extent {
        vec![length; self.sides()]
    }

    /// What a host's bytes go through: 1, then 9, then 41.
    pub fn measured(&self, bytes: &[u8]) -> Result<Extent, Fault> {
        if let Some(place) = bytes.iter().position(|b| !(33..=126).contains(b)) {
            return Err(Cause::BadByte.at(place));
        }
        if bytes.is_empty() || bytes.len() > LONGEST_WORD {
            return Err(Cause::WordLength.at(0));
        }
        self.word(bytes).map_err(|place| Cause::NoCharacter.at(place))
    }
}

#[cfg(test)]
mod tests {
    use super::*;

    #[test]
    fn ranges_of_mono() {
        assert!(Mono::new([0, 0, 0, 32]).is_ok());
        assert!(Mono::new([WIDEST_PITCH, G, G, 126]).is_ok());
        for bad in [
            [-1, 0, 0, 32],
            [WIDEST_PITCH + 1, 0, 0, 32],
            [0, -1, 0, 32],
            [0, G + 1, 0, 32],
            [0, 0, -1, 32],
            [0, 0, G + 1, 32],
            [0, 0, 0, 31],
            [0, 0, 0, 127],
        ] {
            assert_eq!(Mono::new(bad).unwrap_err().to_string(), "fault 27 place 0 layer 4");
        }
    }

    #[test]
    fn order_of_a_words_faults() {
        let narrow = Measurer::Mono(Mono { pitch: WIDEST_PITCH, height: 0, depth: 0, last: 97 });
        assert_eq!(narrow.measured(&[b'a'; 255]), Ok(vec![1_069_547_520]));
        assert_eq!(narrow.measured(b"abc").unwrap_err().to_string(), "fault 41 place 1 layer 4");
        assert_eq!(narrow.measured(&[b'b'; 256]).unwrap_err().to_string(), "fault 9 place 0 layer 1");
        assert_eq!(narrow.measured(b"").unwrap_err().to_string(), "fault 9 place 0 layer 1");
        let mut long = vec![b'b'; 300];
        long[299] = 127;
        assert_eq!(narrow.measured(&long).unwrap_err().to_string(), "fault 1 place 299 layer 1");
    }

    #[test]
    fn twin_asks_the_first_first() {
        let mono = |pitch, last| Mono { pitch, height: 0, depth: 0, last };
        let twin = Measurer::Twin(mono(1, 98), mono(3, 97));
        assert_eq!(twin.word(b"aa"), Ok(vec![2, 6]));
        assert_eq!(twin.word(b"abc"), Err(2));
        assert_eq!(twin.word(b"ab"), Err(1));
        assert_eq!(twin.space(), vec![1, 3]);
        assert_eq!(twin.entered(-7), vec![-7, -7]);
    }
}
