//! The preamble (docs/FORMAT.md, 'A preamble'; docs/FAULTS.md, 'Make').

use crate::faults::{Cause, Fault, Filled};
use crate::items::Item;
use crate::lengths::{glue_at, length_at, Gap};
use crate::measure::Measurer;
use crate::reading::{token_at, Control, Lexeme, Token};

pub const MOST_COLUMNS: usize = 32;
pub const MOST_PART_ITEMS: usize = 64;

/// One column: its parts u and v, and the gap that follows it.
#[derive(Clone, Debug, PartialEq, Eq)]
pub struct Column {
    pub u: Vec<Item>,
    pub v: Vec<Item>,
    pub gap: Gap,
}

#[derive(Clone, Debug, PartialEq, Eq)]
pub struct Preamble {
    /// The bytes read: the preamble text.
    pub text: Vec<u8>,
    /// Gap 0, before the first column.
    pub start: Gap,
    pub columns: Vec<Column>,
}

/// The template that is being read.
#[derive(Default)]
struct Template {
    u: Vec<Item>,
    v: Vec<Item>,
    hash: bool,
}

impl Template {
    fn untouched(&self) -> bool {
        self.u.is_empty() && !self.hash
    }

    fn add(&mut self, item: Item, place: usize) -> Result<(), Fault> {
        let part = if self.hash { &mut self.v } else { &mut self.u };
        if part.len() >= MOST_PART_ITEMS {
            return Err(Cause::Full(Filled::Part).at(place));
        }
        part.push(item);
        Ok(())
    }
}

struct Reader<'a> {
    text: &'a [u8],
    measurer: &'a Measurer,
    place: usize,
    /// The gap for the column that is being read and those behind it.
    gap: Gap,
    template: Template,
    columns: Vec<Column>,
}

/// The starting gap is tested first, then the text is read up to \cr.
pub fn read_preamble(text: &[u8], measurer: &Measurer, start: [i64; 3]) -> Result<Preamble, Fault> {
    let [natural, stretch, order] = start;
    let start = Gap::new(natural, stretch, order).ok_or(Cause::OutOfRange.at(0))?;
    let mut reader =
        Reader { text, measurer, place: 0, gap: start, template: Template::default(), columns: vec![] };
    while !reader.step()? {}
    let text = text.get(..reader.place).unwrap_or(&[]).to_vec();
    Ok(Preamble { text, start, columns: reader.columns })
}

impl Reader<'_> {
    /// Reads one token with what belongs to it; true behind \cr.
    fn step(&mut self) -> Result<bool, Fault> {
        let at = self.place;
        let Lexeme { token, end } = token_at(self.text, at)?;
        self.place = end;
        match token {
            Token::End => return Err(Cause::TextOver.at(self.text.len())),
            Token::Space if self.template.untouched() => {}
            Token::Space => self.template.add(Item::blank(self.measurer.space()), at)?,
            Token::Word { place, len } => self.word(at, place, len)?,
            Token::Control(Control::Kern) => self.kern()?,
            Token::Control(Control::Hfil) => self.template.add(Item::fill(self.measurer.entered(0)), at)?,
            Token::Control(Control::Tabskip) => self.tabskip()?,
            Token::Control(Control::Cr) => {
                self.end_template(at)?;
                return Ok(true);
            }
            Token::Ampersand => self.ampersand(at)?,
            Token::Hash if self.template.hash => return Err(Cause::TemplateMark.at(at)),
            Token::Hash => self.template.hash = true,
            Token::OpenBrace
            | Token::CloseBrace
            | Token::Control(
                Control::Omit | Control::Span | Control::Noalign | Control::Hrule | Control::Vskip,
            ) => return Err(Cause::Misplaced.at(at)),
        }
        Ok(false)
    }

    fn word(&mut self, at: usize, place: usize, len: usize) -> Result<(), Fault> {
        let bytes = self.text.get(place..place + len).unwrap_or(&[]);
        match self.measurer.word(bytes) {
            Ok(width) => self.template.add(Item::template_word(width, place, len), at),
            Err(missing) => Err(Cause::NoCharacter.at(place + missing)),
        }
    }

    fn kern(&mut self) -> Result<(), Fault> {
        let at = self.place;
        let (length, end) = length_at(self.text, at)?;
        self.place = end;
        self.template.add(Item::blank(self.measurer.entered(length)), at)
    }

    fn tabskip(&mut self) -> Result<(), Fault> {
        let (gap, end) = glue_at(self.text, self.place)?;
        self.place = end;
        self.gap = gap;
        Ok(())
    }

    fn end_template(&mut self, at: usize) -> Result<(), Fault> {
        if !self.template.hash {
            return Err(Cause::TemplateMark.at(at));
        }
        let Template { u, v, .. } = std::mem::take(&mut self.template);
        self.columns.push(Column { u, v, gap: self.gap });
        Ok(())
    }

    fn ampersand(&mut self, at: usize) -> Result<(), Fault> {
        self.end_template(at)?;
        if self.columns.len() >= MOST_COLUMNS {
            return Err(Cause::TooManyColumns.at(at));
        }
        Ok(())
    }
}

#[cfg(test)]
mod tests {
    use super::*;
    use crate::lengths::G;

    fn read(text: &[u8]) -> Result<Preamble, Fault> {
        read_preamble(text, &Measurer::usual(), [0, 0, 0])
    }

    fn refused(text: &[u8]) -> String {
        read(text).unwrap_err().to_string()
    }

    fn parts(text: &[u8]) -> Vec<(usize, usize)> {
        read(text).unwrap().columns.iter().map(|c| (c.u.len(), c.v.len())).collect()
    }

    #[test]
    fn templates() {
        assert_eq!(parts(b"#&#\\cr ab"), [(0, 0), (0, 0)]);
        assert_eq!(read(b"#&#\\cr ab").unwrap().text.len(), 7);
        assert_eq!(read(b"#\\cr \n 1").unwrap().text.len(), 7);
        assert_eq!(read(b"#\\cr1").unwrap().text.len(), 4);
        assert_eq!(parts(b"  a # b &\\tabskip 1pt  \\hfil#\\cr"), [(2, 3), (1, 0)]);
        assert_eq!(parts(b"a\\&b\\kern1pt #  \\kern 1pt  \\cr"), [(4, 3)]);
        assert_eq!(parts(b"\\kern1pt  #\\cr"), [(2, 0)]);
    }

    #[test]
    fn gaps() {
        let naturals = |text: &[u8]| -> Vec<i64> { read(text).unwrap().columns.iter().map(|c| c.gap.natural).collect() };
        assert_eq!(naturals(b"#&\\tabskip1pt#\\tabskip 2pt&#&#\\tabskip-1pt\\cr"), [0, 131_072, 131_072, -65_536]);
        let p = read_preamble(b"#&#\\tabskip 1pt plus 1fil\\tabskip 0pt\\cr", &Measurer::usual(), [5, 6, 2]).unwrap();
        assert_eq!(p.start, Gap { natural: 5, stretch: 6, order: 2 });
        assert_eq!(p.columns[0].gap, p.start);
        assert_eq!(p.columns[1].gap, Gap::default());
    }

    #[test]
    fn faults() {
        assert_eq!(refused(b""), "fault 8 place 0 layer 2");
        assert_eq!(refused(b"#"), "fault 8 place 1 layer 2");
        assert_eq!(refused(b"a &"), "fault 6 place 2 layer 2");
        assert_eq!(refused(b"abc "), "fault 8 place 4 layer 2");
        assert_eq!(refused(b"\\cr"), "fault 6 place 0 layer 2");
        assert_eq!(refused(b"a# #\\cr"), "fault 6 place 3 layer 2");
        assert_eq!(refused(b"#&&#\\cr"), "fault 6 place 2 layer 2");
        for misplaced in ["{", "}", "\\omit", "\\span", "\\noalign", "\\hrule", "\\vskip"] {
            assert_eq!(refused(format!("# {misplaced}").as_bytes()), "fault 5 place 2 layer 2");
        }
        assert_eq!(refused(b"#$\\cr"), "fault 1 place 1 layer 1");
        assert_eq!(refused(b"#\\crab"), "fault 2 place 1 layer 1");
        assert_eq!(refused(b"#\\kern"), "fault 3 place 6 layer 1");
        assert_eq!(refused(b"#\\kern  \\cr"), "fault 3 place 8 layer 1");
        assert_eq!(refused(b"#\\kern &"), "fault 3 place 7 layer 1");
        assert_eq!(refused(b"#\\tabskip 1pt plus x"), "fault 3 place 19 layer 1");
        assert_eq!(refused(&[b"#".as_slice(), &[b'a'; 256]].concat()), "fault 9 place 1 layer 1");
    }

    #[test]
    fn thirty_two_columns() {
        let columns = |n: usize| [vec!["#"; n].join("&").into_bytes(), b"\\cr".to_vec()].concat();
        assert_eq!(read(&columns(32)).unwrap().columns.len(), 32);
        assert_eq!(refused(&columns(33)), "fault 7 place 63 layer 2");
        let no_hash = ["#&".repeat(31), "&".into()].concat();
        assert_eq!(refused(no_hash.as_bytes()), "fault 6 place 62 layer 2");
    }

    #[test]
    fn sixty_four_items() {
        let part = |item: &str, n| item.repeat(n);
        assert_eq!(parts(format!("{}#{}\\cr", part("\\hfil ", 64), part("\\&", 64)).as_bytes()), [(64, 64)]);
        assert_eq!(refused(format!("{}#\\cr", part("\\&", 65)).as_bytes()), "fault 22 place 128 layer 2");
        assert_eq!(refused(format!("#{}\\cr", part("\\kern1pt", 65)).as_bytes()), "fault 22 place 518 layer 2");
        assert_eq!(refused(format!("#{} \\cr", part("\\&", 64)).as_bytes()), "fault 22 place 129 layer 2");
        assert_eq!(refused(format!("#{}\\kern x", part("\\&", 64)).as_bytes()), "fault 3 place 135 layer 1");
    }

    #[test]
    fn measuring_comes_before_the_full_part() {
        let narrow = Measurer::Mono(crate::measure::Mono { pitch: 1, height: 0, depth: 0, last: 97 });
        let text = ["\\hfil ".repeat(64), "aab#\\cr".into()].concat();
        let fault = read_preamble(text.as_bytes(), &narrow, [0, 0, 0]).unwrap_err();
        assert_eq!(fault.to_string(), format!("fault 41 place {} layer 4", 6 * 64 + 2));
        let escaped = read_preamble(b" \\{#\\cr", &narrow, [0, 0, 0]).unwrap_err();
        assert_eq!(escaped.to_string(), "fault 41 place 2 layer 4");
    }

    #[test]
    fn the_starting_gap_comes_first() {
        for start in [[G + 1, 0, 0], [-G - 1, 0, 0], [0, -1, 0], [0, G + 1, 0], [0, 0, 4], [0, 0, -1]] {
            let fault = read_preamble(b"$", &Measurer::usual(), start).unwrap_err();
            assert_eq!(fault.to_string(), "fault 27 place 0 layer 2");
        }
        assert!(read_preamble(b"#\\cr", &Measurer::usual(), [-G, G, 3]).is_ok());
    }
}
