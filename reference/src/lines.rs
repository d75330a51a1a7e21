//! A line read from a text: a row, or \noalign with a rule or a gap (docs/FORMAT.md, docs/FAULTS.md).
//!
//! Each token is performed on the ledger as the call would be that stands for it. A fault of a call stands at its token; where
//! several stand at one token, layer 1 goes first, then 5 to 8, 41, 10 and 22. A refused line drops the row that it opened, and
//! nothing else has changed by then.

use crate::faults::{Cause, Fault};
use crate::items::Item;
use crate::lengths::length_at;
use crate::reading::{spaces_end, token_at, Control, Lexeme, Token};
use crate::table::{Cell, Stage, Table};

impl Table {
    /// The bytes read, or nothing where only spaces are left.
    pub fn line(&mut self, text: &[u8]) -> Result<Option<usize>, Fault> {
        self.no_row_in_hand()?;
        let first = spaces_end(text, 0);
        if first == text.len() {
            return Ok(None);
        }
        match token_at(text, first)? {
            Lexeme { token: Token::Control(Control::Noalign), end } => self.noalign(text, first, end).map(Some),
            _ => self.row(text, first).map(Some),
        }
    }

    fn row(&mut self, text: &[u8], first: usize) -> Result<usize, Fault> {
        let full = self.room_for_a_row().err().map(|fault| fault.cause);
        let cell = self.open_row();
        let mut reader = RowReader { table: self, text, place: first, cell, full };
        let read = reader.to_the_end();
        if read.is_err() {
            self.drop_row();
        }
        read
    }

    /// What is at fault stands right of \noalign, so a table without room for a line refuses first.
    fn noalign(&mut self, text: &[u8], at: usize, behind: usize) -> Result<usize, Fault> {
        self.room_for_a_line().map_err(|fault| fault.cause.at(at))?;
        let inside = expect(text, behind, Token::OpenBrace)?;
        let Lexeme { token, end } = token_at(text, inside)?;
        match token {
            Token::Control(Control::Hrule) => {
                let end = expect(text, end, Token::CloseBrace)?;
                self.rule().map(|()| end)
            }
            Token::Control(Control::Vskip) => {
                let (length, behind) = length_at(text, end)?;
                if length < 0 {
                    return Err(Cause::BadLength.at(end));
                }
                let end = expect(text, behind, Token::CloseBrace)?;
                self.gap(length).map(|()| end)
            }
            other => Err(unexpected(text, inside, other)),
        }
    }
}

/// The place behind the only token that may stand here.
fn expect(text: &[u8], place: usize, wanted: Token) -> Result<usize, Fault> {
    match token_at(text, place)? {
        Lexeme { token, end } if token == wanted => Ok(end),
        Lexeme { token, .. } => Err(unexpected(text, place, token)),
    }
}

fn unexpected(text: &[u8], place: usize, token: Token) -> Fault {
    match token {
        Token::End => Cause::TextOver.at(text.len()),
        _ => Cause::Misplaced.at(place),
    }
}

struct RowReader<'a> {
    table: &'a mut Table,
    text: &'a [u8],
    place: usize,
    cell: Cell,
    /// What had no room when the row was opened: it stands at the first token, behind all else that is wrong there.
    full: Option<Cause>,
}

impl RowReader<'_> {
    fn to_the_end(&mut self) -> Result<usize, Fault> {
        while !self.step()? {}
        Ok(self.place)
    }

    /// Reads one token with what belongs to it; true behind \cr.
    fn step(&mut self) -> Result<bool, Fault> {
        let at = self.place;
        let Lexeme { token, end } = token_at(self.text, at)?;
        self.place = end;
        let fresh = self.cell.stage == Stage::Fresh;
        match token {
            Token::Space if fresh => {}
            Token::Space => self.put(at, Item::blank(self.table.measurer.space()))?,
            Token::Word { place, len } => self.word(at, place, len)?,
            Token::Control(Control::Hfil) => self.put(at, Item::fill(self.table.measurer.entered(0)))?,
            Token::Control(Control::Kern) => self.kern(at)?,
            Token::Control(Control::Omit) if fresh => {
                self.taken(at)?;
                self.cell = self.table.omit(self.cell).map_err(to(at))?;
            }
            Token::Ampersand => self.next(at, Table::tab)?,
            Token::Control(Control::Span) => self.next(at, Table::span)?,
            Token::Control(Control::Cr) => {
                self.begun(at)?;
                self.taken(at)?;
                self.table.lay(self.cell).map_err(to(at))?;
                return Ok(true);
            }
            Token::End
            | Token::Hash
            | Token::OpenBrace
            | Token::CloseBrace
            | Token::Control(
                Control::Omit | Control::Tabskip | Control::Noalign | Control::Hrule | Control::Vskip,
            ) => return Err(unexpected(self.text, at, token)),
        }
        Ok(false)
    }

    /// 41, then the put's.
    fn word(&mut self, at: usize, place: usize, len: usize) -> Result<(), Fault> {
        let bytes = self.text.get(place..place + len).unwrap_or(&[]);
        let width = self.table.measurer.word(bytes).map_err(|missing| Cause::NoCharacter.at(place + missing))?;
        self.put(at, Item::cell_word(width, bytes))
    }

    /// At \kern stands what the cell's beginning and the row's give; the length comes behind it.
    fn kern(&mut self, at: usize) -> Result<(), Fault> {
        self.begun(at)?;
        self.taken(at)?;
        let number = self.place;
        let (length, end) = length_at(self.text, number)?;
        self.place = end;
        let width = self.table.measurer.entered(length);
        self.put(number, Item::blank(width))
    }

    /// 10 for start and for the item, then 22 for the item and for the row; these two are told apart by nothing.
    fn put(&mut self, at: usize, item: Item) -> Result<(), Fault> {
        self.begun(at)?;
        self.table.put(self.cell, item).map_err(to(at))?;
        self.taken(at)
    }

    /// Into the next column: 7, start's 10, 22.
    fn next(&mut self, at: usize, call: fn(&mut Table, Cell) -> Result<Cell, Fault>) -> Result<(), Fault> {
        if self.cell.column + 1 >= self.table.columns() {
            return Err(Cause::TooManyColumns.at(at));
        }
        self.begun(at)?;
        self.taken(at)?;
        self.cell = call(self.table, self.cell).map_err(to(at))?;
        Ok(())
    }

    /// A fresh cell starts with whatever its first token is, unless that is \omit.
    fn begun(&mut self, at: usize) -> Result<(), Fault> {
        if self.cell.stage == Stage::Fresh {
            self.cell = self.table.start(self.cell).map_err(to(at))?;
        }
        Ok(())
    }

    fn taken(&mut self, at: usize) -> Result<(), Fault> {
        self.full.take().map_or(Ok(()), |cause| Err(cause.at(at)))
    }
}

fn to(place: usize) -> impl Fn(Fault) -> Fault {
    move |fault| fault.cause.at(place)
}

#[cfg(test)]
mod tests {
    use super::*;
    use crate::lengths::G;
    use crate::measure::{Measurer, Mono};
    use crate::table::{Line, Room, Used, K, LARGEST};

    fn table(preamble: &str) -> Table {
        within(preamble, LARGEST)
    }

    fn within(preamble: &str, room: Room) -> Table {
        Table::make(preamble.as_bytes(), Measurer::usual(), [0, 0, 0], room).unwrap()
    }

    fn mono(pitch: i64, last: i64) -> Measurer {
        Measurer::Mono(Mono { pitch, height: 0, depth: 0, last })
    }

    fn read(table: &mut Table, text: &str) -> usize {
        table.line(text.as_bytes()).unwrap_or_else(|fault| panic!("{text}: {fault}")).unwrap()
    }

    /// Cause and place; a refused line changes nothing.
    fn refused(table: &mut Table, text: impl AsRef<[u8]>) -> (u32, usize) {
        let text = text.as_ref();
        let before = (table.lines.clone(), table.used());
        let fault = table.line(text).expect_err(&text.escape_ascii().to_string());
        assert_eq!((table.lines.clone(), table.used()), before);
        assert!(table.no_row_in_hand().is_ok());
        (fault.cause.number(), fault.place)
    }

    /// First and last column, number of items and width of the entries of the last line.
    fn entries(table: &Table) -> Vec<(usize, usize, usize, i64)> {
        match table.lines.last() {
            Some(Line::Row(row)) => {
                row.iter().map(|e| (e.first + 1, e.last + 1, e.items.len(), table.natural(e)[0])).collect()
            }
            _ => vec![],
        }
    }

    #[test]
    fn a_row_of_each_form() {
        let mut t = table("#&#\\cr");
        let text = " ab&c\\cr \\span\\omit d\\cr";
        assert_eq!(read(&mut t, text), 9);
        assert_eq!(entries(&t), [(1, 1, 1, 20), (2, 2, 1, 10)]);
        assert_eq!(read(&mut t, &text[9..]), text.len() - 9);
        assert_eq!(entries(&t), [(1, 2, 1, 10)]);
        assert_eq!(t.used(), Used { items: 3, entries: 3, text: 4 });
        assert_eq!(t.line(b""), Ok(None));
    }

    #[test]
    fn only_spaces() {
        let mut t = within("#\\cr", Room { items: 0, entries: 0, lines: 0, text: 0 });
        for text in ["", " ", "\n", " \n  "] {
            assert_eq!(t.line(text.as_bytes()), Ok(None));
        }
        assert_eq!(refused(&mut t, "\t"), (1, 0));
        let mut t = table("#\\cr");
        let cell = t.take().unwrap();
        for text in ["", " ", "$", "a\\cr", "\\noalign{\\hrule}"] {
            assert_eq!(t.line(text.as_bytes()).unwrap_err().to_string(), "fault 21 place 0 layer 2");
        }
        t.omit(cell).unwrap();
        assert_eq!(t.line(b"").unwrap_err().to_string(), "fault 21 place 0 layer 2");
    }

    #[test]
    fn bytes_read() {
        let mut t = table("#\\cr");
        for (text, bytes) in [
            ("a\\cr", 4), ("  a\\cr \n b", 9), ("\\cr", 3), ("\\cr1", 3), (" \n\\cr  ", 7), ("\\noalign{\\hrule}  ", 16),
            (" \\noalign {\\hrule  } a", 20), ("\\noalign{\\vskip 1pt }$", 21), ("\\noalign{\\vskip1pt}\\foo", 19),
            ("\\noalign\n\n{\\vskip\n0pt\n}", 23), ("\\noalign{\\vskip-0pt}", 20), ("\\noalign{\\vskip -0.0000001pt}", 29),
        ] {
            assert_eq!(read(&mut t, text), bytes, "{text}");
        }
        let laid: Vec<&Line> = t.lines.iter().skip(5).collect();
        let gap = Line::Gap;
        assert_eq!(laid, [&Line::Rule, &Line::Rule, &gap(65_536), &gap(65_536), &gap(0), &gap(0), &gap(0)]);
    }

    #[test]
    fn spaces_and_marks() {
        // u takes 1 and 4, v takes 2 and 8.
        let mut t = table("\\kern0.00002pt#\\kern0.00003pt&\\kern0.00006pt#\\kern0.00012pt\\cr");
        let mut laid = |text: &str| {
            read(&mut t, text);
            entries(&t)
        };
        assert_eq!(laid("\\cr"), [(1, 1, 2, 3)]);
        assert_eq!(laid("a\\cr"), [(1, 1, 3, 13)]);
        assert_eq!(laid("  a  \\cr"), [(1, 1, 4, 23)]);
        assert_eq!(laid("&\\cr"), [(1, 1, 2, 3), (2, 2, 2, 12)]);
        assert_eq!(laid(" \n & a \\cr"), [(1, 1, 2, 3), (2, 2, 4, 32)]);
        assert_eq!(laid("\\span\\cr"), [(1, 2, 4, 15)]);
        assert_eq!(laid("\\omit\\span\\omit\\cr"), [(1, 2, 0, 0)]);
        assert_eq!(laid("\\omit a\\span b\\cr"), [(1, 2, 4, 32)]);
        assert_eq!(laid("a\\span  \\omit  b \\cr"), [(1, 2, 5, 33)]);
        assert_eq!(laid(" \\omit  & \\omit\\cr"), [(1, 1, 0, 0), (2, 2, 0, 0)]);
        assert_eq!(laid("\\omit\\&  \\_\\cr"), [(1, 1, 3, 30)]);
        assert_eq!(laid("\\omit\\kern 0.00003pt \\cr"), [(1, 1, 1, 2)]);
        assert_eq!(laid("\\omit\\kern0.00003pt  \\cr"), [(1, 1, 2, 12)]);
        assert_eq!(laid("\\omit\\hfil  a\\hfil\\cr"), [(1, 1, 3, 10)]);
        assert_eq!(laid("\\omit a\\&b\\cr"), [(1, 1, 3, 30)]);
        assert_eq!(laid("\\omit\\kern1ptabc\\cr"), [(1, 1, 2, 65_566)]);
    }

    #[test]
    fn what_is_misplaced() {
        let mut t = table("#&#\\cr");
        for token in ["#", "{", "}", "\\tabskip", "\\hrule", "\\vskip"] {
            assert_eq!(refused(&mut t, format!(" {token}1pt\\cr")), (5, 1), "{token}");
            assert_eq!(refused(&mut t, format!("a{token}1pt\\cr")), (5, 1), "{token}");
            assert_eq!(refused(&mut t, format!("a& {token}1pt\\cr")), (5, 3), "{token}");
        }
        for (text, place) in [
            ("\\omit\\omit\\cr", 5), ("a\\omit\\cr", 1), ("\\omit a\\omit", 7), ("a&b\\omit", 3), ("a\\noalign{\\hrule}", 1),
            ("a&\\noalign{\\hrule}", 2), ("\\omit\\noalign", 5), ("\\kern1pt\\omit", 8), ("\\hfil\\omit", 5),
        ] {
            assert_eq!(refused(&mut t, text), (5, place), "{text}");
        }
        assert_eq!(refused(&mut t, "a&b&"), (7, 3));
        assert_eq!(refused(&mut t, "a&b\\span$"), (7, 3));
        assert_eq!(refused(&mut t, "& &"), (7, 2));
        assert_eq!(refused(&mut t, "\\span\\omit\\span"), (7, 10));
    }

    #[test]
    fn in_noalign() {
        let mut t = table("#\\cr");
        for (text, fault) in [
            ("\\noalign", (8, 8)), ("\\noalign  ", (8, 10)), ("\\noalign{", (8, 9)), ("\\noalign{\\hrule", (8, 15)),
            ("\\noalign{\\hrule ", (8, 16)), ("\\noalign{\\vskip1pt", (8, 18)), ("\\noalign{\\vskip1pt ", (8, 19)),
            ("\\noalign{\\vskip", (3, 15)), ("\\noalign{\\vskip ", (3, 16)), ("\\noalign{ \\hrule}", (5, 9)),
            ("\\noalign{", (8, 9)), ("\\noalign{}", (5, 9)), ("\\noalign{\\cr}", (5, 9)), ("\\noalign{{", (5, 9)),
            ("\\noalign{\\foo}", (2, 9)), ("\\noalign{$", (1, 9)), ("\\noalign x", (5, 9)), ("\\noalign\\hrule", (5, 8)),
            ("\\noalign$", (1, 8)), ("\\noalign\\", (2, 8)), ("\\noalign{\\hrule a}", (5, 16)), ("\\noalign{\\hrule\\hrule}", (5, 15)),
            ("\\noalign{\\vskip1pt  }", (5, 19)), ("\\noalign{\\vskip-1pt}", (3, 15)), ("\\noalign{\\vskip256pt", (3, 15)),
            ("\\noalign{\\vskip}", (3, 15)), ("\\noalign{\\vskip $", (1, 16)), ("\\noalign{\\vskip\\x", (2, 15)),
            ("\\noalign{\\vskip1ptplus1fil}", (5, 18)), ("\\noalign{\\vskip1pt$", (1, 18)), ("\\noalign{\\vskip1pt{", (5, 18)),
        ] {
            assert_eq!(refused(&mut t, text), fault, "{text}");
        }
        for before in ["\\noalign ", "\\noalign{", "\\noalign{\\hrule ", "\\noalign{\\vskip1pt "] {
            assert_eq!(refused(&mut t, format!("{before}{}", "a".repeat(256))), (9, before.len()));
        }
        assert_eq!(refused(&mut t, format!("\\noalign{{\\vskip {}", "a".repeat(256))), (3, 16));
    }

    #[test]
    fn layer_one_and_ends() {
        let mut t = table("#&#\\cr");
        for (text, fault) in [
            ("a", (8, 1)), (" a ", (8, 3)), ("a&", (8, 2)), ("a& ", (8, 3)), ("a\\span", (8, 6)), ("\\omit", (8, 5)),
            ("\\omit ", (8, 6)), ("a\\hfil", (8, 6)), ("a\\kern1pt", (8, 9)), ("a\\kern", (3, 6)), ("a\\kern ", (3, 7)),
            ("a\\kern\\cr", (3, 6)), ("a\\kern&", (3, 6)), ("a\\kern }", (3, 7)), ("a\\kern-pt", (3, 6)), ("a\\kern$", (1, 6)),
            ("a\\kern\\foo", (2, 6)), ("a\\crab", (2, 1)), ("a\\", (2, 1)), ("a\\ b", (2, 1)), ("a\\\\", (2, 1)), ("a%", (1, 1)),
            ("\\Cr", (2, 0)), ("~", (1, 0)), ("a&b&$", (7, 3)), ("a\\kern256pt", (3, 6)),
        ] {
            assert_eq!(refused(&mut t, text), fault, "{text}");
        }
        assert_eq!(read(&mut t, &format!("{}\\cr", "a".repeat(255))), 258);
        assert_eq!(refused(&mut t, format!("b {}", "a".repeat(256))), (9, 2));
        assert_eq!(refused(&mut t, format!("\\kern{}", "1".repeat(256))), (3, 5));
    }

    #[test]
    fn missing_characters() {
        let mut t = Table::make(b"#\\cr", mono(10, 97), [0, 0, 0], LARGEST).unwrap();
        assert_eq!(refused(&mut t, "aab"), (41, 2));
        assert_eq!(refused(&mut t, " a \\{"), (41, 4));
        assert_eq!(refused(&mut t, format!("{}b", "a".repeat(255))), (9, 0));
        assert_eq!(refused(&mut t, format!("{}b", "a".repeat(254))), (41, 254));
        t.room.lines = 0;
        assert_eq!(refused(&mut t, "ab\\cr"), (41, 1));
        assert_eq!(refused(&mut t, "a b"), (22, 0));
    }

    #[test]
    fn full_lines() {
        let mut t = within("#\\cr", Room { lines: 0, ..LARGEST });
        for (text, fault) in [
            ("  a\\cr", (22, 2)), ("\\cr", (22, 0)), ("\\kern x", (22, 0)), ("\\kern", (22, 0)), (" \\noalign x", (22, 1)),
            ("\\noalign", (22, 0)), ("\\noalign$", (22, 0)), ("\\omit", (22, 0)), ("\\hfil", (22, 0)), ("}", (5, 0)),
            ("\\foo", (2, 0)), ("&", (7, 0)), ("\\span", (7, 0)), ("\\hrule", (5, 0)), ("\\{$", (22, 0)), ("$", (1, 0)),
        ] {
            assert_eq!(refused(&mut t, text), fault, "{text}");
        }
    }

    #[test]
    fn full_items_entries_and_text() {
        // u and v of the first column are three items, of the second two.
        let preamble = "a\\hfil#\\hfil&#\\hfil\\hfil\\cr";
        let room = |items, entries, text| Room { items, entries, lines: 9, text };
        let fault = |items, entries, bytes, text: &str| refused(&mut within(preamble, room(items, entries, bytes)), text);
        assert_eq!(fault(2, 9, 9, " \\omit\\cr"), (22, 1));
        assert_eq!(fault(2, 9, 9, "\\kern x"), (22, 0));
        assert_eq!(fault(3, 9, 9, "\\kern x"), (3, 6));
        assert_eq!(fault(3, 9, 9, "\\kern 1pt"), (22, 6));
        assert_eq!(fault(3, 9, 9, "\\hfil"), (22, 0));
        assert_eq!(fault(3, 9, 9, "\\omit\\hfil\\hfil\\hfil \\&"), (22, 21));
        assert_eq!(fault(3, 9, 9, "\\omit&\\omit\\hfil\\hfil\\hfil\\hfil"), (22, 26));
        assert_eq!(fault(4, 9, 9, " & \\omit"), (22, 1));
        assert_eq!(fault(4, 9, 9, "\\span \\omit"), (22, 0));
        assert_eq!(fault(9, 0, 9, "a\\cr"), (22, 0));
        assert_eq!(fault(9, 1, 9, "a&"), (22, 1));
        assert_eq!(fault(9, 1, 9, "a&&"), (22, 1));
        assert_eq!(fault(9, 1, 9, "a\\span\\span"), (7, 6));
        assert_eq!(fault(9, 9, 2, "abc"), (22, 0));
        assert_eq!(fault(9, 9, 2, "a\\_\\$"), (22, 3));
        let mut t = within(preamble, room(7, 2, 3));
        assert_eq!(read(&mut t, "abc&\\omit\\kern1pt\\hfil\\cr"), 25);
        assert_eq!(t.used(), Used { items: 6, entries: 2, text: 3 });
        let mut t = within(preamble, room(5, 1, 0));
        assert_eq!(read(&mut t, "\\span\\cr"), 8);
        assert_eq!(entries(&t), [(1, 2, 5, 10)]);
    }

    /// 64 of the largest kerns are K less 63.
    #[test]
    fn entries_too_wide() {
        let heavy = |sign: &str| format!("\\kern{sign}255.99999pt").repeat(64);
        assert_eq!(64 * G, K - 63);
        let mut t = table(&format!("#&{}#\\kern0.00098pt\\cr", heavy("")));
        for (text, place) in [
            ("& \\cr", 2), ("&a", 1), ("& \\hfil", 2), ("& \\kern x", 2), ("& \\_", 2), ("\\span  a", 7),
        ] {
            assert_eq!(refused(&mut t, text), (10, place), "{text}");
        }
        assert_eq!(refused(&mut t, "& $"), (1, 2));
        assert_eq!(refused(&mut t, "& &"), (7, 2));
        assert_eq!(refused(&mut t, "&"), (8, 1));
        assert_eq!(refused(&mut t, "& }"), (5, 2));
        assert_eq!(refused(&mut t, "&\x7f"), (1, 1));
        read(&mut t, "& \\omit\\cr");
        read(&mut t, "\\kern-1pt\\span\\cr");
        let mut t = table(&format!("{}#\\kern0.00090pt\\cr", heavy("")));
        // 63 less 59: four more.
        assert_eq!(refused(&mut t, "\\kern 0.00008pt"), (10, 6));
        assert_eq!(refused(&mut t, "\\kern0.00006pt\\kern-1pt a\\&\\kern1pt"), (10, 32));
        assert_eq!(refused(&mut t, "\\kern0.00006pta\\cr"), (10, 14));
        assert_eq!(refused(&mut t, "a\\cr"), (10, 0));
        read(&mut t, "\\kern0.00006pt\\hfil\\cr");
        assert_eq!(t.ask(1), Ok(Some(vec![K])));
        let mut t = table(&format!("{}#\\kern-0.00096pt&\\kern-1pt#\\cr", heavy("-")));
        assert_eq!(refused(&mut t, " \\kern-0.00002pt"), (10, 6));
        assert_eq!(refused(&mut t, "\\span a"), (10, 6));
        read(&mut t, "\\cr");
        assert_eq!(t.ask(1), Ok(Some(vec![-K])));
        assert_eq!(refused(&mut t, "\\span\\cr"), (10, 5));
        assert_eq!(refused(&mut t, "\\span\\span"), (7, 5));
        // The span's 10 stands at what comes behind it, so \omit is free of it, and an item brings it back.
        assert_eq!(refused(&mut t, "\\span\\omit\\kern-1pt"), (10, 15));
        read(&mut t, "\\span\\omit\\cr");
        t.room.lines = t.lines.len();
        assert_eq!(refused(&mut t, "\\kern-1pt"), (22, 0));
        let mut t = within(&format!("{}#\\kern0.00098pt\\cr", heavy("")), Room { items: 0, entries: 0, lines: 0, text: 0 });
        for text in ["a\\cr", "\\kern x", "\\cr", "\\hfil", "\\_"] {
            assert_eq!(refused(&mut t, text), (10, 0), "{text}");
        }
        assert_eq!(refused(&mut t, "\\omit"), (22, 0));
        assert_eq!(refused(&mut t, "#"), (5, 0));
    }

    #[test]
    fn refused_lines_leave_room_and_widths() {
        let mut t = within("#&#\\cr", Room { items: 3, entries: 2, lines: 2, text: 3 });
        read(&mut t, "ab&\\cr");
        for text in ["c\\hfil&&", "c&d\\foo", "\\omit\\hfil\\hfil\\hfil", "c", "\\noalign{\\hrule"] {
            refused(&mut t, text);
            assert_eq!((t.ask(1), t.ask(2)), (Ok(Some(vec![20])), Ok(Some(vec![0]))));
        }
        assert_eq!(refused(&mut t, "\\cr"), (22, 0));
        read(&mut t, "\\noalign{\\hrule}");
        assert_eq!(refused(&mut t, "\\noalign{\\hrule}"), (22, 0));
    }
}
