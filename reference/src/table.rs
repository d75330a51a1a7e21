//! The table: its preamble, its room, its ledger, and the calls on it (docs/FORMAT.md, 'Rows by calls';
//! docs/FAULTS.md, 'The row calls').

use crate::faults::{Cause, Fault, Filled};
use crate::items::Item;
use crate::lengths::G;
use crate::measure::{Extent, Measurer};
use crate::preamble::{read_preamble, Column, Preamble};
use crate::widths::{column_widths, Spread};

/// The largest size of an entry's width.
pub const K: i64 = 1_073_741_823;

#[derive(Clone, Copy, Debug, PartialEq, Eq)]
pub struct Room {
    pub items: usize,
    pub entries: usize,
    pub lines: usize,
    pub text: usize,
}

/// The largest table.
pub const LARGEST: Room = Room { items: 16_384, entries: 8_192, lines: 1_024, text: 65_535 };

impl Room {
    pub fn cut(self) -> Room {
        Room {
            items: self.items.min(LARGEST.items),
            entries: self.entries.min(LARGEST.entries),
            lines: self.lines.min(LARGEST.lines),
            text: self.text.min(LARGEST.text),
        }
    }
}

#[derive(Clone, Copy, Debug, PartialEq, Eq)]
pub enum Stage {
    Fresh,
    Begun,
}

/// What a host holds of an open row: a column, counted from 0, and a stage.
#[derive(Clone, Copy, Debug, PartialEq, Eq)]
pub struct Cell {
    pub column: usize,
    pub stage: Stage,
}

#[derive(Clone, Debug, PartialEq, Eq)]
pub struct Entry {
    pub first: usize,
    pub last: usize,
    pub items: Vec<Item>,
}

#[derive(Clone, Debug, PartialEq, Eq)]
pub enum Line {
    Row(Vec<Entry>),
    Rule,
    Gap(i64),
}

/// The row in hand: entries that are ended, the one that is not, and its cell.
#[derive(Clone, Debug)]
struct OpenRow {
    ended: Vec<Entry>,
    current: Entry,
    cell: Cell,
    omitted: bool,
    /// The width of the current entry so far.
    natural: Extent,
    /// What the row's entries take so far.
    taken: Used,
}

/// How much is in use.
#[derive(Clone, Copy, Debug, Default, PartialEq, Eq)]
pub struct Used {
    pub items: usize,
    pub entries: usize,
    pub text: usize,
}

impl Used {
    fn and(self, other: Used) -> Used {
        Used {
            items: self.items + other.items,
            entries: self.entries + other.entries,
            text: self.text + other.text,
        }
    }
}

pub struct Table {
    pub measurer: Measurer,
    pub preamble: Preamble,
    pub room: Room,
    pub lines: Vec<Line>,
    /// What the lines take, summed as they are laid.
    laid: Used,
    open: Option<OpenRow>,
}

impl Table {
    pub fn make(text: &[u8], measurer: Measurer, start: [i64; 3], room: Room) -> Result<Table, Fault> {
        let preamble = read_preamble(text, &measurer, start)?;
        Ok(Table { measurer, preamble, room: room.cut(), lines: vec![], laid: Used::default(), open: None })
    }

    pub fn columns(&self) -> usize {
        self.preamble.columns.len()
    }

    pub fn take(&mut self) -> Result<Cell, Fault> {
        self.no_row_in_hand()?;
        self.room_for_a_row()?;
        Ok(self.open_row())
    }

    /// Room for what a row takes beforehand: u, v and an entry, and a line.
    pub(crate) fn room_for_a_row(&self) -> Result<(), Fault> {
        self.room_for(Used { items: self.parts_len(0), entries: 1, text: 0 })?;
        self.room_for_a_line()
    }

    pub(crate) fn open_row(&mut self) -> Cell {
        let cell = Cell { column: 0, stage: Stage::Fresh };
        let current = Entry { first: 0, last: 0, items: vec![] };
        let natural = self.measurer.entered(0);
        let taken = Used { entries: 1, ..Used::default() };
        self.open = Some(OpenRow { ended: vec![], current, cell, omitted: false, natural, taken });
        cell
    }

    pub(crate) fn drop_row(&mut self) {
        self.open = None;
    }

    pub fn omit(&mut self, cell: Cell) -> Result<Cell, Fault> {
        let row = self.row_of(cell, Stage::Fresh)?;
        row.omitted = true;
        Ok(row.begin())
    }

    pub fn start(&mut self, cell: Cell) -> Result<Cell, Fault> {
        self.row_of(cell, Stage::Fresh)?;
        let Column { u, v, .. } = self.column(cell.column);
        self.entry_fits(&self.sum(u.iter().chain(&v)))?;
        let row = self.row_of(cell, Stage::Fresh)?;
        row.omitted = false;
        row.add(u);
        Ok(row.begin())
    }

    pub fn put_word(&mut self, cell: Cell, bytes: &[u8]) -> Result<(), Fault> {
        self.row_of(cell, Stage::Begun)?;
        let width = self.measurer.measured(bytes)?;
        self.put(cell, Item::cell_word(width, bytes))
    }

    pub fn put_space(&mut self, cell: Cell) -> Result<(), Fault> {
        self.put(cell, Item::blank(self.measurer.space()))
    }

    pub fn put_kern(&mut self, cell: Cell, length: i64) -> Result<(), Fault> {
        self.row_of(cell, Stage::Begun)?;
        if !(-G..=G).contains(&length) {
            return Err(Cause::OutOfRange.at(0));
        }
        self.put(cell, Item::blank(self.measurer.entered(length)))
    }

    pub fn put_hfil(&mut self, cell: Cell) -> Result<(), Fault> {
        self.put(cell, Item::fill(self.measurer.entered(0)))
    }

    /// 21, then 10, then 22.
    pub(crate) fn put(&mut self, cell: Cell, item: Item) -> Result<(), Fault> {
        self.row_of(cell, Stage::Begun)?;
        let owed = self.owed_v();
        self.entry_fits(&self.sum(owed.iter().chain([&item])))?;
        self.room_for(Used { items: 1, entries: 0, text: item.text().len() })?;
        self.row_of(cell, Stage::Begun)?.add([item]);
        Ok(())
    }

    pub fn tab(&mut self, cell: Cell) -> Result<Cell, Fault> {
        let next = self.next_column(cell, 1)?;
        let owed = self.owed_v();
        let row = self.row_of(cell, Stage::Begun)?;
        row.add(owed);
        row.end_entry(next);
        Ok(row.move_on(next))
    }

    pub fn span(&mut self, cell: Cell) -> Result<Cell, Fault> {
        let next = self.next_column(cell, 0)?;
        let owed = self.owed_v();
        let row = self.row_of(cell, Stage::Begun)?;
        row.add(owed);
        row.current.last = next;
        Ok(row.move_on(next))
    }

    pub fn lay(&mut self, cell: Cell) -> Result<(), Fault> {
        self.row_of(cell, Stage::Begun)?;
        let owed = self.owed_v();
        let Some(mut row) = self.open.take() else {
            return Err(Cause::RowInHand.at(0));
        };
        row.add(owed);
        row.ended.push(row.current);
        self.laid = self.laid.and(row.taken);
        self.lines.push(Line::Row(row.ended));
        Ok(())
    }

    /// Never refused: a cell that is not the open row's is just spent.
    pub fn give_up(&mut self, cell: Cell) {
        if self.open.as_ref().is_some_and(|row| row.cell == cell) {
            self.open = None;
        }
    }

    pub fn rule(&mut self) -> Result<(), Fault> {
        self.no_row_in_hand()?;
        self.room_for_a_line()?;
        self.lines.push(Line::Rule);
        Ok(())
    }

    pub fn gap(&mut self, length: i64) -> Result<(), Fault> {
        self.no_row_in_hand()?;
        if !(0..=G).contains(&length) {
            return Err(Cause::OutOfRange.at(0));
        }
        self.room_for_a_line()?;
        self.lines.push(Line::Gap(length));
        Ok(())
    }

    /// The width of a column, counted from 1, or nothing for a void one.
    pub fn ask(&self, column: i64) -> Result<Option<Extent>, Fault> {
        let index = usize::try_from(column).ok().and_then(|n| n.checked_sub(1));
        let widths = self.widths();
        index.and_then(|i| widths.get(i).cloned()).ok_or(Cause::NoSuchColumn.at(0))
    }

    pub fn widths(&self) -> Vec<Option<Extent>> {
        let gaps: Vec<Extent> =
            self.preamble.columns.iter().map(|c| self.measurer.entered(c.gap.natural)).collect();
        let entries: Vec<Spread> = self.laid_entries().map(|entry| self.spread(entry)).collect();
        column_widths(&entries, &gaps)
    }

    pub fn laid_entries(&self) -> impl Iterator<Item = &Entry> {
        self.lines.iter().flat_map(|line| match line {
            Line::Row(entries) => entries.as_slice(),
            Line::Rule | Line::Gap(_) => &[],
        })
    }

    /// The bytes of all laid words of cells, back to back.
    pub fn line_text(&self) -> Vec<u8> {
        self.laid_entries().flat_map(|entry| &entry.items).flat_map(|item| item.text().iter().copied()).collect()
    }

    fn spread(&self, entry: &Entry) -> Spread {
        Spread { first: entry.first, last: entry.last, natural: self.sum(&entry.items) }
    }

    pub fn natural(&self, entry: &Entry) -> Extent {
        self.sum(&entry.items)
    }

    fn sum<'a>(&self, items: impl IntoIterator<Item = &'a Item>) -> Extent {
        let mut total = self.measurer.entered(0);
        for item in items {
            for (side, width) in total.iter_mut().zip(&item.width) {
                *side += width;
            }
        }
        total
    }

    pub(crate) fn no_row_in_hand(&self) -> Result<(), Fault> {
        match self.open {
            Some(_) => Err(Cause::RowInHand.at(0)),
            None => Ok(()),
        }
    }

    /// The open row, if this is its cell and at this stage.
    fn row_of(&mut self, cell: Cell, stage: Stage) -> Result<&mut OpenRow, Fault> {
        match &mut self.open {
            Some(row) if row.cell == cell && cell.stage == stage => Ok(row),
            _ => Err(Cause::RowInHand.at(0)),
        }
    }

    /// The column behind the cell's, if there is one and room for it: 21, 7, 22.
    fn next_column(&mut self, cell: Cell, entries: usize) -> Result<usize, Fault> {
        self.row_of(cell, Stage::Begun)?;
        let next = cell.column + 1;
        if next >= self.columns() {
            return Err(Cause::TooManyColumns.at(0));
        }
        self.room_for(Used { items: self.parts_len(next), entries, text: 0 })?;
        Ok(next)
    }

    fn column(&self, index: usize) -> Column {
        let none = || Column { u: vec![], v: vec![], gap: self.preamble.start };
        self.preamble.columns.get(index).cloned().unwrap_or_else(none)
    }

    fn parts_len(&self, index: usize) -> usize {
        self.preamble.columns.get(index).map_or(0, |column| column.u.len() + column.v.len())
    }

    /// The part v that the begun cell still owes.
    fn owed_v(&self) -> Vec<Item> {
        match &self.open {
            Some(row) if row.cell.stage == Stage::Begun && !row.omitted => self.column(row.cell.column).v,
            _ => vec![],
        }
    }

    /// How many items of u and v are counted before they are there.
    fn owed_items(&self, row: &OpenRow) -> usize {
        match row.cell.stage {
            Stage::Fresh => self.parts_len(row.cell.column),
            Stage::Begun if row.omitted => 0,
            Stage::Begun => self.preamble.columns.get(row.cell.column).map_or(0, |column| column.v.len()),
        }
    }

    pub fn used(&self) -> Used {
        let Some(row) = &self.open else {
            return self.laid;
        };
        let owed = Used { items: self.owed_items(row), ..Used::default() };
        self.laid.and(row.taken).and(owed)
    }

    fn room_for(&self, more: Used) -> Result<(), Fault> {
        let needed = self.used().and(more);
        let tests = [
            (needed.items > self.room.items, Filled::Items),
            (needed.entries > self.room.entries, Filled::Entries),
            (needed.text > self.room.text, Filled::Text),
        ];
        match tests.iter().find(|(full, _)| *full) {
            Some((_, what)) => Err(Cause::Full(*what).at(0)),
            None => Ok(()),
        }
    }

    pub(crate) fn room_for_a_line(&self) -> Result<(), Fault> {
        if self.lines.len() < self.room.lines {
            Ok(())
        } else {
            Err(Cause::Full(Filled::Lines).at(0))
        }
    }

    /// 10 if the entry so far and what is added are outside ±K on a side.
    fn entry_fits(&self, added: &Extent) -> Result<(), Fault> {
        let so_far = match &self.open {
            Some(row) => row.natural.clone(),
            None => self.measurer.entered(0),
        };
        let fits = so_far.iter().zip(added).all(|(a, b)| (-K..=K).contains(&(a + b)));
        if fits {
            Ok(())
        } else {
            Err(Cause::EntryTooWide.at(0))
        }
    }

    /// The entry in hand with the v still owed: what a further item is added to.
    pub fn entry_in_hand(&self) -> Extent {
        let owed = self.owed_v();
        match &self.open {
            Some(row) => self.sum(row.current.items.iter().chain(&owed)),
            None => self.measurer.entered(0),
        }
    }
}

impl OpenRow {
    fn add(&mut self, items: impl IntoIterator<Item = Item>) {
        for item in items {
            self.natural.iter_mut().zip(&item.width).for_each(|(side, width)| *side += width);
            self.taken.items += 1;
            self.taken.text += item.text().len();
            self.current.items.push(item);
        }
    }

    /// The next entry begins in this column.
    fn end_entry(&mut self, next: usize) {
        let fresh = Entry { first: next, last: next, items: vec![] };
        self.ended.push(std::mem::replace(&mut self.current, fresh));
        self.natural.iter_mut().for_each(|side| *side = 0);
        self.taken.entries += 1;
    }

    fn begin(&mut self) -> Cell {
        self.cell.stage = Stage::Begun;
        self.cell
    }

    fn move_on(&mut self, column: usize) -> Cell {
        self.cell = Cell { column, stage: Stage::Fresh };
        self.omitted = false;
        self.cell
    }
}

#[cfg(test)]
mod tests {
    use super::*;
    use crate::measure::Mono;

    fn table(preamble: &str) -> Table {
        Table::make(preamble.as_bytes(), Measurer::usual(), [0, 0, 0], LARGEST).unwrap()
    }

    fn say<T: std::fmt::Debug>(result: Result<T, Fault>) -> String {
        result.unwrap_err().to_string()
    }

    /// THEORY.md: take, start, put a, span, omit, put b, lay with the templates u#v.
    #[test]
    fn the_ledger_of_the_theory() {
        let mut t = table("\\kern0.00001pt#\\kern0.00003pt&uu#vv\\cr");
        let cell = t.take().unwrap();
        let cell = t.start(cell).unwrap();
        t.put_word(cell, b"a").unwrap();
        let cell = t.span(cell).unwrap();
        let cell = t.omit(cell).unwrap();
        t.put_word(cell, b"b").unwrap();
        assert_eq!(t.ask(2), Ok(None));
        t.lay(cell).unwrap();
        let laid: Vec<&Entry> = t.laid_entries().collect();
        assert_eq!(laid.len(), 1);
        assert_eq!((laid[0].first, laid[0].last, laid[0].items.len()), (0, 1, 4));
        assert_eq!(t.natural(laid[0]), vec![1 + 10 + 2 + 10]);
        assert_eq!(t.used(), Used { items: 4, entries: 1, text: 2 });
        assert_eq!(t.ask(1), Ok(None));
        assert_eq!(t.ask(2), Ok(Some(vec![23])));
    }

    #[test]
    fn foreign_cells_are_21() {
        let mut t = table("#&#\\cr");
        let stray = Cell { column: 0, stage: Stage::Fresh };
        let full = "fault 21 place 0 layer 2";
        assert_eq!(say(t.omit(stray)), full);
        assert_eq!(say(t.start(stray)), full);
        let begun = Cell { column: 0, stage: Stage::Begun };
        assert_eq!(say(t.put_word(begun, b"\x00")), full);
        assert_eq!(say(t.put_kern(begun, G + 1)), full);
        assert_eq!(say(t.put_space(begun)), full);
        assert_eq!(say(t.tab(begun)), full);
        assert_eq!(say(t.span(begun)), full);
        assert_eq!(say(t.lay(begun)), full);
        let open = t.take().unwrap();
        assert_eq!(say(t.take()), full);
        assert_eq!(say(t.rule()), full);
        assert_eq!(say(t.gap(-1)), full);
        t.give_up(begun);
        assert_eq!(say(t.take()), full);
        t.give_up(open);
        assert!(t.take().is_ok());
    }

    #[test]
    fn counted_beforehand() {
        let room = Room { items: 6, entries: 2, lines: 1, text: 3 };
        let mut t = Table::make(b"aa\\hfil#\\hfil&b\\hfil#\\hfil\\cr", Measurer::usual(), [0, 0, 0], room).unwrap();
        let cell = t.take().unwrap();
        assert_eq!(t.used(), Used { items: 3, entries: 1, text: 0 });
        let cell = t.start(cell).unwrap();
        assert_eq!(t.used().items, 3);
        let next = t.tab(cell).unwrap();
        assert_eq!(t.used(), Used { items: 6, entries: 2, text: 0 });
        let begun = t.omit(next).unwrap();
        assert_eq!(t.used().items, 3);
        for word in [&b"ab"[..], b"c"] {
            t.put_word(begun, word).unwrap();
        }
        assert_eq!(say(t.put_word(begun, b"d")), "fault 22 place 0 layer 2");
        t.put_hfil(begun).unwrap();
        assert_eq!(say(t.put_hfil(begun)), "fault 22 place 0 layer 2");
        assert_eq!(say(t.put_kern(begun, G + 1)), "fault 27 place 0 layer 2");
        assert_eq!(say(t.tab(begun)), "fault 7 place 0 layer 2");
        t.lay(begun).unwrap();
        assert_eq!(say(t.take()), "fault 22 place 0 layer 2");
        assert_eq!(say(t.rule()), "fault 22 place 0 layer 2");
        assert_eq!(say(t.gap(G + 1)), "fault 27 place 0 layer 2");
        assert_eq!(say(t.gap(G)), "fault 22 place 0 layer 2");
    }

    #[test]
    fn entries_up_to_k() {
        let widest = Measurer::Twin(
            Mono { pitch: 0, height: 0, depth: 0, last: 126 },
            Mono { pitch: 4_194_304, height: 0, depth: 0, last: 126 },
        );
        let mut t = Table::make(b"#\\kern-0.00003pt\\cr", widest, [0, 0, 0], LARGEST).unwrap();
        let cell = t.take().unwrap();
        let cell = t.start(cell).unwrap();
        t.put_word(cell, &[b'~'; 255]).unwrap();
        assert_eq!(t.entry_in_hand(), vec![-2, 1_069_547_518]);
        assert_eq!(say(t.put_kern(cell, 4_194_306)), "fault 10 place 0 layer 2");
        t.put_kern(cell, 4_194_305).unwrap();
        assert_eq!(say(t.put_kern(cell, 1)), "fault 10 place 0 layer 2");
        assert_eq!(say(t.put_space(cell)), "fault 10 place 0 layer 2");
        t.put_hfil(cell).unwrap();
        t.lay(cell).unwrap();
        assert_eq!(t.ask(1), Ok(Some(vec![4_194_303, K])));
    }

    #[test]
    fn start_looks_at_u_and_v() {
        let kerns = "\\kern-255.99999pt".repeat(64);
        let mut t = table(&format!("{kerns}#\\kern-0.00098pt\\cr"));
        let cell = t.take().unwrap();
        assert_eq!(say(t.start(cell)), "fault 10 place 0 layer 2");
        let begun = t.omit(cell).unwrap();
        t.lay(begun).unwrap();
        assert_eq!(t.ask(1), Ok(Some(vec![0])));
        let mut t = table(&format!("{kerns}#\\kern-0.00096pt\\cr"));
        let cell = t.take().unwrap();
        let cell = t.start(cell).unwrap();
        t.lay(cell).unwrap();
        assert_eq!(t.ask(1), Ok(Some(vec![-K])));
    }

    #[test]
    fn columns_from_one() {
        let t = table("#&#\\cr");
        for column in [0, 3, -1, i64::MIN, i64::MAX] {
            assert_eq!(say(t.ask(column)), "fault 24 place 0 layer 2");
        }
        assert_eq!(t.ask(1), Ok(None));
        assert_eq!(t.ask(2), Ok(None));
    }
}
