//! Setting a table on one side (docs/FORMAT.md, 'Setting a table'; docs/FAULTS.md, 'Set, write and fetch').

use crate::boxes::{BoxList, BoxRecord, Kind, Store};
use crate::faults::{Cause, Fault};
use crate::items::{self, Item};
use crate::lengths::Gap;
use crate::table::{Entry, Line, Table, K};

/// 0.4pt.
pub const RULE_HEIGHT: i64 = 26_214;

#[derive(Clone, Copy, Debug, PartialEq, Eq)]
pub enum Wanted {
    Natural,
    Width(i64),
}

/// The columns of a table on one side.
#[derive(Clone, Debug, PartialEq, Eq)]
pub struct Columns {
    /// Of a void column 0.
    pub widths: Vec<i64>,
    /// The starting gap, then that behind each column; behind a void one it is nothing.
    pub gaps: Vec<Gap>,
}

impl Columns {
    /// N: all gaps and all columns.
    pub fn natural(&self) -> i64 {
        self.gaps.iter().map(|gap| gap.natural).sum::<i64>() + self.widths.iter().sum::<i64>()
    }

    /// The highest order with any stretch.
    pub fn order(&self) -> Option<i64> {
        self.gaps.iter().filter(|gap| gap.stretch > 0).map(|gap| gap.order).max()
    }

    /// T, or 23.
    pub fn width(&self, wanted: Wanted) -> Result<i64, Fault> {
        let natural = self.natural();
        let width = match wanted {
            Wanted::Natural => natural,
            Wanted::Width(width) => width,
        };
        let stuck = width > natural && self.order().is_none();
        if natural < 0 || width < natural || width > K || stuck {
            return Err(Cause::CannotSet.at(0));
        }
        Ok(width)
    }

    /// How far the gaps 0 to k together grow, for each k, where so much is left over.
    pub fn growths(&self, left_over: i64) -> Vec<i64> {
        let order = self.order();
        let stretch_of = |gap: &Gap| if Some(gap.order) == order { i128::from(gap.stretch) } else { 0 };
        let whole: i128 = self.gaps.iter().map(stretch_of).sum();
        let mut so_far = 0;
        self.gaps
            .iter()
            .map(|gap| {
                so_far += stretch_of(gap);
                share(left_over, so_far, whole)
            })
            .collect()
    }

    /// Where the columns stand, if so much is left over.
    pub fn edges(&self, left_over: i64) -> Edges {
        let mut natural = 0;
        let growths = self.growths(left_over);
        let mut lefts = vec![];
        for ((gap, width), growth) in self.gaps.iter().zip(&self.widths).zip(growths) {
            natural += gap.natural;
            lefts.push(natural + growth);
            natural += width;
        }
        Edges { lefts, widths: self.widths.clone() }
    }
}

/// The left edges of columns that are set, and their widths.
#[derive(Clone, Debug, PartialEq, Eq)]
pub struct Edges {
    lefts: Vec<i64>,
    widths: Vec<i64>,
}

impl Edges {
    pub fn left(&self, column: usize) -> i64 {
        at(&self.lefts, column)
    }

    /// The columns and the set gaps between them.
    pub fn between(&self, first: usize, last: usize) -> i64 {
        self.left(last) + at(&self.widths, last) - self.left(first)
    }
}

/// The whole part of amount × part / whole; nothing where there is no whole. None of the three is below zero.
pub fn share(amount: i64, part: i128, whole: i128) -> i64 {
    if whole == 0 {
        return 0;
    }
    (i128::from(amount) * part / whole) as i64
}

impl Table {
    /// 24, 23, 26.
    pub fn set(&self, side: i64, wanted: Wanted, records: usize) -> Result<BoxList, Fault> {
        let side = self.side(side).ok_or(Cause::NoSuchSide.at(0))?;
        let columns = self.columns_on(side);
        let width = columns.width(wanted)?;
        let edges = columns.edges(width - columns.natural());
        let mut setter = Setter { table: self, side, edges, width, top: 0, text: 0, boxes: vec![] };
        self.lines.iter().for_each(|line| setter.line(line));
        if setter.boxes.len() > records {
            return Err(Cause::TooLittleRoom.at(0));
        }
        Ok(BoxList { width, height: setter.top, boxes: setter.boxes })
    }

    /// How many boxes the laid lines have: their words and rules.
    pub fn boxes(&self) -> usize {
        let rules = self.lines.iter().filter(|line| **line == Line::Rule).count();
        let items = self.laid_entries().flat_map(|entry| &entry.items);
        rules + items.filter(|item| item.is_word()).count()
    }

    /// The index of a side that is counted from 1.
    fn side(&self, number: i64) -> Option<usize> {
        let index = usize::try_from(number).ok()?.checked_sub(1)?;
        (index < self.measurer.sides()).then_some(index)
    }

    /// A source length enters both kinds unaltered, so a gap's natural length is the same on each side.
    pub fn columns_on(&self, side: usize) -> Columns {
        let found: Vec<Option<i64>> =
            self.widths().iter().map(|width| width.as_ref().and_then(|sides| sides.get(side).copied())).collect();
        let behind = self.preamble.columns.iter().zip(&found).map(|(column, width)| match width {
            Some(_) => column.gap,
            None => Gap::default(),
        });
        let gaps = [self.preamble.start].into_iter().chain(behind).collect();
        Columns { widths: found.iter().map(|width| width.unwrap_or(0)).collect(), gaps }
    }
}

struct Setter<'a> {
    table: &'a Table,
    side: usize,
    edges: Edges,
    width: i64,
    /// Where the next line begins.
    top: i64,
    /// How much of the line text is behind us.
    text: usize,
    boxes: Vec<BoxRecord>,
}

impl Setter<'_> {
    fn line(&mut self, line: &Line) {
        match line {
            Line::Gap(length) => self.top += length,
            Line::Rule => {
                self.top += RULE_HEIGHT;
                self.boxes.push(rule(self.top, self.width));
            }
            Line::Row(entries) => self.row(entries),
        }
    }

    /// As high as the highest of its words, and as deep as the deepest.
    fn row(&mut self, entries: &[Entry]) {
        let before = self.boxes.len();
        entries.iter().for_each(|entry| self.entry(entry));
        let words = self.boxes.get_mut(before..).unwrap_or(&mut []);
        let height = words.iter().map(|word| word.height).max().unwrap_or(0);
        let depth = words.iter().map(|word| word.depth).max().unwrap_or(0);
        words.iter_mut().for_each(|word| word.y = self.top + height);
        self.top += height + depth;
    }

    /// Its items from the left edge on, each behind those before it and what the fills among these have grown by.
    fn entry(&mut self, entry: &Entry) {
        let left = self.edges.left(entry.first);
        let fills = entry.items.iter().filter(|item| item.is_fill()).count();
        let left_over = self.edges.between(entry.first, entry.last) - at(&self.table.natural(entry), self.side);
        let mut natural = 0;
        let mut passed = 0;
        for item in &entry.items {
            let x = left + natural + share(left_over, passed, fills as i128);
            self.item(item, x);
            natural += at(&item.width, self.side);
            passed += i128::from(item.is_fill());
        }
    }

    fn item(&mut self, item: &Item, x: i64) {
        let (store, place, len) = match &item.kind {
            items::Kind::Blank | items::Kind::Fill => return,
            items::Kind::Template { place, len } => (Store::Preamble, *place, *len),
            items::Kind::Cell(bytes) => (Store::Lines, self.text, bytes.len()),
        };
        self.text += item.text().len();
        let width = at(&item.width, self.side);
        let (height, depth) = self.table.measurer.height_and_depth(self.side);
        let (place, len) = (place as i64, len as i64);
        self.boxes.push(BoxRecord { kind: Kind::Word, x, y: 0, width, height, depth, store, place, len });
    }
}

/// By its lower edge, which is its baseline.
fn rule(y: i64, width: i64) -> BoxRecord {
    let (store, place, len) = (Store::Preamble, 0, 0);
    BoxRecord { kind: Kind::Rule, x: 0, y, width, height: RULE_HEIGHT, depth: 0, store, place, len }
}

fn at(numbers: &[i64], index: usize) -> i64 {
    numbers.get(index).copied().unwrap_or(0)
}

#[cfg(test)]
mod tests {
    use super::*;
    use crate::bytes::write;
    use crate::generate::{self, script};
    use crate::lengths::G;
    use crate::measure::{Measurer, Mono};
    use crate::script::{lines_of, Session};
    use crate::spelling::small_hex;
    use crate::table::LARGEST;

    fn table_of(preamble: &str, measurer: Measurer, start: [i64; 3], lines: &[&str]) -> Table {
        let mut table = Table::make(preamble.as_bytes(), measurer, start, LARGEST).unwrap();
        for line in lines {
            table.line(line.as_bytes()).unwrap();
        }
        table
    }

    fn table(preamble: &str, lines: &[&str]) -> Table {
        table_of(preamble, Measurer::usual(), [0, 0, 0], lines)
    }

    fn refused(table: &Table, side: i64, wanted: Wanted, records: usize) -> String {
        table.set(side, wanted, records).unwrap_err().to_string()
    }

    /// The x of each box.
    fn xs(table: &Table, width: i64) -> Vec<i64> {
        table.set(1, Wanted::Width(width), 99).unwrap().boxes.iter().map(|b| b.x).collect()
    }

    fn growths(gaps: &[(i64, i64)], left_over: i64) -> Vec<i64> {
        let gaps = gaps.iter().map(|&(stretch, order)| Gap { natural: 9, stretch, order }).collect();
        Columns { widths: vec![], gaps }.growths(left_over)
    }

    #[test]
    fn gaps_share_what_is_left_over() {
        assert_eq!(growths(&[(1, 0), (1, 0), (1, 0)], 2), [0, 1, 2]);
        assert_eq!(growths(&[(1, 0), (1, 0), (1, 0)], 0), [0, 0, 0]);
        assert_eq!(growths(&[(1, 0), (1, 1), (0, 2), (3, 1)], 7), [0, 1, 1, 7]);
        assert_eq!(growths(&[(0, 3), (0, 0)], 0), [0, 0]);
        assert_eq!(growths(&[(G, 0), (G, 3), (G, 3), (G, 2)], K), [0, K / 2, K, K]);
        let equal = vec![(G, 1); 33];
        assert_eq!(growths(&equal, K)[31..], [(i128::from(K) * 32 / 33) as i64, K]);
    }

    /// The whole part of a quotient, by what defines it; all is shared, and no gap shrinks.
    #[test]
    fn shares_are_whole_parts() {
        let mut rng = crate::random::Rng::new(23);
        for _ in 0..5_000 {
            let high = rng.pick(G, &[1, 3, 1_000]);
            let gaps: Vec<Gap> = (0..1 + rng.below(33))
                .map(|_| Gap { natural: rng.from_to(-G, G), stretch: rng.from_to(0, high), order: rng.from_to(0, 3) })
                .collect();
            let left_over = rng.pick(K, &[0, 1, 2, 77, 65_537, 1_000_000_007]);
            let columns = Columns { widths: vec![], gaps };
            let growths = columns.growths(left_over);
            let Some(order) = columns.order() else {
                continue;
            };
            let stretch = |gaps: &[Gap]| -> i128 {
                gaps.iter().filter(|gap| gap.order == order).map(|gap| i128::from(gap.stretch)).sum()
            };
            let whole = stretch(&columns.gaps);
            for (k, growth) in growths.iter().enumerate() {
                let rest = i128::from(left_over) * stretch(&columns.gaps[..=k]) - i128::from(*growth) * whole;
                assert!((0..whole).contains(&rest));
            }
            assert_eq!(growths.last(), Some(&left_over));
            assert!(growths.windows(2).all(|two| two[0] <= two[1]));
        }
    }

    /// The table of FORMAT.md, 'The list as bytes'.
    #[test]
    fn three_words_on_two_lines() {
        let t = table("#&#\\cr", &["ab&c\\cr ", "\\span\\omit d\\cr"]);
        let list = t.set(1, Wanted::Natural, 3).unwrap();
        assert_eq!((list.width, list.height, list.boxes.len()), (30, 18, 3));
        let wanted = "1e1203010007280702010002012807140702010201010010140702010301";
        assert_eq!(write(&list, 30).map(|bytes| small_hex(&bytes)), Ok(wanted.into()));
        assert_eq!(t.line_text(), b"abcd");
        assert_eq!(t.set(1, Wanted::Width(30), 3), Ok(list));
        assert_eq!(refused(&t, 1, Wanted::Width(31), 3), "fault 23 place 0 layer 3");
    }

    #[test]
    fn fills_push_words() {
        let t = table("#\\tabskip0pt\\cr", &["\\hfil a\\hfil\\cr", "\\omit\\kern0.00038pt\\cr"]);
        assert_eq!(t.ask(1), Ok(Some(vec![25])));
        assert_eq!(xs(&t, 25), [7]);
        // F = 7 and three fills: 2, 4, 7.
        let t = table("#\\cr", &["\\hfil a\\hfil b\\hfil c\\cr", "\\omit\\kern0.00056pt\\cr"]);
        assert_eq!(t.ask(1), Ok(Some(vec![37])));
        assert_eq!(xs(&t, 37), [2, 14, 27]);
        let t = table("#\\cr", &["a\\hfil\\cr", "b\\cr", "\\hfil c\\cr", "\\omit\\kern0.00024pt\\cr"]);
        assert_eq!(xs(&t, 16), [0, 0, 6]);
    }

    #[test]
    fn words_of_templates() {
        let t = table(" x #y&\\&\\hfil#\\cr ", &[" ab&c\\cr", "\\noalign{\\vskip0.001pt}", "\\omit d\\cr"]);
        let list = t.set(1, Wanted::Natural, 9).unwrap();
        let shown: Vec<String> = list.boxes.iter().map(|b| b.to_string()).collect();
        let wanted = [
            "1 0 7 10 7 2 0 1 1", "1 20 7 20 7 2 1 0 2", "1 40 7 10 7 2 0 4 1", "1 50 7 10 7 2 0 7 1",
            "1 60 7 10 7 2 1 2 1", "1 0 82 10 7 2 1 3 1",
        ];
        assert_eq!(shown, wanted);
        assert_eq!((list.width, list.height), (70, 84));
        assert_eq!(refused(&t, 1, Wanted::Natural, 5), "fault 26 place 0 layer 3");
    }

    #[test]
    fn rules_and_rows_without_words() {
        let start = [0, 1, 0];
        let rule = "\\noalign{\\hrule}";
        let t = table_of("#\\cr", Measurer::usual(), start, &[rule, "\\kern0.00008pt\\cr", "a\\cr", rule]);
        let list = t.set(1, Wanted::Width(300), 3).unwrap();
        let shown: Vec<String> = list.boxes.iter().map(|b| b.to_string()).collect();
        assert_eq!(shown, ["2 0 26214 300 26214 0 0 0 0", "1 145 26221 10 7 2 1 0 1", "2 0 52437 300 26214 0 0 0 0"]);
        assert_eq!((list.width, list.height), (300, 52_437));
    }

    /// The gap behind a void column counts for nothing, its stretch neither; the starting gap always counts.
    #[test]
    fn a_void_columns_gap() {
        let preamble = "\\tabskip0.00008pt plus 1fil#&\\tabskip0.00011pt#\\cr";
        let t = table_of(preamble, Measurer::usual(), [3, 1, 0], &["a\\span b\\cr"]);
        assert_eq!((t.ask(1), t.ask(2)), (Ok(None), Ok(Some(vec![20]))));
        assert_eq!(t.set(1, Wanted::Natural, 9).unwrap().width, 3 + 20 + 7);
        assert_eq!(xs(&t, 35), [8, 18]);
        let t = table_of(preamble, Measurer::usual(), [3, 0, 3], &["a\\span b\\cr"]);
        assert_eq!(xs(&t, 30), [3, 13]);
        assert_eq!(refused(&t, 1, Wanted::Width(31), 9), "fault 23 place 0 layer 3");
        let t = table_of(preamble, Measurer::usual(), [3, 1, 0], &[]);
        assert_eq!(t.set(1, Wanted::Width(K), 0), Ok(BoxList { width: K, height: 0, boxes: vec![] }));
    }

    /// What a span's columns and the gaps within have grown by goes to its fill.
    #[test]
    fn a_span_over_stretching_gaps() {
        let t = table("\\tabskip0pt plus1pt#&#&#\\cr", &["a&b&c\\cr", "\\omit\\hfil d\\span\\omit\\span\\omit\\cr"]);
        assert_eq!(xs(&t, 35), [0, 11, 23, 23]);
        assert_eq!(xs(&t, 30), [0, 10, 20, 20]);
    }

    #[test]
    fn sides_of_a_twin() {
        let mono = |pitch, height, depth| Mono { pitch, height, depth, last: 126 };
        let twin = Measurer::Twin(mono(10, 7, 2), mono(1, 100, 0));
        let t = table_of("#\\tabskip0.00002pt\\cr", twin, [0, 0, 0], &["a b\\cr", "\\noalign{\\hrule}"]);
        let shown = |side| -> Vec<String> {
            t.set(side, Wanted::Natural, 9).unwrap().boxes.iter().map(|b| b.to_string()).collect()
        };
        assert_eq!(shown(1), ["1 0 7 10 7 2 1 0 1", "1 20 7 10 7 2 1 1 1", "2 0 26223 31 26214 0 0 0 0"]);
        assert_eq!(shown(2), ["1 0 100 1 100 0 1 0 1", "1 2 100 1 100 0 1 1 1", "2 0 26314 4 26214 0 0 0 0"]);
        for side in [0, 3, -1, i64::MIN, i64::MAX] {
            assert_eq!(refused(&t, side, Wanted::Width(-1), 0), "fault 24 place 0 layer 3");
        }
        assert_eq!(refused(&t, 2, Wanted::Width(3), 0), "fault 23 place 0 layer 3");
        assert_eq!(refused(&t, 2, Wanted::Width(4), 2), "fault 26 place 0 layer 3");
    }

    #[test]
    fn widths_that_cannot_be_set() {
        let bad = "fault 23 place 0 layer 3";
        let t = table_of("#\\cr", Measurer::usual(), [0, 1, 0], &["\\kern-0.00002pt\\cr"]);
        assert_eq!(refused(&t, 1, Wanted::Natural, 0), bad);
        assert_eq!(refused(&t, 1, Wanted::Width(5), 0), bad);
        let t = table_of("#\\cr", Measurer::usual(), [0, 1, 0], &["a\\cr"]);
        assert_eq!(refused(&t, 1, Wanted::Width(9), 0), bad);
        assert_eq!(refused(&t, 1, Wanted::Width(K + 1), 0), bad);
        assert_eq!(xs(&t, K), [(K - 10) / 2]);
        let kerns = "\\kern255.99999pt".repeat(64);
        let t = table_of("#\\tabskip0pt\\cr", Measurer::usual(), [63, 0, 0], &[&format!("{kerns}\\cr")]);
        assert_eq!(t.set(1, Wanted::Natural, 0).map(|list| list.width), Ok(K));
        let t = table_of("#\\tabskip0pt\\cr", Measurer::usual(), [64, 0, 0], &[&format!("{kerns}\\cr")]);
        assert_eq!(refused(&t, 1, Wanted::Natural, 0), bad);
    }

    /// How much each gap or fill grows by itself.
    fn single(growths: &[i64]) -> Vec<i64> {
        let before = [0].into_iter().chain(growths.iter().copied());
        growths.iter().zip(before).map(|(now, before)| now - before).collect()
    }

    /// The x of an entry's words, and the left edges, from one item and one gap to the next.
    fn walked(entry: &Entry, side: usize, columns: &Columns, width: i64) -> Vec<i64> {
        let grown = single(&columns.growths(width - columns.natural()));
        let gap = |k: usize| columns.gaps[k].natural + grown[k];
        let before: i64 = (0..entry.first).map(|k| gap(k) + columns.widths[k]).sum();
        let within: i64 = (entry.first..=entry.last).map(|k| columns.widths[k]).sum::<i64>();
        let between: i64 = (entry.first + 1..=entry.last).map(gap).sum();
        let natural: i64 = entry.items.iter().map(|item| item.width[side]).sum();
        let left_over = within + between - natural;
        assert!(left_over >= 0);
        let fills = entry.items.iter().filter(|item| item.is_fill()).count() as i128;
        let shares: Vec<i64> = (1..=fills).map(|p| share(left_over, p, fills)).collect();
        let mut fill = single(&shares).into_iter();
        let mut x = before + gap(entry.first);
        let mut found = vec![];
        for item in &entry.items {
            if item.is_word() {
                found.push(x);
            }
            x += item.width[side] + if item.is_fill() { fill.next().unwrap() } else { 0 };
        }
        found
    }

    /// Tables of generated scripts, set twice: by the sums of all before, and step by step.
    #[test]
    fn sums_are_what_the_steps_give() {
        let mut words = 0;
        for seed in 0..600 {
            let mut session = Session::default();
            for line in lines_of(&script(generate::Kind::Sets, seed)) {
                session.line(line);
            }
            let Some(table) = session.table() else {
                continue;
            };
            for (side, more) in [(0, 0), (0, 1), (0, 7), (0, 1_000_003), (1, 5), (1, 70_001)] {
                let columns = table.columns_on(side);
                let Ok(list) = table.set(side as i64 + 1, Wanted::Width(columns.natural() + more), 99_999) else {
                    continue;
                };
                let end: i64 = columns.gaps.iter().map(|gap| gap.natural).sum::<i64>() + columns.widths.iter().sum::<i64>();
                assert_eq!(end + columns.growths(more).last().unwrap(), list.width);
                let steps: Vec<i64> =
                    table.laid_entries().flat_map(|entry| walked(entry, side, &columns, list.width)).collect();
                let sums: Vec<i64> = list.boxes.iter().filter(|b| b.kind == Kind::Word).map(|b| b.x).collect();
                assert_eq!(sums, steps);
                words += steps.len();
            }
        }
        assert!(words > 10_000);
    }

    #[test]
    fn a_row_in_hand_does_not_count() {
        let mut t = table("#\\cr", &["a\\cr"]);
        let before = t.set(1, Wanted::Natural, 1);
        let cell = t.take().unwrap();
        let cell = t.start(cell).unwrap();
        t.put_word(cell, b"bcd").unwrap();
        assert_eq!(t.set(1, Wanted::Natural, 1), before);
        t.lay(cell).unwrap();
        assert_eq!(t.set(1, Wanted::Natural, 2).map(|list| list.width), Ok(30));
    }
}
