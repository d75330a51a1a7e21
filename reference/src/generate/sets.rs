//! Calls that set the table, write its list and fetch its words. The table that is performed along is asked for N and for its
//! boxes, so that widths, records and bytes can be just enough, or one too few.

use super::{Kind, Theme, Writer};
use crate::bytes;
use crate::lengths::G;
use crate::measure::WIDEST_PITCH;
use crate::row_texts;
use crate::script::Answer;
use crate::table::K;

/// Both ends of what a number can be in a script.
const FAR: i64 = 999_999_999_999_999_999;

/// How many boxes a script shows as a rule.
pub(super) const SHOWN: usize = 3_000;

impl Writer {
    /// Between any two lines; what comes behind looks at the answer before.
    pub(super) fn sets_perhaps(&mut self) {
        let wanted = if self.kind == Kind::Sets { 10 } else { 2 };
        let empty = self.session.table().map_or(true, |table| table.lines.is_empty());
        if self.rng.percent(wanted) && (!empty || self.rng.percent(20)) {
            let before = self.last.take();
            self.sets();
            self.last = before;
        }
    }

    fn sets(&mut self) {
        self.set();
        if self.rng.percent(25) {
            self.set();
        }
        if self.rng.percent(40) {
            self.write();
        }
        if self.rng.percent(40) {
            self.fetches();
        }
    }

    /// At a script's end: naturally on each side, to some width, and all that can be done with the list.
    pub(super) fn sets_at_the_end(&mut self) {
        let wanted = if self.kind == Kind::Sets { 95 } else { 25 };
        if self.session.table().is_none() || !self.rng.percent(wanted) {
            return;
        }
        for side in 1..=self.session.measurer().sides() {
            let records = self.enough_records();
            self.say_set(side as i64, "natural".into(), records);
            let more = self.side_natural(side as i64) + self.rng.pick(1, &[2, 3, 7, 100, 12_345, 65_536, 1_000_003]);
            let records = self.enough_records();
            self.say_set(side as i64, more.to_string(), records);
            self.write();
            self.fetches();
        }
        self.sets();
    }

    fn set(&mut self) {
        let sides = self.session.measurer().sides() as i64;
        let side = match self.rng.percent(93) {
            true => self.rng.from_to(1, sides),
            false => self.rng.pick(0, &[sides + 1, 3, -1, FAR, -FAR]),
        };
        let width = self.set_width(side);
        let records = self.records();
        self.say_set(side, width, records);
    }

    /// Where the boxes would be too many to show again and again, too few records are lent.
    fn say_set(&mut self, side: i64, width: String, records: i64) {
        let boxes = self.boxes();
        let records = if boxes <= self.shown_left { records } else { records.min(boxes as i64 - 1) };
        self.say(format!("set {side} {width} {records}"));
        if let Some(Answer::Set(list)) = &self.last {
            self.shown_left = self.shown_left.saturating_sub(list.boxes.len());
        }
    }

    fn boxes(&self) -> usize {
        self.session.table().map_or(0, |table| table.boxes())
    }

    /// N on a side; of one that there is not, N on the first.
    fn side_natural(&self, side: i64) -> i64 {
        let index = if side == 2 && self.session.measurer().sides() == 2 { 1 } else { 0 };
        self.session.table().map_or(0, |table| table.columns_on(index).natural())
    }

    fn set_width(&mut self, side: i64) -> String {
        let natural = self.side_natural(side);
        let width = match self.rng.weighted(&[28, 10, 6, 10, 24, 8, 8, 6]) {
            0 => return "natural".into(),
            1 => natural,
            2 => natural - 1,
            3 => natural + 1,
            4 => natural + self.rng.from_to(2, 300),
            5 => natural + self.rng.from_to(2, 5_000_000),
            6 => self.rng.from_to(natural.min(K), K),
            _ => self.rng.pick(K, &[K, K - 1, K + 1, K + 1, -1, 0, -natural, 2 * natural, FAR, -FAR, 4_294_967_296]),
        };
        width.to_string()
    }

    fn records(&mut self) -> i64 {
        let boxes = self.boxes() as i64;
        let some = self.rng.from_to(0, boxes);
        self.rng.pick(boxes, &[boxes, boxes, boxes, boxes - 1, boxes + 1, 0, some, 17_407, 17_408, 17_409, 17_409, FAR]).max(0)
    }

    fn enough_records(&mut self) -> i64 {
        let boxes = self.boxes() as i64;
        self.rng.pick(boxes, &[boxes + 1, 17_408])
    }

    fn write(&mut self) {
        let bytes = self.session.list().and_then(|list| bytes::write(list, usize::MAX).ok());
        let size = bytes.map_or(0, |bytes| bytes.len() as i64);
        let some = self.rng.from_to(0, size);
        let bytes = self.rng.pick(size, &[size, size, size, size - 1, size + 1, 0, some, 1_048_576, 1_048_577, FAR]).max(0);
        self.say(format!("write {bytes}"));
    }

    /// Of all boxes and one on each side, or of some.
    fn fetches(&mut self) {
        let boxes = self.session.list().map_or(0, |list| list.boxes.len()) as i64;
        if boxes == 0 && self.rng.percent(70) {
            return;
        }
        if boxes <= 20 && self.rng.percent(25) {
            (0..=boxes + 1).for_each(|number| self.say(format!("fetch {number}")));
            return;
        }
        for _ in 0..1 + self.rng.below(4) {
            let any = self.rng.from_to(boxes.min(1), boxes);
            let number = self.rng.pick(any, &[any, any, any, any, any, 1, boxes, boxes + 1, 0, -1, FAR, -FAR]);
            self.say(format!("fetch {number}"));
        }
    }

    /// Without a look at what they meet.
    pub(super) fn any_set_call(&mut self) {
        match self.rng.below(3) {
            0 => self.set(),
            1 => self.write(),
            _ => self.fetches(),
        }
    }
}

/// What makes a table worth setting.
impl Writer {
    /// A starting gap, often with a stretch.
    pub(super) fn start_gap_to_set(&mut self) -> [i64; 3] {
        let natural = self.rng.pick(0, &[0, 0, 1, 5, 20, -5, 65_536, G, -G]);
        let any = self.rng.from_to(1, G);
        let stretch = self.rng.pick(0, &[0, 1, 1, 2, 3, 7, 65_536, 131_072, G, any]);
        [natural, stretch, self.rng.pick(0, &[0, 1, 2, 3])]
    }

    /// Strip and window that differ much, as a rule.
    pub(super) fn mono_to_set(&mut self) -> [i64; 4] {
        let pitch = match self.theme {
            Theme::Limits => self.rng.pick(WIDEST_PITCH, &[WIDEST_PITCH, 1_000_000, 10]),
            _ => self.rng.pick(10, &[10, 10, 1, 3, 500, 70_000, 0, WIDEST_PITCH]),
        };
        let (tall, deep) = (self.rng.from_to(0, G), self.rng.from_to(0, G));
        let height = self.rng.pick(7, &[7, 0, 1, G, 30, 100_000, tall]);
        let depth = self.rng.pick(2, &[2, 0, 1, G, 50, 100_000, deep]);
        [pitch, height, depth, self.rng.pick(126, &[126, 126, 126, 126, 122])]
    }

    /// A row that brings the natural width of a side to about a limit, if one row can. Its entry spans all columns before the one
    /// that is to be so wide.
    pub(super) fn row_that_brings_n_to_a_limit(&mut self) {
        let aim = self.rng.pick(K, &[K, K + 1, K + 1, K - 1, 0, 0, -1, 1]);
        let side = self.rng.below(self.session.measurer().sides());
        let last = self.columns().saturating_sub(1);
        let column = if self.rng.percent(60) { last } else { self.rng.below(last + 1) };
        let Some(table) = self.session.table() else {
            return;
        };
        let columns = table.columns_on(side);
        let now = table.widths().get(column).cloned().flatten().and_then(|sides| sides.get(side).copied());
        let behind = table.preamble.columns.get(column).map_or(0, |column| column.gap.natural);
        let width = now.unwrap_or(0) + aim - columns.natural() - if now.is_none() { behind } else { 0 };
        let before = columns.edges(0).left(column) - table.preamble.start.natural;
        let mut text = b"\\omit\\span".repeat(column);
        text.extend_from_slice(b"\\omit");
        text.extend(row_texts::kerns((before + width).clamp(-K, K)));
        text.extend_from_slice(self.rng.pick("", &["", "\\hfil\\&", "\\hfil\\&\\hfil", "\\&"]).as_bytes());
        text.extend_from_slice(b"\\cr");
        self.say_text("line", &text);
    }
}
