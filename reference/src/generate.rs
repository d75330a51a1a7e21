//! Generated scripts. The writer performs each line as it writes it, so that it knows the cell in hand, the room that is
//! left and whether the run is over, and can choose calls that are accepted, nearly accepted, or not.

use crate::lengths::G;
use crate::measure::WIDEST_PITCH;
use crate::preamble::read_preamble;
use crate::random::Rng;
use crate::row_texts::{self, RowLook};
use crate::script::{Answer, Session, MOST_RECORDS};
use crate::spelling::hex;
use crate::table::{Stage, K, LARGEST};
use crate::texts::{self, Look, Parts};

mod sets;

#[derive(Clone, Copy, Debug, PartialEq, Eq)]
pub enum Kind {
    /// What the documentation settles.
    Script,
    /// The same, with many lines read from text.
    Lines,
    /// Mostly rows, and how they are set.
    Sets,
    /// What `Script` has, with lines spelled in ways on which the documentation is silent (README.md).
    Edges,
}

impl Kind {
    pub fn named(name: &str) -> Option<Kind> {
        match name {
            "script" => Some(Kind::Script),
            "lines" => Some(Kind::Lines),
            "sets" => Some(Kind::Sets),
            "edges" => Some(Kind::Edges),
            _ => None,
        }
    }
}

#[derive(Clone, Copy, Debug, PartialEq, Eq)]
enum Theme {
    Plain,
    Spans,
    FewItems,
    FewEntries,
    FewLines,
    LittleText,
    Limits,
    Parts,
    Damaged,
    Tokens,
    Chaos,
    Largest,
}

const THEMES: [(Theme, usize); 12] = [
    (Theme::Plain, 230),
    (Theme::Spans, 190),
    (Theme::FewItems, 70),
    (Theme::FewEntries, 50),
    (Theme::FewLines, 50),
    (Theme::LittleText, 50),
    (Theme::Limits, 100),
    (Theme::Parts, 40),
    (Theme::Damaged, 110),
    (Theme::Tokens, 40),
    (Theme::Chaos, 66),
    (Theme::Largest, 4),
];

/// Of themes, those that bring a table to set.
const THEMES_TO_SET: [(Theme, usize); 8] = [
    (Theme::Plain, 500),
    (Theme::Spans, 300),
    (Theme::FewItems, 30),
    (Theme::FewEntries, 20),
    (Theme::FewLines, 30),
    (Theme::Limits, 100),
    (Theme::Chaos, 18),
    (Theme::Largest, 2),
];

/// One generated script; the same seed gives the same.
pub fn script(kind: Kind, seed: u64) -> Vec<u8> {
    let mut writer = Writer::new(kind, seed);
    writer.settings();
    if writer.theme == Theme::Largest {
        writer.fill_the_largest();
    }
    writer.rows();
    writer.end();
    writer.out
}

struct Writer {
    rng: Rng,
    kind: Kind,
    theme: Theme,
    session: Session,
    out: Vec<u8>,
    last: Option<Answer>,
    /// Lines still to come in the middle part.
    steps: usize,
    /// Of a hundred steps, how many are noise.
    noise: usize,
    /// Columns in which entries may end; the others become void.
    ends: Vec<bool>,
    omits: usize,
    spans: usize,
    most_puts: usize,
    puts_left: usize,
    /// How many boxes may still be shown.
    shown_left: usize,
}

impl Writer {
    fn new(kind: Kind, seed: u64) -> Writer {
        let mut rng = Rng::new(seed);
        let themes: &[(Theme, usize)] = if kind == Kind::Sets { &THEMES_TO_SET } else { &THEMES };
        let weights: Vec<usize> = themes.iter().map(|(_, weight)| *weight).collect();
        let theme = themes.get(rng.weighted(&weights)).map_or(Theme::Plain, |(theme, _)| *theme);
        let steps = steps(&mut rng);
        let noise = match theme {
            Theme::Chaos => 100,
            _ => rng.pick(0, &[2, 4, 8]),
        };
        let omits = rng.pick(5, &[20, 50]);
        let spans = match theme {
            Theme::Spans => rng.pick(60, &[80, 95, 100]),
            _ => rng.pick(10, &[25]),
        };
        let most_puts = match theme {
            Theme::FewItems | Theme::LittleText | Theme::Limits => 6,
            Theme::Spans => rng.pick(0, &[1, 2]),
            _ => rng.pick(2, &[1, 3]),
        };
        Writer {
            rng,
            kind,
            theme,
            session: Session::default(),
            out: vec![],
            last: None,
            steps,
            noise,
            ends: vec![],
            omits,
            spans,
            most_puts,
            puts_left: 0,
            shown_left: if theme == Theme::Largest { 2 * MOST_RECORDS } else { sets::SHOWN },
        }
    }

    /// Writes a line and performs it.
    fn say(&mut self, line: impl AsRef<[u8]>) {
        let line = line.as_ref();
        self.out.extend_from_slice(line);
        self.out.push(b'\n');
        let answer = self.session.line(line);
        if answer.is_some() {
            self.last = answer;
        }
    }

    fn refused(&self) -> bool {
        matches!(self.last, Some(Answer::Fault(_)))
    }

    /// A line with a text: bare behind one space, or in hexadecimal where it must be or by chance.
    fn say_text(&mut self, name: &str, bytes: &[u8]) {
        let in_hex = bytes.contains(&b'\n') || (!bytes.is_empty() && self.rng.percent(20));
        if in_hex {
            self.say(format!("{name}-hex {}", hex(bytes)));
        } else {
            self.say([name.as_bytes(), b" ", bytes].concat());
        }
    }

    fn columns(&self) -> usize {
        self.session.table().map_or(0, |table| table.columns())
    }
}

fn steps(rng: &mut Rng) -> usize {
    let (low, high) = match rng.weighted(&[800, 150, 45, 5]) {
        0 => (10, 60),
        1 => (60, 160),
        2 => (160, 400),
        _ => (1_000, 3_000),
    };
    rng.from_to(low, high) as usize
}

/// Settings and the preamble.
impl Writer {
    fn settings(&mut self) {
        self.opening_noise();
        self.room();
        self.measurer();
        self.start_gap();
        self.opening_noise();
        if !self.session.over() {
            self.preamble();
        }
        self.ends = (0..self.columns()).map(|_| self.rng.percent(60)).collect();
        if self.rng.percent(50) {
            self.ends.iter_mut().for_each(|end| *end = true);
        }
        if self.theme == Theme::Spans && self.rng.percent(50) {
            self.steps = self.steps.max(6 * self.columns());
        }
    }

    fn opening_noise(&mut self) {
        if self.kind == Kind::Lines && self.rng.percent(5) {
            self.line_anywhere();
        }
        if self.rng.percent(10) {
            match self.rng.weighted(&[40, 30, 30]) {
                0 => self.passed_over(),
                1 => self.bad_input(),
                _ => self.any_call(),
            }
        }
        if self.rng.percent(2) {
            self.any_set_call();
        }
        self.edge_perhaps();
    }

    fn room(&mut self) {
        let few = |theme| if self.theme == theme { 100 } else { 0 };
        let (few_items, few_entries) = (few(Theme::FewItems), few(Theme::FewEntries));
        let (few_lines, little_text) = (few(Theme::FewLines), few(Theme::LittleText));
        // Of entries near their largest size, some find the items full as well.
        let items = if self.theme == Theme::Limits && self.rng.percent(40) {
            self.rng.from_to(60, 260)
        } else {
            self.small_or_large(few_items, 40, LARGEST.items)
        };
        let entries = self.small_or_large(few_entries, 16, LARGEST.entries);
        // So that an entry too wide and a table without room for a line meet at one token.
        let lines = if self.kind == Kind::Lines && self.theme == Theme::Limits && self.rng.percent(40) {
            self.rng.from_to(0, 4)
        } else {
            self.small_or_large(few_lines, 9, LARGEST.lines)
        };
        let text = self.small_or_large(little_text, 60, LARGEST.text);
        let wanted = few_items + few_entries + few_lines + little_text > 0 || self.theme == Theme::Limits;
        if wanted || self.rng.percent(25) {
            self.say(format!("room {items} {entries} {lines} {text}"));
        }
    }

    /// Small in so many of a hundred cases, else about the largest.
    fn small_or_large(&mut self, percent: usize, high: i64, largest: usize) -> i64 {
        if !self.rng.percent(percent.max(2)) {
            return largest as i64 + self.rng.pick(0, &[0, -1, 1, 100_000, 999_999_999_999_999]);
        }
        let low = if self.rng.percent(15) { 0 } else { high / 6 };
        self.rng.from_to(low, high)
    }

    fn measurer(&mut self) {
        let mut wanted = vec![];
        match self.rng.weighted(&[30, 35, 35]) {
            0 if self.theme != Theme::Limits => return,
            0 | 1 => wanted.extend(self.mono()),
            _ => {
                wanted.extend(self.mono());
                wanted.extend(self.mono());
            }
        }
        if self.rng.percent(2) {
            self.spoil_measurer(&mut wanted);
        }
        let name = if wanted.len() == 4 { "mono" } else { "twin" };
        let numbers: Vec<String> = wanted.iter().map(i64::to_string).collect();
        self.say(format!("measurer {name} {}", numbers.join(" ")));
    }

    fn mono(&mut self) -> [i64; 4] {
        if self.kind == Kind::Sets {
            return self.mono_to_set();
        }
        let any = self.rng.from_to(0, WIDEST_PITCH);
        let pitch = match self.theme {
            Theme::Limits => self.rng.pick(WIDEST_PITCH, &[WIDEST_PITCH, WIDEST_PITCH - 1, 0, any]),
            Theme::Largest => self.rng.pick(0, &[1, 10]),
            _ => self.rng.pick(10, &[10, 10, 10, 0, 1, 7, 100, 65_536, WIDEST_PITCH, any]),
        };
        let tall = self.rng.from_to(0, G);
        let height = self.rng.pick(7, &[0, G, 100, tall]);
        let depth = self.rng.pick(2, &[0, G, 100, tall / 3]);
        let low = self.rng.pick(32, &[33, 34, 47, 57]);
        let last = self.rng.pick(126, &[126, 126, 126, 126, 125, 122, 97, 90, 64, low]);
        [pitch, height, depth, last]
    }

    fn spoil_measurer(&mut self, numbers: &mut [i64]) {
        let place = self.rng.below(numbers.len());
        let bad = match place % 4 {
            0 => self.rng.pick(-1, &[WIDEST_PITCH + 1, 999_999_999_999_999_999]),
            3 => self.rng.pick(31, &[127, -126, 0]),
            _ => self.rng.pick(-1, &[G + 1, -999_999_999_999_999_999]),
        };
        if let Some(number) = numbers.get_mut(place) {
            *number = bad;
        }
    }

    fn start_gap(&mut self) {
        let to_set = self.kind == Kind::Sets;
        if self.rng.percent(if to_set { 65 } else { 35 }) {
            let mut three = if to_set { self.start_gap_to_set() } else { self.any_start_gap() };
            if self.rng.percent(5) {
                let bad = [self.rng.pick(G + 1, &[-G - 1]), self.rng.pick(-1, &[G + 1]), self.rng.pick(-1, &[4, 9])];
                let place = self.rng.below(3);
                if let (Some(slot), Some(number)) = (three.get_mut(place), bad.get(place)) {
                    *slot = *number;
                }
            }
            let [natural, stretch, order] = three;
            self.say(format!("gap0 {natural} {stretch} {order}"));
        }
    }

    fn any_start_gap(&mut self) -> [i64; 3] {
        let natural = self.rng.pick(0, &[5, -5, 65_536, G, -G]);
        let stretch = self.rng.pick(0, &[1, 65_536, G]);
        [natural, stretch, self.rng.pick(0, &[1, 2, 3])]
    }

    fn preamble(&mut self) {
        let text = match self.theme {
            Theme::Damaged => {
                let text = self.accepted_preamble();
                texts::damaged(&mut self.rng, &text)
            }
            Theme::Tokens => texts::any_tokens(&mut self.rng),
            Theme::Parts => {
                let columns = 1 + self.rng.below(4);
                let items = self.rng.pick(64, &[64, 64, 65, 63]);
                let odd = self.rng.percent(50);
                texts::counted_preamble(&mut self.rng, columns, items, odd)
            }
            Theme::Largest => texts::counted_preamble(&mut self.rng, 32, 64, false),
            _ if self.rng.percent(2) => self.columns_at_the_limit(),
            _ => self.accepted_preamble(),
        };
        self.say_text("preamble", &text);
    }

    fn columns_at_the_limit(&mut self) -> Vec<u8> {
        let columns = self.rng.pick(32, &[33, 34]);
        let text = texts::bare_preamble(columns);
        match self.rng.weighted(&[50, 30, 20]) {
            0 => text,
            1 => texts::damaged(&mut self.rng, &text),
            // The 32nd template has no mark, and a 33rd would begin.
            _ => [b"#&".repeat(31), b"&#\\cr".to_vec()].concat(),
        }
    }

    /// A preamble that the measurer and the starting gap accept, if one is soon found.
    fn accepted_preamble(&mut self) -> Vec<u8> {
        let look = self.look();
        for _ in 0..12 {
            let mut text = texts::preamble(&mut self.rng, &look);
            if self.rng.percent(15) {
                text.extend_from_slice(self.rng.pick(" ab", &["}", "ab&c\\cr", "$"]).as_bytes());
            }
            if read_preamble(&text, self.session.measurer(), self.session.start_gap()).is_ok() {
                return text;
            }
        }
        texts::bare_preamble(look.columns)
    }

    fn look(&mut self) -> Look {
        let columns = match self.theme {
            Theme::Spans => self.rng.pick(32, &[3, 4, 6, 8, 12, 20, 31]),
            Theme::Limits => 1 + self.rng.below(3),
            _ => self.rng.pick(1, &[2, 2, 3, 3, 4, 5, 6, 9]),
        };
        let parts = match self.theme {
            Theme::Limits => self.rng.pick(Parts::Heavy, &[Parts::Heavy, Parts::Usual]),
            _ => self.rng.pick(Parts::Usual, &[Parts::Usual; 19]),
        };
        let parts = if self.rng.percent(2) { Parts::Full } else { parts };
        let to_set = self.kind == Kind::Sets;
        Look {
            columns,
            items: self.rng.pick(0, &[1, 2, 3, 5]),
            last: self.last_byte(),
            tabskips: if to_set { self.rng.pick(20, &[50, 0, 80]) } else { self.rng.pick(0, &[10, 30]) },
            stretches: if to_set { 80 } else { 45 },
            fills: if to_set { self.rng.pick(12, &[40, 80]) } else { 12 },
            newlines: self.rng.percent(20),
            parts,
        }
    }

    /// The last byte for which every side has a character.
    fn last_byte(&self) -> u8 {
        let lasts = self.session.measurer().monos().into_iter().map(|mono| mono.last);
        lasts.min().and_then(|last| u8::try_from(last).ok()).unwrap_or(126)
    }
}

/// Rows that are laid by calls that make sense.
impl Writer {
    fn rows(&mut self) {
        if self.session.over() {
            self.steps = self.rng.below(5);
        }
        while self.steps > 0 {
            self.steps -= 1;
            if self.kind == Kind::Lines && self.rng.percent(4) {
                self.line_anywhere();
            } else if self.rng.percent(self.noise) {
                self.noise();
            } else {
                self.sensible();
            }
            self.sets_perhaps();
            self.edge_perhaps();
        }
    }

    fn sensible(&mut self) {
        match self.session.cell().map(|cell| (cell.stage, cell.column)) {
            None => self.between_rows(),
            Some((Stage::Fresh, _)) => self.fresh(),
            Some((Stage::Begun, column)) => self.begun(column),
        }
    }

    fn between_rows(&mut self) {
        let weights = if self.refused() { [25, 15, 15, 45] } else { [82, 5, 5, 8] };
        if self.kind == Kind::Lines && self.rng.percent(75) {
            self.lines();
            return;
        }
        if self.kind == Kind::Sets && self.rng.percent(40) {
            self.line_to_set();
            return;
        }
        match self.rng.weighted(&weights) {
            0 => self.take(),
            1 => self.say("rule"),
            2 => self.gap(),
            _ => self.ask(),
        }
    }

    /// After some refusals nothing new is to be met, so the script comes to its end.
    fn take(&mut self) {
        self.say("take");
        if self.refused() && self.rng.percent(25) {
            self.steps = 0;
        }
    }

    fn fresh(&mut self) {
        let refused = self.refused();
        self.puts_left = self.rng.below(self.most_puts + 1);
        if self.rng.percent(if refused { 20 } else { 1 }) {
            self.say("giveup");
        } else if self.rng.percent(if refused { 60 } else { self.omits }) {
            self.say("omit");
        } else {
            self.say("start");
        }
    }

    fn begun(&mut self, column: usize) {
        if self.puts_left > 0 {
            self.puts_left -= 1;
            self.put();
        } else if self.refused() && self.rng.percent(60) {
            self.say_one_of(&[("lay", 70), ("giveup", 20), ("tab", 10)]);
        } else {
            self.end_of_cell(column);
        }
    }

    fn put(&mut self) {
        let weights = match self.theme {
            _ if self.kind == Kind::Sets => [50, 14, 10, 26],
            Theme::LittleText => [85, 5, 5, 5],
            Theme::Limits => [30, 55, 10, 5],
            _ => [50, 20, 18, 12],
        };
        match self.rng.weighted(&weights) {
            0 => self.word(),
            1 => self.kern(),
            2 => self.say("space"),
            _ => self.say("hfil"),
        }
    }

    fn end_of_cell(&mut self, column: usize) {
        let is_last = column + 1 >= self.columns();
        let may_end = is_last || self.ends.get(column).copied().unwrap_or(true);
        if is_last {
            self.say_one_of(&[("lay", 88), ("tab", 5), ("span", 5), ("giveup", 2)]);
        } else if !may_end || self.rng.percent(self.spans) {
            self.say("span");
        } else {
            self.say_one_of(&[("tab", 78), ("lay", 21), ("giveup", 1)]);
        }
    }

    fn say_one_of(&mut self, calls: &[(&str, usize)]) {
        let weights: Vec<usize> = calls.iter().map(|(_, weight)| *weight).collect();
        let chosen = self.rng.weighted(&weights);
        if let Some((call, _)) = calls.get(chosen) {
            self.say(call);
        }
    }

    fn word(&mut self) {
        let last = self.last_byte();
        let mut word = texts::host_word(&mut self.rng, last);
        if self.theme == Theme::LittleText && self.rng.percent(30) {
            let over = usize::from(self.rng.percent(50));
            word = vec![b'!'; (self.text_left() + over).max(1)];
        }
        if self.theme == Theme::Limits && self.rng.percent(25) {
            word = vec![b'!'; 255];
        }
        self.say_text("word", &word);
    }

    fn text_left(&self) -> usize {
        self.session.table().map_or(1, |table| table.room.text.saturating_sub(table.used().text))
    }

    fn kern(&mut self) {
        let exact = if self.theme == Theme::Limits { 50 } else { 1 };
        let length = if self.rng.percent(exact) { self.exact_kern() } else { self.any_kern() };
        self.say(format!("kern {length}"));
    }

    fn any_kern(&mut self) -> i64 {
        match self.rng.weighted(&[60, 14, 8, 9, 5, 2, 2]) {
            0 => self.rng.from_to(-60, 60),
            1 => self.rng.from_to(-70_000, 70_000),
            2 => self.rng.from_to(-G, G),
            3 => self.rng.pick(G, &[-G]),
            4 => self.rng.pick(G + 1, &[-G - 1]),
            5 => self.rng.pick(999_999_999_999_999_999, &[-999_999_999_999_999_999, 4_294_967_296]),
            _ => 0,
        }
    }

    /// What brings the entry in hand to exactly the largest size on a side, or one past it; or as near as a kern can.
    fn exact_kern(&mut self) -> i64 {
        let entry = self.session.table().map(|table| table.entry_in_hand()).unwrap_or_default();
        let side = entry.get(self.rng.below(entry.len())).copied().unwrap_or(0);
        let aim = if side < 0 { -K } else { K };
        let past = self.rng.pick(0, &[0, aim.signum()]);
        (aim + past - side).clamp(-G, G)
    }

    fn gap(&mut self) {
        let any = self.rng.from_to(0, G);
        let length = self.rng.pick(0, &[1, 100, 65_536, G, any, G + 1, -1, -G, 999_999_999_999_999_999]);
        self.say(format!("gap {length}"));
    }

    fn ask(&mut self) {
        let columns = self.columns() as i64;
        let column = if self.rng.percent(90) {
            self.rng.from_to(1, columns.max(1))
        } else {
            self.rng.pick(0, &[columns + 1, -1, 33, 999_999_999_999_999_999, -999_999_999_999_999_999])
        };
        self.say(format!("ask {column}"));
    }

    /// Ends the row in hand as a rule, and asks for every column.
    fn end(&mut self) {
        if self.rng.percent(90) {
            self.lay_the_row();
        }
        let columns = self.columns();
        let all = if self.kind == Kind::Sets { 20 } else { 95 };
        if columns > 0 && self.rng.percent(all) {
            for column in 1..=columns {
                self.say(format!("ask {column}"));
            }
        }
        self.sets_at_the_end();
        self.edge_perhaps();
        if self.rng.percent(10) {
            self.out.pop();
        }
    }

    fn lay_the_row(&mut self) {
        if self.session.cell().is_some_and(|cell| cell.stage == Stage::Fresh) {
            self.say("start");
            if self.refused() {
                self.say("omit");
            }
        }
        if self.session.cell().is_some() {
            self.say("lay");
        }
    }
}

/// Lines that are refused, misused, unreadable or passed over.
impl Writer {
    fn noise(&mut self) {
        match self.rng.weighted(&[62, 8, 8, 8, 6, 8]) {
            0 => self.any_call(),
            1 => self.bad_input(),
            2 => self.passed_over(),
            3 => self.late_setting(),
            4 => self.ask(),
            _ => self.misuse(),
        }
    }

    fn any_call(&mut self) {
        match self.rng.weighted(&[14, 6, 14, 10, 5, 6, 4, 9, 7, 11, 2, 4, 4, 4, 4]) {
            0 => self.say("take"),
            1 => self.say("omit"),
            2 => self.say("start"),
            3 => self.word(),
            4 => self.say("space"),
            5 => self.kern(),
            6 => self.say("hfil"),
            7 => self.say("tab"),
            8 => self.say("span"),
            9 => self.say("lay"),
            10 => self.say("giveup"),
            11 => self.say("rule"),
            12 => self.gap(),
            13 => self.ask(),
            _ => self.any_set_call(),
        }
    }

    /// A row call that the cell in hand does not allow; 21 for a call that wants none in hand.
    fn misuse(&mut self) {
        let held = self.session.cell().map(|cell| cell.stage);
        let puts = ["word a", "space", "kern 1", "hfil", "tab", "span", "lay", "kern 99999999", "word-hex 00"];
        let call = match held {
            None => self.rng.pick("giveup", &["omit", "start", "lay", "word a", "tab", "span", "kern 0", "space", "hfil"]),
            Some(Stage::Fresh) => self.rng.pick("take", &puts),
            Some(Stage::Begun) => self.rng.pick("omit", &["start", "take", "rule", "gap 1", "gap -1", "gap 99999999"]),
        };
        self.say(call);
    }

    fn bad_input(&mut self) {
        let lines: [&[u8]; 67] = [
            b"foo", b"Take", b"TAKE", b"takes", b"take 1", b"omit x", b"start 0", b"lay lay", b"giveup 1", b"rule 1", b"space a",
            b"hfil 2", b"tab 1", b"span 1", b"kern", b"kern x", b"kern 1 2", b"kern +1", b"kern --1", b"kern -",
            b"kern 1234567890123456789", b"kern -1234567890123456789", b"kern 1.5", b"kern 1pt", b"gap", b"gap 1.5",
            b"gap 1 2", b"gap 0000000000000000001", b"ask", b"ask one", b"ask 1 2", b"ask 0x1", b"word-hex 4", b"word-hex 4G",
            b"word-hex 414", b"measurer", b"measurer mono 1 2 3", b"measurer mono 1 2 3 99 5",
            b"measurer twin 1 2 3 99 1 2 3", b"measurer stereo 1 2 3 99", b"room 1 2 3", b"room 1 2 3 4 5", b"gap0 0 0",
            b"preamble-hex 2", b"take\r", b"\ttake", b"\xff\x00\xfe", b"set", b"set 1", b"set 1 natural",
            b"set natural 1 5", b"set 1 Natural 5", b"set 1 natural -1", b"set 1 5 -1", b"set 1 5 5 5", b"set 1.5 natural 5",
            b"set x natural 5", b"set 1 naturally 5", b"set 1 natural 1234567890123456789", b"set 1 -1234567890123456789 5",
            b"write", b"write -1", b"write 1 2", b"write x", b"fetch", b"fetch 1 2", b"fetch one",
        ];
        let line = self.rng.pick(b"=> ok".as_slice(), &lines);
        if self.rng.percent(25) {
            self.misspelled();
        } else {
            self.say(line);
        }
    }

    /// A name with one byte changed.
    fn misspelled(&mut self) {
        let names = ["omit", "start", "word a", "word-hex 41", "space", "kern 1", "hfil", "tab", "span", "lay", "giveup", "rule", "ask 1"];
        let mut line = self.rng.pick("take", &names).as_bytes().to_vec();
        let place = self.rng.below(3);
        let byte = (self.rng.draw() & 0xff) as u8;
        if let (Some(slot), false) = (line.get_mut(place), matches!(byte, b' ' | b'\n')) {
            *slot = byte;
        }
        self.say(line);
    }

    fn passed_over(&mut self) {
        let line = self.rng.pick("", &[" ", "     ", ";", "; take", ";;; => ok", ";\r"]);
        self.say(line);
    }

    /// A setting or a preamble behind an accepted preamble.
    fn late_setting(&mut self) {
        if self.session.table().is_none() {
            return;
        }
        let lines = [
            "measurer mono 99999999 0 0 0", "measurer mono 1 0 0 126", "measurer twin 1 0 0 126 1 0 0 126",
            "gap0 0 0 0", "gap0 0 0 9", "preamble #\\cr", "preamble ", "preamble-hex 235C6372",
        ];
        let line = self.rng.pick("room 1 1 1 1", &lines);
        self.say(line);
    }

    /// A line on whose spelling the documentation is silent.
    fn edge_perhaps(&mut self) {
        if self.kind != Kind::Edges || !self.rng.percent(12) {
            return;
        }
        let lines = [
            "  take", "take ", "start  ", " lay", "kern  5", "  kern   5  ", "ask  1 ", "word", "  word a",
            " word  a", "word-hex", "word-hex ", "word-hex 4a", "word-hex 41 42", "word-hex  41", "preamble",
            "preamble-hex", "set  1  natural  17408 ", "set 1 natural -0", "set 01 natural 17408",
            "set 1 000000000000000000 5", " write 01", "write -0", "fetch  1 ", "fetch 000000000000000001",
            "fetch -0", "set -0 natural 0", "preamble-hex ", "preamble-hex 235c6372", "preamble  #\\cr",
            "  preamble #\\cr", "room -1 5 5 5", "room  9 9 9 9", " ;take", "measurer  mono 1 1 1 126",
            "measurer mono  1 1 1 126 ", "gap0  0 0 0",
        ];
        let line = self.rng.pick("tab ", &lines);
        self.say(line);
    }
}

/// Lines that are read from text.
impl Writer {
    /// One line as a rule; else many that differ in where they are cut short, or in one byte.
    fn lines(&mut self) {
        let exact = if self.theme == Theme::Limits { 40 } else { 3 };
        let few = matches!(self.theme, Theme::FewItems | Theme::LittleText);
        let full = if few { 30 } else { 2 };
        match self.rng.weighted(&[90, 2, 2, exact, full]) {
            0 => self.line(),
            1 => self.cut_everywhere(),
            2 => self.one_byte_damaged(),
            3 => self.line_near_the_largest_size(),
            _ => self.line_that_fills_a_room(),
        }
        if self.refused() && self.rng.percent(15) {
            self.ask();
        }
    }

    /// A row that is well formed, a rule, a gap, or a row that makes the table very wide or hardly wide enough.
    fn line_to_set(&mut self) {
        let look = self.row_look();
        let limits = if self.theme == Theme::Limits { 20 } else { 2 };
        match self.rng.weighted(&[75, 10, 10, limits]) {
            0 => {
                let text = row_texts::row(&mut self.rng, &look);
                self.say_text("line", &text);
            }
            1 => self.say("rule"),
            2 => self.gap(),
            _ => self.row_that_brings_n_to_a_limit(),
        }
    }

    fn line(&mut self) {
        let look = self.row_look();
        let text = row_texts::line(&mut self.rng, &look);
        self.say_text("line", &text);
    }

    /// Also where a row is in hand, or no table is there; in some cases the line itself cannot be read.
    fn line_anywhere(&mut self) {
        match self.rng.weighted(&[60, 20, 20]) {
            0 => self.line(),
            1 => {
                let text = self.rng.pick("", &[" ", "a\\cr", "\\noalign{\\hrule}", "$", "\\foo", "a"]);
                self.say_text("line", text.as_bytes());
            }
            _ => {
                let line = self.rng.pick("line", &["line-hex", "line-hex 4", "line-hex 4G", "lines a", "line-hex 41 42", "line\\cr"]);
                self.say(line);
            }
        }
    }

    fn row_look(&mut self) -> RowLook {
        let mut items = self.look();
        items.columns = self.columns().max(1);
        items.parts = Parts::Usual;
        let voids = match self.kind {
            Kind::Sets => self.ends.iter().map(|end| !end).collect(),
            _ => vec![],
        };
        RowLook { items, voids, spans: self.spans, omits: self.omits }
    }

    fn short_text(&mut self) -> Vec<u8> {
        let mut look = self.row_look();
        look.items.items = look.items.items.min(2);
        let mut text = match self.rng.weighted(&[70, 30]) {
            0 => row_texts::row(&mut self.rng, &look),
            _ => row_texts::noalign(&mut self.rng),
        };
        text.truncate(80);
        text
    }

    fn cut_everywhere(&mut self) {
        let text = self.short_text();
        for end in 0..=text.len() {
            let part = text.get(..end).unwrap_or(&[]);
            self.say_text("line", part);
        }
    }

    fn one_byte_damaged(&mut self) {
        let text = self.short_text();
        for place in 0..text.len() {
            let any = (self.rng.draw() & 0xff) as u8;
            let byte = self.rng.pick(any, b"\\{}&# \n$~a1.-p");
            let mut other = text.clone();
            if let Some(slot) = other.get_mut(place) {
                *slot = byte;
            }
            self.say_text("line", &other);
        }
    }

    /// The width of a column's template on one side.
    fn template_width(&self, column: usize, side: usize) -> i64 {
        let column = self.session.table().and_then(|table| table.preamble.columns.get(column));
        column.map_or(0, |column| {
            let sides = column.u.iter().chain(&column.v).filter_map(|item| item.width.get(side));
            sides.sum()
        })
    }

    /// A row with an entry that comes to the largest size on a side, or to one past it, and perhaps goes on from there.
    fn line_near_the_largest_size(&mut self) {
        let columns = self.columns();
        let side = self.rng.below(self.session.measurer().sides());
        let aim = self.rng.pick(K, &[-K]);
        let past = self.rng.pick(0, &[0, aim.signum(), -aim.signum()]);
        let first = self.rng.below(columns.min(3));
        let last = (first + self.rng.pick(0, &[0, 1, 2])).min(columns.saturating_sub(1));
        let mut text = b"&".repeat(first);
        let mut so_far = 0;
        for column in first..=last {
            if column > first {
                text.extend_from_slice(b"\\span ");
            }
            let whole = column == last && self.rng.percent(50);
            let omitted = self.rng.percent(30);
            if omitted {
                text.extend_from_slice(b"\\omit ");
            } else {
                so_far += self.template_width(column, side);
            }
            if column == last {
                let sum = aim + past - so_far;
                let (one, two) = if whole { (sum, 0) } else { (sum / 2, sum - sum / 2) };
                text.extend(row_texts::kerns(one));
                text.extend(row_texts::kerns(two));
            } else if self.rng.percent(30) {
                let some = self.rng.from_to(-9, 9);
                text.extend(row_texts::kerns(some));
                so_far += some;
            }
        }
        let more = ["", "", "\\hfil", "\\kern0.00002pt", "\\kern-0.00002pt", " ", "a", "&", "\\span ", "\\&", "&a", "\\span\\omit a"];
        text.extend_from_slice(self.rng.pick("", &more).as_bytes());
        text.extend_from_slice(b"\\cr");
        self.say_text("line", &text);
    }

    /// Cells that take what is left of the items or of the text bytes, one less, or one more.
    fn line_that_fills_a_room(&mut self) {
        let Some(table) = self.session.table() else {
            return;
        };
        let used = table.used();
        let items = table.room.items.saturating_sub(used.items);
        let bytes = table.room.text.saturating_sub(used.text);
        let columns = table.columns();
        let parts: Vec<usize> = table.preamble.columns.iter().map(|c| c.u.len() + c.v.len()).collect();
        let last = self.rng.below(columns);
        let mut left = items;
        let mut text = vec![];
        for column in 0..=last {
            if column > 0 {
                let mark: &[u8] = if self.rng.percent(40) { b"\\span " } else { b"&" };
                text.extend_from_slice(mark);
            }
            if self.rng.percent(30) {
                text.extend_from_slice(b"\\omit ");
            } else {
                left = left.saturating_sub(parts.get(column).copied().unwrap_or(0));
            }
        }
        let delta = self.rng.below(3);
        if self.rng.percent(60) {
            let item: &[u8] = self.rng.pick(b"\\hfil ", &[b"\\&", b"\\kern1pt", b"\\kern1pt  ", b"a\\_"]);
            let takes = if item.starts_with(b"a") || item.ends_with(b"  ") { 2 } else { 1 };
            text.extend(item.repeat((left.min(300) + delta).saturating_sub(1).div_ceil(takes)));
        } else {
            text.extend(b"!".repeat((bytes.min(400) + delta).saturating_sub(1)));
        }
        let behind = self.rng.pick("", &["", "", "&", "\\span ", "&\\omit ", "\\span\\omit "]);
        text.extend_from_slice(behind.as_bytes());
        text.extend_from_slice(b"\\cr");
        self.say_text("line", &text);
    }
}

/// Tables that fill the largest room there is.
impl Writer {
    fn fill_the_largest(&mut self) {
        if self.kind == Kind::Lines && self.rng.percent(50) {
            self.fill_by_lines();
            return;
        }
        match self.rng.weighted(&[40, 30, 10, 6]) {
            0 => self.fill_lines(),
            1 => self.fill_text(),
            2 => self.fill_items(),
            _ => self.fill_entries(),
        }
    }

    /// Long lines of items, lines of all columns, or as many lines as there may be.
    fn fill_by_lines(&mut self) {
        match self.rng.weighted(&[40, 30, 30]) {
            0 => {
                let count = LARGEST.items - self.rng.below(200);
                self.say([b"line \\omit".as_slice(), &b"\\&".repeat(count), b"\\cr"].concat());
                self.say("line \\omit a\\cr");
            }
            1 => {
                let row = [b"line ".as_slice(), &b"\\omit&".repeat(self.columns().saturating_sub(1)), b"\\omit\\cr"].concat();
                for _ in 0..LARGEST.entries / self.columns().max(1) + 1 {
                    self.say(&row);
                }
            }
            _ => {
                for _ in 0..LARGEST.lines - self.rng.below(3) {
                    let line = self.rng.pick("line \\noalign{\\hrule}", &["line \\noalign{\\vskip1pt}", "rule", "line \\omit\\cr"]);
                    self.say(line);
                }
            }
        }
    }

    fn fill_lines(&mut self) {
        for _ in 0..LARGEST.lines - self.rng.below(3) {
            self.say("rule");
        }
    }

    fn fill_text(&mut self) {
        self.say("take");
        self.say("omit");
        for _ in 0..LARGEST.text / 255 - 1 {
            self.say(format!("word {}", "!".repeat(255)));
        }
        let len = self.rng.pick(255, &[254, 253]);
        self.say(format!("word {}", "!".repeat(len)));
        self.say("word !!");
        self.say("word !");
    }

    /// All parts that a row of 32 columns has, then spaces up to the last item.
    fn fill_items(&mut self) {
        self.say("take");
        self.say("omit");
        for _ in 0..LARGEST.items - self.rng.below(200) {
            self.say("space");
        }
        self.say("lay");
    }

    fn fill_entries(&mut self) {
        let columns = self.columns();
        for row in 0..LARGEST.entries / columns.max(1) {
            self.say("take");
            for column in 0..columns {
                self.say("omit");
                if row % 50 == 0 {
                    self.say("hfil");
                }
                self.say(if column + 1 < columns { "tab" } else { "lay" });
            }
        }
    }
}

#[cfg(test)]
mod tests {
    use super::*;

    #[test]
    fn the_same_seed_gives_the_same_script() {
        for seed in 0..200 {
            assert_eq!(script(Kind::Script, seed), script(Kind::Script, seed));
            assert_eq!(script(Kind::Edges, seed), script(Kind::Edges, seed));
            assert_eq!(script(Kind::Lines, seed), script(Kind::Lines, seed));
            assert_eq!(script(Kind::Sets, seed), script(Kind::Sets, seed));
        }
        assert_ne!(script(Kind::Script, 1), script(Kind::Script, 2));
    }

    #[test]
    fn no_script_of_many_panics() {
        for seed in 0..1_500 {
            crate::script::perform(&script(Kind::Script, seed));
            crate::script::perform(&script(Kind::Edges, seed));
            crate::script::perform(&script(Kind::Lines, seed));
            crate::script::perform(&script(Kind::Sets, seed));
        }
    }
}
