//! A script of calls, read and performed (docs/FORMAT.md, 'A script of calls').

use crate::boxes::{self, BoxList};
use crate::bytes;
use crate::faults::Fault;
use crate::measure::{Extent, Measurer, Mono};
use crate::setting::Wanted;
use crate::spelling::small_hex;
use crate::table::{Cell, Room, Stage, Table, LARGEST};
use std::fmt;

/// What the largest table can take.
pub const MOST_RECORDS: usize = 17_408;
pub const MOST_BYTES: usize = 1_048_576;

#[derive(Clone, Debug, PartialEq, Eq)]
pub enum Call {
    Take,
    Omit,
    Start,
    Word(Vec<u8>),
    Space,
    Kern(i64),
    Hfil,
    Tab,
    Span,
    Lay,
    GiveUp,
    Rule,
    Gap(i64),
    Ask(i64),
    Line(Vec<u8>),
    /// A side, a width, and how many records are lent.
    Set(i64, Wanted, usize),
    /// How many bytes are lent.
    Write(usize),
    Fetch(i64),
}

#[derive(Clone, Debug, PartialEq, Eq)]
pub enum Order {
    Room(Room),
    Mono([i64; 4]),
    Twin([i64; 4], [i64; 4]),
    Gap0([i64; 3]),
    Preamble(Vec<u8>),
    Call(Call),
}

#[derive(Clone, Debug, PartialEq, Eq)]
pub enum Answer {
    Done,
    Read { bytes: usize, columns: usize },
    Void,
    Width(Extent),
    /// A line was read, of so many bytes.
    Line(usize),
    /// Only spaces were left for a line.
    End,
    Set(BoxList),
    Bytes(Vec<u8>),
    Fault(Fault),
    Misuse,
    BadInput,
}

impl fmt::Display for Answer {
    fn fmt(&self, f: &mut fmt::Formatter<'_>) -> fmt::Result {
        match self {
            Answer::Done => write!(f, "ok"),
            Answer::Read { bytes, columns } => write!(f, "ok {bytes} {columns}"),
            Answer::Void => write!(f, "ok void"),
            Answer::Width(sides) => {
                write!(f, "ok")?;
                sides.iter().try_for_each(|side| write!(f, " {side}"))
            }
            Answer::Line(bytes) => write!(f, "ok {bytes}"),
            Answer::End => write!(f, "ok end"),
            Answer::Set(list) => write_list(f, list),
            Answer::Bytes(bytes) => write!(f, "ok {}", small_hex(bytes)),
            Answer::Fault(fault) => write!(f, "{fault}"),
            Answer::Misuse => write!(f, "misuse"),
            Answer::BadInput => write!(f, "bad input"),
        }
    }
}

/// Each box on a line of its own.
fn write_list(f: &mut fmt::Formatter<'_>, list: &BoxList) -> fmt::Result {
    write!(f, "ok {} {} {}", list.width, list.height, list.boxes.len())?;
    list.boxes.iter().try_for_each(|record| write!(f, "\nbox => {record}"))
}

/// Lines that are empty, hold only spaces or begin with `;`.
pub fn passed_over(line: &[u8]) -> bool {
    line.first() == Some(&b';') || line.iter().all(|&b| b == b' ')
}

/// What a line says, or nothing if it cannot be read.
pub fn read_line(line: &[u8]) -> Option<Order> {
    let (name, text) = first_word(line);
    let words = words_of(text.unwrap_or(&[]));
    let alone = |call| words.is_empty().then_some(Order::Call(call));
    match name {
        b"room" => read_room(&words),
        b"measurer" => read_measurer(&words),
        b"gap0" => numbers(&words).map(Order::Gap0),
        b"preamble" => text.map(|text| Order::Preamble(text.to_vec())),
        b"preamble-hex" => read_hex(&words).map(Order::Preamble),
        b"take" => alone(Call::Take),
        b"omit" => alone(Call::Omit),
        b"start" => alone(Call::Start),
        b"space" => alone(Call::Space),
        b"hfil" => alone(Call::Hfil),
        b"tab" => alone(Call::Tab),
        b"span" => alone(Call::Span),
        b"lay" => alone(Call::Lay),
        b"giveup" => alone(Call::GiveUp),
        b"rule" => alone(Call::Rule),
        b"word" => text.map(|text| Order::Call(Call::Word(text.to_vec()))),
        b"word-hex" => read_hex(&words).map(|bytes| Order::Call(Call::Word(bytes))),
        b"line" => text.map(|text| Order::Call(Call::Line(text.to_vec()))),
        b"line-hex" => read_hex(&words).map(|bytes| Order::Call(Call::Line(bytes))),
        b"kern" => one_number(&words).map(|n| Order::Call(Call::Kern(n))),
        b"gap" => one_number(&words).map(|n| Order::Call(Call::Gap(n))),
        b"ask" => one_number(&words).map(|n| Order::Call(Call::Ask(n))),
        b"set" => read_set(&words),
        b"write" => one_number(&words).and_then(|n| lent(n, MOST_BYTES)).map(|n| Order::Call(Call::Write(n))),
        b"fetch" => one_number(&words).map(|n| Order::Call(Call::Fetch(n))),
        _ => None,
    }
}

/// The first word, and all behind the first space after it, if there is a space.
fn first_word(line: &[u8]) -> (&[u8], Option<&[u8]>) {
    let from = line.iter().position(|&b| b != b' ').unwrap_or(line.len());
    let line = line.get(from..).unwrap_or(&[]);
    match line.iter().position(|&b| b == b' ') {
        Some(space) => (line.get(..space).unwrap_or(&[]), line.get(space + 1..)),
        None => (line, None),
    }
}

fn words_of(text: &[u8]) -> Vec<&[u8]> {
    text.split(|&b| b == b' ').filter(|word| !word.is_empty()).collect()
}

/// An optional minus and 1 to 18 digits.
fn number(word: &[u8]) -> Option<i64> {
    let (negative, digits) = match word {
        [b'-', digits @ ..] => (true, digits),
        digits => (false, digits),
    };
    if !(1..=18).contains(&digits.len()) || !digits.iter().all(u8::is_ascii_digit) {
        return None;
    }
    let size = digits.iter().fold(0i64, |n, digit| n * 10 + i64::from(digit - b'0'));
    Some(if negative { -size } else { size })
}

/// Exactly N numbers.
fn numbers<const N: usize>(words: &[&[u8]]) -> Option<[i64; N]> {
    let all: Option<Vec<i64>> = words.iter().map(|word| number(word)).collect();
    all?.try_into().ok()
}

fn one_number(words: &[&[u8]]) -> Option<i64> {
    numbers(words).map(|[n]: [i64; 1]| n)
}

fn read_room(words: &[&[u8]]) -> Option<Order> {
    let [items, entries, lines, text] = numbers(words)?;
    let count = |n: i64| usize::try_from(n).ok();
    let room = Room { items: count(items)?, entries: count(entries)?, lines: count(lines)?, text: count(text)? };
    Some(Order::Room(room.cut()))
}

fn read_set(words: &[&[u8]]) -> Option<Order> {
    let [side, wanted, records] = words else {
        return None;
    };
    let wanted = match *wanted {
        b"natural" => Wanted::Natural,
        width => Wanted::Width(number(width)?),
    };
    Some(Order::Call(Call::Set(number(side)?, wanted, lent(number(records)?, MOST_RECORDS)?)))
}

/// What a host lends, cut to the most that the largest table can take; nothing for a negative number.
fn lent(n: i64, most: usize) -> Option<usize> {
    usize::try_from(n).ok().map(|n| n.min(most))
}

fn read_measurer(words: &[&[u8]]) -> Option<Order> {
    match words {
        [b"mono", rest @ ..] => numbers(rest).map(Order::Mono),
        [b"twin", rest @ ..] => {
            let [a, b, c, d, e, f, g, h] = numbers(rest)?;
            Some(Order::Twin([a, b, c, d], [e, f, g, h]))
        }
        _ => None,
    }
}

/// One word of hexadecimal digits, two to a byte.
fn read_hex(words: &[&[u8]]) -> Option<Vec<u8>> {
    let [word] = words else {
        return None;
    };
    word.chunks(2)
        .map(|pair| match pair {
            [high, low] => Some(hex_digit(*high)? * 16 + hex_digit(*low)?),
            _ => None,
        })
        .collect()
}

fn hex_digit(byte: u8) -> Option<u8> {
    char::from(byte).to_digit(16).and_then(|digit| u8::try_from(digit).ok())
}

/// A run of a script: settings, then a table and at most one cell in hand.
pub struct Session {
    room: Room,
    measurer: Measurer,
    start: [i64; 3],
    table: Option<Table>,
    cell: Option<Cell>,
    /// The list that was set last.
    list: Option<BoxList>,
    over: bool,
}

impl Default for Session {
    fn default() -> Session {
        Session {
            room: LARGEST,
            measurer: Measurer::usual(),
            start: [0, 0, 0],
            table: None,
            cell: None,
            list: None,
            over: false,
        }
    }
}

impl Session {
    pub fn table(&self) -> Option<&Table> {
        self.table.as_ref()
    }

    pub fn measurer(&self) -> &Measurer {
        &self.measurer
    }

    pub fn start_gap(&self) -> [i64; 3] {
        self.start
    }

    pub fn cell(&self) -> Option<Cell> {
        self.cell
    }

    pub fn list(&self) -> Option<&BoxList> {
        self.list.as_ref()
    }

    /// A refused measurer or preamble ended the run.
    pub fn over(&self) -> bool {
        self.over
    }

    /// Performs one line; no answer for a line that is passed over or stands behind the end of the run.
    pub fn line(&mut self, line: &[u8]) -> Option<Answer> {
        if self.over || passed_over(line) {
            return None;
        }
        Some(match read_line(line) {
            None => Answer::BadInput,
            Some(order) => self.order(order),
        })
    }

    fn order(&mut self, order: Order) -> Answer {
        match order {
            Order::Call(call) => match &mut self.table {
                None => Answer::BadInput,
                Some(table) => match call {
                    Call::Set(side, wanted, records) => set(table, &mut self.list, side, wanted, records),
                    Call::Write(room) => write_out(&self.list, room),
                    Call::Fetch(number) => fetch(table, &self.list, number),
                    call => perform_call(table, &mut self.cell, call),
                },
            },
            setting if self.table.is_none() => self.setting(setting),
            _ => Answer::BadInput,
        }
    }

    fn setting(&mut self, setting: Order) -> Answer {
        match setting {
            Order::Room(room) => {
                self.room = room;
                Answer::Done
            }
            Order::Mono(four) => self.set_measurer(Mono::new(four).map(Measurer::Mono)),
            Order::Twin(strip, window) => self.set_measurer(twin(strip, window)),
            Order::Gap0(start) => {
                self.start = start;
                Answer::Done
            }
            Order::Preamble(text) => self.preamble(&text),
            Order::Call(_) => Answer::BadInput,
        }
    }

    fn set_measurer(&mut self, made: Result<Measurer, Fault>) -> Answer {
        match made {
            Ok(measurer) => {
                self.measurer = measurer;
                Answer::Done
            }
            Err(fault) => self.end(fault),
        }
    }

    fn preamble(&mut self, text: &[u8]) -> Answer {
        match Table::make(text, self.measurer, self.start, self.room) {
            Ok(table) => {
                let answer = Answer::Read { bytes: table.preamble.text.len(), columns: table.columns() };
                self.table = Some(table);
                answer
            }
            Err(fault) => self.end(fault),
        }
    }

    fn end(&mut self, fault: Fault) -> Answer {
        self.over = true;
        Answer::Fault(fault)
    }
}

fn twin(strip: [i64; 4], window: [i64; 4]) -> Result<Measurer, Fault> {
    Ok(Measurer::Twin(Mono::new(strip)?, Mono::new(window)?))
}

/// A refused set leaves the list as it was.
fn set(table: &Table, list: &mut Option<BoxList>, side: i64, wanted: Wanted, records: usize) -> Answer {
    match table.set(side, wanted, records) {
        Ok(new) => {
            *list = Some(new.clone());
            Answer::Set(new)
        }
        Err(fault) => Answer::Fault(fault),
    }
}

fn write_out(list: &Option<BoxList>, room: usize) -> Answer {
    match list.as_ref().map(|list| bytes::write(list, room)) {
        None => Answer::Misuse,
        Some(Ok(bytes)) => Answer::Bytes(bytes),
        Some(Err(fault)) => Answer::Fault(fault),
    }
}

/// Of the box with this number, counted from 1.
fn fetch(table: &Table, list: &Option<BoxList>, number: i64) -> Answer {
    let index = usize::try_from(number).ok().and_then(|n| n.checked_sub(1));
    let Some(record) = list.as_ref().zip(index).and_then(|(list, index)| list.boxes.get(index)) else {
        return Answer::Misuse;
    };
    match boxes::fetch(record, &table.preamble.text, &table.line_text()) {
        Ok(bytes) => Answer::Bytes(bytes.to_vec()),
        Err(fault) => Answer::Fault(fault),
    }
}

fn perform_call(table: &mut Table, cell: &mut Option<Cell>, call: Call) -> Answer {
    match call {
        Call::Take => match table.take() {
            Ok(fresh) => {
                *cell = Some(fresh);
                Answer::Done
            }
            Err(fault) => Answer::Fault(fault),
        },
        Call::Rule => done(table.rule()),
        Call::Gap(length) => done(table.gap(length)),
        Call::Ask(column) => match table.ask(column) {
            Ok(None) => Answer::Void,
            Ok(Some(width)) => Answer::Width(width),
            Err(fault) => Answer::Fault(fault),
        },
        Call::Line(text) => match table.line(&text) {
            Ok(None) => Answer::End,
            Ok(Some(bytes)) => Answer::Line(bytes),
            Err(fault) => Answer::Fault(fault),
        },
        call => match *cell {
            Some(held) if allows(held.stage, &call) => row_call(table, cell, held, call),
            _ => Answer::Misuse,
        },
    }
}

/// Whether a cell of this stage allows a row call.
fn allows(stage: Stage, call: &Call) -> bool {
    match call {
        Call::GiveUp => true,
        Call::Omit | Call::Start => stage == Stage::Fresh,
        _ => stage == Stage::Begun,
    }
}

fn row_call(table: &mut Table, cell: &mut Option<Cell>, held: Cell, call: Call) -> Answer {
    let moved = match call {
        Call::Omit => table.omit(held).map(Some),
        Call::Start => table.start(held).map(Some),
        Call::Tab => table.tab(held).map(Some),
        Call::Span => table.span(held).map(Some),
        Call::Lay => table.lay(held).map(|()| None),
        Call::GiveUp => {
            table.give_up(held);
            Ok(None)
        }
        Call::Word(bytes) => table.put_word(held, &bytes).map(|()| Some(held)),
        Call::Space => table.put_space(held).map(|()| Some(held)),
        Call::Kern(length) => table.put_kern(held, length).map(|()| Some(held)),
        Call::Hfil => table.put_hfil(held).map(|()| Some(held)),
        Call::Take | Call::Rule | Call::Gap(_) | Call::Ask(_) | Call::Line(_) => return Answer::Misuse,
        Call::Set(..) | Call::Write(_) | Call::Fetch(_) => return Answer::Misuse,
    };
    match moved {
        Ok(next) => {
            *cell = next;
            Answer::Done
        }
        Err(fault) => Answer::Fault(fault),
    }
}

fn done(result: Result<(), Fault>) -> Answer {
    match result {
        Ok(()) => Answer::Done,
        Err(fault) => Answer::Fault(fault),
    }
}

pub fn lines_of(script: &[u8]) -> impl Iterator<Item = &[u8]> {
    script.split(|&b| b == b'\n')
}

/// Adds a line with its answer.
pub fn write_answer(out: &mut Vec<u8>, line: &[u8], answer: &Answer) {
    out.extend_from_slice(line);
    out.extend_from_slice(format!(" => {answer}\n").as_bytes());
}

/// The answers to a whole script.
pub fn perform(script: &[u8]) -> Vec<u8> {
    let mut session = Session::default();
    let mut out = vec![];
    for line in lines_of(script) {
        if let Some(answer) = session.line(line) {
            write_answer(&mut out, line, &answer);
        }
    }
    out
}

#[cfg(test)]
mod tests {
    use super::*;

    /// Performs the lines of a worked script and compares with the answers that it shows.
    fn worked(shown: &str) {
        let shown: Vec<&str> = shown.lines().map(str::trim_start).filter(|l| !l.is_empty()).collect();
        let asked = shown.iter().filter(|l| !l.starts_with("box => "));
        let script: Vec<&str> = asked.map(|l| l.split(" => ").next().unwrap_or("")).collect();
        let out = String::from_utf8(perform(script.join("\n").as_bytes())).unwrap();
        assert_eq!(out.lines().collect::<Vec<_>>(), shown);
    }

    /// Gaps of 2, 3 and 4 sp are 0.00003, 0.00005 and 0.00006pt.
    #[test]
    fn m1() {
        worked(
            r"preamble #\tabskip0.00003pt&#\tabskip0.00005pt&#\tabskip0.00006pt\cr => ok 59 3
            take => ok
            start => ok
            kern 10 => ok
            tab => ok
            start => ok
            kern 20 => ok
            lay => ok
            take => ok
            omit => ok
            kern 50 => ok
            span => ok
            start => ok
            ask 2 => ok 20
            lay => ok
            ask 1 => ok 10
            ask 2 => ok 38
            ask 3 => ok void
            ask 4 => fault 24 place 0 layer 2
            ask 0 => fault 24 place 0 layer 2",
        );
    }

    #[test]
    fn m2_and_m3() {
        worked(
            r"preamble #\tabskip0.00008pt&#\cr => ok 23 2
            take => ok
            start => ok
            kern 30 => ok
            span => ok
            omit => ok
            lay => ok
            ask 1 => ok void
            ask 2 => ok 30
            take => ok
            start => ok
            kern 40 => ok
            lay => ok
            ask 1 => ok 40
            ask 2 => ok -15",
        );
    }

    #[test]
    fn misuse_and_bad_input() {
        worked(
            r"take => bad input
            room 10 10 10 => bad input
            room 99999 99999 99999 99999 => ok
            gap0 0 0 3 => ok
            measurer twin 1 0 0 126 2 0 0 126 => ok
            preamble #\cr => ok 4 1
            preamble #\cr => bad input
            measurer mono 99999999 0 0 0 => bad input
            omit => misuse
            giveup => misuse
            word ab => misuse
            take => ok
            take => fault 21 place 0 layer 2
            rule => fault 21 place 0 layer 2
            gap -1 => fault 21 place 0 layer 2
            lay => misuse
            start => ok
            start => misuse
            omit => misuse
            word a b => fault 1 place 1 layer 1
            word ~\{}# => ok
            word-hex 4A7F => fault 1 place 1 layer 1
            word-hex 4A7 => bad input
            word-hex 4g => bad input
            kern 16777216 => fault 27 place 0 layer 2
            kern -16777215 => ok
            kern 1234567890123456789 => bad input
            kern +1 => bad input
            kern - => bad input
            kern => bad input
            lay 1 => bad input
            tab => fault 7 place 0 layer 2
            span => fault 7 place 0 layer 2
            lay => ok
            rule => ok
            gap 16777215 => ok
            gap 16777216 => fault 27 place 0 layer 2
            gap -1 => fault 27 place 0 layer 2
            ask 1 => ok -16777210 -16777205
            Take => bad input",
        );
    }

    #[test]
    fn set_write_and_fetch() {
        worked(
            r"set 1 natural 3 => bad input
            preamble #&#\cr => ok 6 2
            write 30 => misuse
            fetch 1 => misuse
            line ab&c\cr => ok 7
            line \span\omit d\cr => ok 15
            set 1 natural 2 => fault 26 place 0 layer 3
            write 30 => misuse
            set 1 natural 3 => ok 30 18 3
            box => 1 0 7 20 7 2 1 0 2
            box => 1 20 7 10 7 2 1 2 1
            box => 1 0 16 10 7 2 1 3 1
            take => ok
            write 30 => ok 1e1203010007280702010002012807140702010201010010140702010301
            write 29 => fault 26 place 0 layer 3
            fetch 1 => ok 6162
            fetch 3 => ok 64
            fetch 4 => misuse
            fetch 0 => misuse
            fetch -1 => misuse
            giveup => ok
            set 1 31 9 => fault 23 place 0 layer 3
            set 2 natural 0 => fault 24 place 0 layer 3
            set -1 natural 0 => fault 24 place 0 layer 3
            set 1 30 0 => fault 26 place 0 layer 3
            fetch 3 => ok 64",
        );
    }

    #[test]
    fn a_rule_is_listed_and_not_fetched() {
        worked(
            r"preamble a#\tabskip 0pt plus 1fil\cr => ok 27 1
            line b\cr => ok 4
            rule => ok
            set  1  300  999999999999999999  => ok 300 26223 3
            box => 1 0 7 10 7 2 0 0 1
            box => 1 10 7 10 7 2 1 0 1
            box => 2 0 26223 300 26214 0 0 0 0
            fetch 1 => ok 61
            fetch 2 => ok 62
            fetch 3 => fault 28 place 0 layer 3
            line c\cr => ok 4
            fetch 2 => ok 62
            write 999999999999999999 => ok ac02efcc01030100071407020000010114071407020100010200efcc01d804e6cc0100",
        );
    }

    #[test]
    fn sets_that_cannot_be_read() {
        worked(
            r"preamble #\cr => ok 4 1
            set 1 natural -1 => bad input
            set 1 natural => bad input
            set natural 1 5 => bad input
            set 1 Natural 5 => bad input
            set 1 30 5 5 => bad input
            set 1 1234567890123456789 5 => bad input
            write -1 => bad input
            write => bad input
            write 1 1 => bad input
            fetch x => bad input
            fetch => bad input
            fetch -0 => misuse
            set -0 -0 -0 => fault 24 place 0 layer 3
            set 1 -0 -0 => ok 0 0 0
            write -0 => fault 26 place 0 layer 3
            write 3 => ok 000000
            fetch 1 => misuse",
        );
    }

    #[test]
    fn a_refusal_ends_the_run() {
        worked("measurer mono 1 1 1 31 => fault 27 place 0 layer 4");
        assert_eq!(perform(b"measurer mono 1 1 1 31\ntake\nfoo"), b"measurer mono 1 1 1 31 => fault 27 place 0 layer 4\n");
        assert_eq!(perform(b"preamble ##\ntake\n"), b"preamble ## => fault 6 place 1 layer 2\n");
        assert_eq!(perform(b"gap0 0 0 4\npreamble $\n"), b"gap0 0 0 4 => ok\npreamble $ => fault 27 place 0 layer 2\n");
        assert_eq!(perform(b"preamble \n"), b"preamble  => fault 8 place 0 layer 2\n");
        assert_eq!(perform(b"preamble-hex 235C63720A20\n"), b"preamble-hex 235C63720A20 => ok 6 1\n");
    }

    #[test]
    fn lines_that_are_passed_over() {
        assert_eq!(perform(b"\n   \n; take\n;\n\n"), b"");
        assert_eq!(perform(b"take\r"), b"take\r => bad input\n");
        assert_eq!(perform(b"\xff\x00"), b"\xff\x00 => bad input\n");
        assert_eq!(perform(b""), b"");
    }

    #[test]
    fn any_bytes_are_answered() {
        let mut rng = crate::random::Rng::new(3);
        for _ in 0..3_000 {
            let script: Vec<u8> = (0..rng.below(300)).map(|_| (rng.draw() & 0xff) as u8).collect();
            perform(&script);
            let text: Vec<u8> = (0..rng.below(60)).map(|_| rng.pick(b'#', b"\\crhspankern&{} 19.pt-\n\xff$")).collect();
            perform(&[b"preamble ".as_slice(), &text, b"\ntake\nstart\nlay\nask 1"].concat());
        }
    }
}
