//! What a script met: causes by call, and features.

use crate::faults::Fault;
use crate::lengths::G;
use crate::measure::Measurer;
use crate::preamble::MOST_PART_ITEMS;
use crate::script::{lines_of, read_line, write_answer, Answer, Call, Order, Session};
use crate::set_tally::{note_set_calls, note_set_fault};
use crate::table::{Entry, Line, Table, K};
use std::collections::BTreeMap;

#[derive(Clone, Debug, Default, PartialEq, Eq)]
pub struct Tally(BTreeMap<String, u64>);

impl Tally {
    pub fn add(&mut self, what: &str) {
        *self.0.entry(what.to_string()).or_default() += 1;
    }

    pub fn add_if(&mut self, met: bool, what: &str) {
        if met {
            self.add(what);
        }
    }

    pub fn join(&mut self, other: &Tally) {
        for (what, count) in &other.0 {
            *self.0.entry(what.clone()).or_default() += count;
        }
    }

    pub fn count(&self, what: &str) -> u64 {
        self.0.get(what).copied().unwrap_or(0)
    }

    pub fn print(&self) {
        for (what, count) in &self.0 {
            println!("{count:>10}  {what}");
        }
    }
}

/// The answers to a script, as `script::perform` gives them, and what it met.
pub fn perform_counted(script: &[u8]) -> (Vec<u8>, Tally) {
    let mut session = Session::default();
    let mut out = vec![];
    let mut tally = Tally::default();
    tally.add("scripts");
    for line in lines_of(script) {
        let in_hand = session.cell().is_some();
        let was_over = session.over();
        match session.line(line) {
            Some(answer) => {
                write_answer(&mut out, line, &answer);
                note(&mut tally, &session, line, &answer, in_hand);
            }
            None => tally.add(if was_over { "lines behind a run's end" } else { "lines passed over" }),
        }
    }
    if let Some(table) = session.table() {
        note_table(&mut tally, table);
    }
    (out, tally)
}

fn note(tally: &mut Tally, session: &Session, line: &[u8], answer: &Answer, in_hand: bool) {
    tally.add("lines answered");
    let name = command_of(line);
    match answer {
        Answer::Fault(fault) => {
            tally.add(&fault_name(fault, &name));
            note_set_fault(tally, session, line, fault);
        }
        Answer::Misuse => tally.add(&format!("misuse: {name}")),
        Answer::BadInput => tally.add("bad input"),
        Answer::Void => tally.add("ask: void"),
        Answer::Width(sides) => note_width(tally, sides, in_hand),
        Answer::Read { columns, .. } => note_preamble(tally, session, *columns),
        Answer::End => tally.add("line: only spaces"),
        Answer::Line(_) => note_line(tally, session, line),
        Answer::Set(_) | Answer::Bytes(_) => note_set_calls(tally, session, line, answer, in_hand),
        Answer::Done => note_done(tally, session, line),
    }
}

fn command_of(line: &[u8]) -> String {
    let name = line.split(|&b| b == b' ').find(|word| !word.is_empty()).unwrap_or(&[]);
    name.escape_ascii().to_string()
}

fn fault_name(fault: &Fault, name: &str) -> String {
    let cause = fault.cause;
    format!("fault {:>2} layer {} {cause:?}: {}", cause.number(), cause.layer(), name.trim_end_matches("-hex"))
}

fn note_width(tally: &mut Tally, sides: &[i64], in_hand: bool) {
    tally.add("ask: a width");
    tally.add_if(sides.len() == 2, "ask: a width on two sides");
    tally.add_if(sides.first() != sides.last(), "ask: sides that differ");
    tally.add_if(sides.iter().any(|&w| w < 0), "ask: a negative width");
    tally.add_if(sides.iter().any(|&w| w.abs() > K), "ask: a width outside K");
    tally.add_if(in_hand, "ask: with a row in hand");
}

fn note_preamble(tally: &mut Tally, session: &Session, columns: usize) {
    tally.add("preamble accepted");
    tally.add_if(matches!(session.measurer(), Measurer::Twin(..)), "preamble accepted, twin measurer");
    tally.add_if(columns == 32, "preamble of 32 columns");
    if let Some(table) = session.table() {
        let full = |len: usize| len == MOST_PART_ITEMS;
        let any = table.preamble.columns.iter().any(|c| full(c.u.len()) || full(c.v.len()));
        tally.add_if(any, "preamble with a part of 64 items");
        let negative = table.preamble.columns.iter().any(|c| c.gap.natural < 0);
        tally.add_if(negative, "preamble with a negative gap");
    }
}

fn note_done(tally: &mut Tally, session: &Session, line: &[u8]) {
    match read_line(line) {
        Some(Order::Call(call)) => note_call(tally, session, &call),
        Some(Order::Twin(..)) => tally.add("ok: measurer twin"),
        Some(Order::Mono(_)) => tally.add("ok: measurer mono"),
        _ => tally.add(&format!("ok: {}", command_of(line))),
    }
}

fn note_call(tally: &mut Tally, session: &Session, call: &Call) {
    let name = format!("{call:?}").to_lowercase();
    tally.add(&format!("ok: {}", name.split('(').next().unwrap_or("")));
    match call {
        Call::Word(bytes) => tally.add_if(bytes.len() == 255, "ok: word of 255 bytes"),
        Call::Kern(length) => tally.add_if(length.abs() == G, "ok: kern at a limit"),
        Call::Gap(length) => tally.add_if(*length == G, "ok: gap at its limit"),
        Call::Lay => {
            if let Some((table, Line::Row(entries))) = session.table().and_then(|t| Some((t, t.lines.last()?))) {
                entries.iter().for_each(|entry| note_entry(tally, table, entry));
            }
        }
        _ => {}
    }
}

fn note_line(tally: &mut Tally, session: &Session, line: &[u8]) {
    let text = match read_line(line) {
        Some(Order::Call(Call::Line(text))) => text,
        _ => vec![],
    };
    let Some((table, laid)) = session.table().and_then(|t| Some((t, t.lines.last()?))) else {
        return;
    };
    match laid {
        Line::Rule => tally.add("line: a rule"),
        Line::Gap(_) => tally.add("line: a gap"),
        Line::Row(entries) => {
            tally.add("line: a row");
            tally.add_if(entries.last().is_some_and(|e| e.last + 1 < table.columns()), "line: a row that ends early");
            let omits = text.windows(5).any(|part| part == b"\\omit");
            tally.add_if(omits, "line: a row with \\omit");
            entries.iter().for_each(|entry| note_entry(tally, table, entry));
        }
    }
}

fn note_entry(tally: &mut Tally, table: &Table, entry: &Entry) {
    let columns = entry.last - entry.first + 1;
    tally.add("entries laid");
    tally.add_if(columns > 1, "entries over two columns or more");
    tally.add_if(columns > 8, "entries over nine columns or more");
    tally.add_if(columns == 32, "entries over 32 columns");
    let natural = table.natural(entry);
    tally.add_if(natural.iter().any(|&w| w < 0), "entries of negative width");
    tally.add_if(natural.iter().any(|&w| w.abs() == K), "entries of exactly the largest size");
}

fn note_table(tally: &mut Tally, table: &Table) {
    tally.add_if(!table.lines.is_empty(), "tables with a line");
    tally.add_if(table.laid_entries().count() >= 10, "tables with ten entries or more");
    let voids = table.widths().iter().filter(|w| w.is_none()).count();
    tally.add_if(voids > 0 && voids < table.columns(), "tables with void and other columns");
    let used = table.used();
    tally.add_if(table.lines.len() == table.room.lines, "tables with all lines used");
    tally.add_if(used.items == table.room.items, "tables with all items used");
    tally.add_if(used.entries == table.room.entries, "tables with all entries used");
    tally.add_if(used.text == table.room.text, "tables with all text used");
}

#[cfg(test)]
mod tests {
    use super::*;
    use crate::generate::{script, Kind};

    #[test]
    fn counting_changes_no_answer() {
        for seed in 0..300 {
            let script = script(Kind::Script, seed);
            assert_eq!(perform_counted(&script).0, crate::script::perform(&script));
        }
    }

    /// Generated scripts meet every cause that a script can meet, and every feature that is named here.
    #[test]
    fn scripts_meet_everything() {
        let mut all = Tally::default();
        for seed in 0..12_000 {
            all.join(&perform_counted(&script(Kind::Script, seed)).1);
        }
        let names: Vec<&str> = all.0.keys().map(String::as_str).collect();
        let wanted = [
            "fault  1 layer 1 BadByte: preamble", "fault  1 layer 1 BadByte: word",
            "fault  2 layer 1 UnknownControl: preamble", "fault  3 layer 1 BadLength: preamble",
            "fault  5 layer 2 Misplaced: preamble", "fault  6 layer 2 TemplateMark: preamble",
            "fault  7 layer 2 TooManyColumns: preamble", "fault  7 layer 2 TooManyColumns: tab",
            "fault  7 layer 2 TooManyColumns: span", "fault  8 layer 2 TextOver: preamble",
            "fault  9 layer 1 WordLength: preamble", "fault  9 layer 1 WordLength: word",
            "fault 10 layer 2 EntryTooWide: start", "fault 10 layer 2 EntryTooWide: word",
            "fault 10 layer 2 EntryTooWide: kern", "fault 10 layer 2 EntryTooWide: space",
            "fault 21 layer 2 RowInHand: take", "fault 21 layer 2 RowInHand: rule", "fault 21 layer 2 RowInHand: gap",
            "fault 22 layer 2 Full(Part): preamble", "fault 22 layer 2 Full(Items): take",
            "fault 22 layer 2 Full(Items): tab", "fault 22 layer 2 Full(Items): span",
            "fault 22 layer 2 Full(Items): word", "fault 22 layer 2 Full(Items): kern",
            "fault 22 layer 2 Full(Items): space", "fault 22 layer 2 Full(Items): hfil",
            "fault 22 layer 2 Full(Entries): take", "fault 22 layer 2 Full(Entries): tab",
            "fault 22 layer 2 Full(Lines): take", "fault 22 layer 2 Full(Lines): rule",
            "fault 22 layer 2 Full(Lines): gap", "fault 22 layer 2 Full(Text): word",
            "fault 24 layer 2 NoSuchColumn: ask", "fault 27 layer 2 OutOfRange: preamble",
            "fault 27 layer 2 OutOfRange: kern", "fault 27 layer 2 OutOfRange: gap",
            "fault 27 layer 4 MeasurerRange: measurer", "fault 41 layer 4 NoCharacter: preamble",
            "fault 41 layer 4 NoCharacter: word", "bad input", "ask: void", "ask: a negative width",
            "ask: sides that differ", "ask: with a row in hand", "entries over 32 columns",
            "entries of exactly the largest size", "preamble with a part of 64 items",
            "preamble with a negative gap", "tables with void and other columns", "tables with all items used",
            "tables with all entries used", "tables with all lines used", "tables with all text used",
            "ok: word of 255 bytes", "ok: kern at a limit", "ok: gap at its limit", "misuse: omit", "misuse: giveup",
            "lines behind a run's end", "lines passed over",
        ];
        let missing: Vec<&&str> = wanted.iter().filter(|w| all.count(w) == 0).collect();
        assert!(missing.is_empty(), "missing: {missing:#?}\nmet: {names:#?}");
        let scripts = all.count("scripts");
        assert!(all.count("preamble accepted") * 4 > scripts * 3);
        assert!(all.count("tables with a line") * 10 > scripts * 6);
    }

    /// Generated sets meet every cause of set, write and fetch, and every feature that is named here.
    #[test]
    fn sets_meet_everything() {
        let mut all = Tally::default();
        for seed in 0..3_000 {
            let script = script(Kind::Sets, seed);
            let (out, met) = perform_counted(&script);
            assert_eq!(out, crate::script::perform(&script));
            all.join(&met);
        }
        let mut wanted: Vec<String> = [
            "fault 23 layer 3 CannotSet: set", "fault 24 layer 3 NoSuchSide: set", "fault 26 layer 3 TooLittleRoom: set",
            "fault 26 layer 3 TooLittleRoom: write", "fault 28 layer 3 BadBox: fetch", "misuse: write", "misuse: fetch",
            "set: with a row in hand", "set: as many records as boxes", "set: naturally", "set: no box", "set: a rule",
            "set: a word left of the table", "set: a word right of the table", "set: a template's word", "set: a cell's word",
            "set: to the largest width", "set: higher than the largest width", "set: the second side",
            "set: sides that differ", "set: to the natural width as a number", "set: gaps of a lower order do not stretch",
            "set: a higher order without a stretch", "set: three gaps or more share",
            "set: gaps grow by a part that is cut", "set: a void column with a stretch behind it",
            "set: words and fills that grow, the first item one", "set: words and fills that grow, the last item one",
            "set: words and fills that grow, the first and last item one", "set: words and fills that grow, three or more",
            "set: words and fills that grow by a part that is cut", "set: an entry over two columns or more",
            "set: an entry over gaps that grow", "write: accepted", "write: as many bytes as needed",
            "write: of no box, in three bytes", "set: one record too few", "write: one byte too few",
            "fault 23: N below zero", "fault 23: N above the largest", "fault 23: T above the largest",
            "fault 23: T below N", "fault 23: nothing to stretch", "fault 23: T one below N", "fault 23: nothing to stretch by one",
            "fault 23: T one above the largest",
            "fault 23: N one above the largest", "fault 23: N one below zero",
            "fetch: from the preamble text", "fetch: from the line text",
        ]
        .map(String::from)
        .into();
        wanted.extend((0..4).map(|order| format!("set: gaps of order {order} share what is left over")));
        let missing: Vec<&String> = wanted.iter().filter(|w| all.count(w) == 0).collect();
        assert!(missing.is_empty(), "missing: {missing:#?}");
        assert_eq!(all.count("set: an entry without room"), 0);
        assert_eq!(all.count("fault 28 layer 3 BadBox: write"), 0);
        assert!(all.count("set: accepted") > 3 * all.count("scripts"));
    }

    /// Generated lines meet every cause that a line can meet, and every feature that is named here.
    #[test]
    fn lines_meet_everything() {
        let mut all = Tally::default();
        for seed in 0..3_000 {
            let script = script(Kind::Lines, seed);
            let (out, met) = perform_counted(&script);
            assert_eq!(out, crate::script::perform(&script));
            all.join(&met);
        }
        let wanted = [
            "fault  1 layer 1 BadByte: line", "fault  2 layer 1 UnknownControl: line", "fault  3 layer 1 BadLength: line",
            "fault  5 layer 2 Misplaced: line", "fault  7 layer 2 TooManyColumns: line", "fault  8 layer 2 TextOver: line",
            "fault  9 layer 1 WordLength: line", "fault 10 layer 2 EntryTooWide: line", "fault 21 layer 2 RowInHand: line",
            "fault 22 layer 2 Full(Items): line", "fault 22 layer 2 Full(Entries): line",
            "fault 22 layer 2 Full(Lines): line", "fault 22 layer 2 Full(Text): line", "fault 41 layer 4 NoCharacter: line",
            "line: a gap", "line: a row", "line: a row that ends early", "line: a row with \\omit", "line: a rule",
            "line: only spaces", "entries over 32 columns", "entries of exactly the largest size", "ok: lay", "ok: rule",
            "tables with all items used", "tables with all entries used", "tables with all lines used",
            "tables with all text used",
        ];
        let missing: Vec<&&str> = wanted.iter().filter(|w| all.count(w) == 0).collect();
        assert!(missing.is_empty(), "missing: {missing:#?}");
        assert!(all.count("line: a row") > 5 * all.count("scripts"));
    }
}
