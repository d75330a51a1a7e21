//! What was met where tables are set, lists written and words fetched.

use crate::boxes::{BoxList, Kind, Store};
use crate::bytes::write;
use crate::faults::{Cause, Fault};
use crate::lengths::Gap;
use crate::script::{read_line, Answer, Call, Order, Session};
use crate::setting::{Columns, Edges, Wanted};
use crate::table::{Entry, Table, K};
use crate::tally::Tally;

/// An accepted set, write or fetch.
pub fn note_set_calls(tally: &mut Tally, session: &Session, line: &[u8], answer: &Answer, in_hand: bool) {
    let Some(Order::Call(call)) = read_line(line) else {
        return;
    };
    match (call, answer) {
        (Call::Set(side, wanted, records), Answer::Set(list)) => {
            tally.add("set: accepted");
            tally.add_if(in_hand, "set: with a row in hand");
            tally.add_if(records == list.boxes.len(), "set: as many records as boxes");
            tally.add_if(wanted == Wanted::Natural, "set: naturally");
            if let (Some(table), Ok(side)) = (session.table(), usize::try_from(side - 1)) {
                note_list(tally, list);
                note_columns(tally, table, side, wanted, list.width);
            }
        }
        (Call::Write(room), Answer::Bytes(bytes)) => {
            tally.add("write: accepted");
            tally.add_if(room == bytes.len(), "write: as many bytes as needed");
            tally.add_if(bytes.len() == 3, "write: of no box, in three bytes");
        }
        (Call::Fetch(number), Answer::Bytes(_)) => note_fetch(tally, session, number),
        _ => {}
    }
}

/// Why a set or a write was refused.
pub fn note_set_fault(tally: &mut Tally, session: &Session, line: &[u8], fault: &Fault) {
    let Some((Order::Call(call), table)) = read_line(line).zip(session.table()) else {
        return;
    };
    match call {
        Call::Set(side, wanted, records) => match fault.cause {
            Cause::CannotSet => note_cannot(tally, table, side, wanted),
            Cause::TooLittleRoom => tally.add_if(records + 1 == table.boxes(), "set: one record too few"),
            _ => {}
        },
        Call::Write(room) => {
            let bytes = session.list().and_then(|list| write(list, usize::MAX).ok());
            tally.add_if(bytes.is_some_and(|bytes| bytes.len() == room + 1), "write: one byte too few");
        }
        _ => {}
    }
}

fn note_cannot(tally: &mut Tally, table: &Table, side: i64, wanted: Wanted) {
    let natural = table.columns_on(usize::from(side == 2)).natural();
    let (what, by) = match wanted {
        _ if natural < 0 => ("N", natural),
        Wanted::Natural => ("N", natural - K),
        Wanted::Width(width) if natural > K && width >= natural => ("N", natural - K),
        Wanted::Width(width) if width > K => ("T", width - K),
        Wanted::Width(width) if width < natural => ("T below N", natural - width),
        Wanted::Width(width) => ("nothing to stretch", width - natural),
    };
    tally.add(&match (what, by) {
        ("N" | "T", 1) => format!("fault 23: {what} one above the largest"),
        ("N", -1) => "fault 23: N one below zero".into(),
        ("T below N", 1) => "fault 23: T one below N".into(),
        ("nothing to stretch", 1) => "fault 23: nothing to stretch by one".into(),
        ("N", _) if by < 0 => "fault 23: N below zero".into(),
        ("N" | "T", _) => format!("fault 23: {what} above the largest"),
        _ => format!("fault 23: {what}"),
    });
}

fn note_fetch(tally: &mut Tally, session: &Session, number: i64) {
    let index = usize::try_from(number - 1).unwrap_or(usize::MAX);
    match session.list().and_then(|list| list.boxes.get(index)).map(|record| record.store) {
        Some(Store::Preamble) => tally.add("fetch: from the preamble text"),
        Some(Store::Lines) => tally.add("fetch: from the line text"),
        None => {}
    }
}

fn note_list(tally: &mut Tally, list: &BoxList) {
    let words = list.boxes.iter().filter(|record| record.kind == Kind::Word);
    let any = |passes: fn(&crate::boxes::BoxRecord) -> bool| list.boxes.iter().any(passes);
    tally.add_if(list.boxes.is_empty(), "set: no box");
    tally.add_if(list.boxes.len() > 1_000, "set: more than a thousand boxes");
    tally.add_if(any(|record| record.kind == Kind::Rule), "set: a rule");
    tally.add_if(any(|record| record.x < 0), "set: a word left of the table");
    tally.add_if(words.clone().any(|record| record.x + record.width > list.width), "set: a word right of the table");
    tally.add_if(words.clone().any(|record| record.store == Store::Preamble), "set: a template's word");
    tally.add_if(words.clone().any(|record| record.store == Store::Lines), "set: a cell's word");
    tally.add_if(list.width == K, "set: to the largest width");
    tally.add_if(list.height > K, "set: higher than the largest width");
}

fn note_columns(tally: &mut Tally, table: &Table, side: usize, wanted: Wanted, width: i64) {
    let columns = table.columns_on(side);
    let left_over = width - columns.natural();
    tally.add_if(side == 1, "set: the second side");
    tally.add_if(side == 1 && table.columns_on(0) != columns, "set: sides that differ");
    tally.add_if(wanted != Wanted::Natural && left_over == 0, "set: to the natural width as a number");
    note_gaps(tally, &columns, left_over);
    note_voids(tally, table);
    let edges = columns.edges(left_over);
    let unset = columns.edges(0);
    for entry in table.laid_entries() {
        let natural = table.natural(entry).get(side).copied().unwrap_or(0);
        note_fills(tally, entry, edges.between(entry.first, entry.last) - natural);
        note_span(tally, entry, &edges, &unset);
    }
}

fn note_gaps(tally: &mut Tally, columns: &Columns, left_over: i64) {
    let Some(order) = columns.order().filter(|_| left_over > 0) else {
        return;
    };
    tally.add(&format!("set: gaps of order {order} share what is left over"));
    let sharing: Vec<&Gap> = columns.gaps.iter().filter(|gap| gap.order == order && gap.stretch > 0).collect();
    let lower = columns.gaps.iter().any(|gap| gap.order < order && gap.stretch > 0);
    tally.add_if(lower, "set: gaps of a lower order do not stretch");
    let empty = columns.gaps.iter().any(|gap| gap.order > order && gap.stretch == 0);
    tally.add_if(empty, "set: a higher order without a stretch");
    tally.add_if(sharing.len() > 2, "set: three gaps or more share");
    let whole: i128 = sharing.iter().map(|gap| i128::from(gap.stretch)).sum();
    let mut so_far = 0;
    let rounded = sharing.iter().any(|gap| {
        so_far += i128::from(gap.stretch);
        i128::from(left_over) * so_far % whole != 0
    });
    tally.add_if(rounded, "set: gaps grow by a part that is cut");
}

fn note_voids(tally: &mut Tally, table: &Table) {
    let widths = table.widths();
    let any = table.preamble.columns.iter().zip(&widths).any(|(c, width)| width.is_none() && c.gap.stretch > 0);
    tally.add_if(any, "set: a void column with a stretch behind it");
}

/// Of an entry that has so much more room than it needs.
fn note_fills(tally: &mut Tally, entry: &Entry, left_over: i64) {
    tally.add_if(left_over < 0, "set: an entry without room");
    let fills = entry.items.iter().filter(|item| item.is_fill()).count();
    if fills == 0 || left_over <= 0 || !entry.items.iter().any(|item| item.is_word()) {
        return;
    }
    tally.add("set: words and fills that grow");
    let first = entry.items.first().is_some_and(|item| item.is_fill());
    let last = entry.items.last().is_some_and(|item| item.is_fill());
    tally.add_if(first && !last, "set: words and fills that grow, the first item one");
    tally.add_if(last && !first, "set: words and fills that grow, the last item one");
    tally.add_if(first && last, "set: words and fills that grow, the first and last item one");
    tally.add_if(fills > 2, "set: words and fills that grow, three or more");
    tally.add_if(left_over % fills as i64 != 0, "set: words and fills that grow by a part that is cut");
}

fn note_span(tally: &mut Tally, entry: &Entry, edges: &Edges, unset: &Edges) {
    let (first, last) = (entry.first, entry.last);
    tally.add_if(first < last, "set: an entry over two columns or more");
    tally.add_if(edges.between(first, last) > unset.between(first, last), "set: an entry over gaps that grow");
}
