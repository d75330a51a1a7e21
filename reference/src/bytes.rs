//! Numbers and lists as bytes (docs/FORMAT.md, 'Numbers as bytes', 'The list as bytes' and '`write(list, out)`').

use crate::boxes::{BoxList, BoxRecord, Kind};
use crate::faults::{Cause, Fault};

/// The largest size of a number that is written.
const LARGEST: i64 = 1 << 40;

/// The bytes of a list, if a host that lends so many bytes has room for them: 28, then 26.
pub fn write(list: &BoxList, room: usize) -> Result<Vec<u8>, Fault> {
    let boxes = i64::try_from(list.boxes.len()).map_err(|_| Cause::BadBox.at(0))?;
    let mut out = vec![];
    for number in [list.width, list.height, boxes] {
        put_plain(&mut out, number)?;
    }
    for record in &list.boxes {
        put_box(&mut out, record)?;
    }
    if out.len() > room {
        return Err(Cause::TooLittleRoom.at(0));
    }
    Ok(out)
}

fn put_box(out: &mut Vec<u8>, record: &BoxRecord) -> Result<(), Fault> {
    put_plain(out, record.kind.number())?;
    put_signed(out, record.x)?;
    put_plain(out, record.y)?;
    put_signed(out, record.width)?;
    put_plain(out, record.height)?;
    put_plain(out, record.depth)?;
    if record.kind == Kind::Word {
        put_plain(out, record.store.number())?;
        put_plain(out, record.place)?;
        put_plain(out, record.len)?;
    }
    Ok(())
}

fn put_plain(out: &mut Vec<u8>, n: i64) -> Result<(), Fault> {
    if !(0..=LARGEST).contains(&n) {
        return Err(Cause::BadBox.at(0));
    }
    put_groups(out, n.unsigned_abs());
    Ok(())
}

/// n as 2n, or as −2n − 1 below zero.
fn put_signed(out: &mut Vec<u8>, n: i64) -> Result<(), Fault> {
    if !(-LARGEST..=LARGEST).contains(&n) {
        return Err(Cause::BadBox.at(0));
    }
    let doubled = 2 * n.unsigned_abs();
    put_groups(out, if n < 0 { doubled - 1 } else { doubled });
    Ok(())
}

/// Groups of seven bits, the lowest first; the top bit is set on all but the last.
fn put_groups(out: &mut Vec<u8>, n: u64) {
    let mut rest = n;
    while rest >= 128 {
        out.push((rest % 128 + 128) as u8);
        rest /= 128;
    }
    out.push(rest as u8);
}

#[cfg(test)]
mod tests {
    use super::*;
    use crate::boxes::Store;
    use crate::spelling::hex;

    fn spelled(put: impl Fn(&mut Vec<u8>) -> Result<(), Fault>) -> String {
        let mut out = vec![];
        match put(&mut out) {
            Ok(()) => hex(&out),
            Err(fault) => fault.to_string(),
        }
    }

    #[test]
    fn numbers() {
        let plain = |n| spelled(|out| put_plain(out, n));
        assert_eq!([0, 127, 128, 300].map(plain), ["00", "7F", "8001", "AC02"]);
        assert_eq!(plain(LARGEST), "808080808020");
        assert_eq!(plain(LARGEST + 1), "fault 28 place 0 layer 3");
        assert_eq!(plain(-1), "fault 28 place 0 layer 3");
        let signed = |n| spelled(|out| put_signed(out, n));
        assert_eq!([0, -1, 1, -2, 2].map(signed), ["00", "01", "02", "03", "04"]);
        assert_eq!(signed(LARGEST), "808080808040");
        assert_eq!(signed(-LARGEST), "FFFFFFFFFF3F");
        assert_eq!(signed(LARGEST + 1), "fault 28 place 0 layer 3");
        assert_eq!(signed(-LARGEST - 1), "fault 28 place 0 layer 3");
        assert_eq!(signed(i64::MIN), "fault 28 place 0 layer 3");
    }

    fn word(x: i64, y: i64, width: i64, place: i64, len: i64) -> BoxRecord {
        BoxRecord { kind: Kind::Word, x, y, width, height: 7, depth: 2, store: Store::Lines, place, len }
    }

    /// The list that FORMAT.md shows.
    #[test]
    fn three_words_on_two_lines() {
        let boxes = vec![word(0, 7, 20, 0, 2), word(20, 7, 10, 2, 1), word(0, 16, 10, 3, 1)];
        let list = BoxList { width: 30, height: 18, boxes };
        let wanted = "1E1203010007280702010002012807140702010201010010140702010301";
        assert_eq!(write(&list, 30).map(|bytes| hex(&bytes)), Ok(wanted.into()));
        assert_eq!(write(&list, 99).map(|bytes| hex(&bytes)), Ok(wanted.into()));
        assert_eq!(write(&list, 29), Err(Cause::TooLittleRoom.at(0)));
        assert_eq!(write(&BoxList { width: -1, ..list.clone() }, 0), Err(Cause::BadBox.at(0)));
        let boxes = vec![word(0, -1, 20, 0, 2)];
        assert_eq!(write(&BoxList { boxes, ..list }, 0), Err(Cause::BadBox.at(0)));
    }

    #[test]
    fn a_rule_and_nothing() {
        let rule = BoxRecord { kind: Kind::Rule, ..word(0, 26_214, 300, -5, -5) };
        let list = BoxList { width: 300, height: 26_214, boxes: vec![rule] };
        assert_eq!(write(&list, 99).map(|bytes| hex(&bytes)), Ok("AC02E6CC01010200E6CC01D8040702".into()));
        assert_eq!(write(&BoxList { width: 0, height: 0, boxes: vec![] }, 3), Ok(vec![0, 0, 0]));
    }
}
