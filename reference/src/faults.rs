//! Faults: a cause, a place, a layer (docs/FAULTS.md).

use std::fmt;

/// What was full. Only the count of causes looks at it; the fault prints as 22 all the same.
#[derive(Clone, Copy, Debug, PartialEq, Eq)]
pub enum Filled {
    Items,
    Part,
    Entries,
    Lines,
    Text,
}

#[derive(Clone, Copy, Debug, PartialEq, Eq)]
pub enum Cause {
    BadByte,
    UnknownControl,
    BadLength,
    Misplaced,
    TemplateMark,
    TooManyColumns,
    TextOver,
    WordLength,
    EntryTooWide,
    RowInHand,
    Full(Filled),
    CannotSet,
    NoSuchColumn,
    NoSuchSide,
    TooLittleRoom,
    OutOfRange,
    MeasurerRange,
    BadBox,
    NoCharacter,
}

impl Cause {
    pub fn number(self) -> u32 {
        match self {
            Cause::BadByte => 1,
            Cause::UnknownControl => 2,
            Cause::BadLength => 3,
            Cause::Misplaced => 5,
            Cause::TemplateMark => 6,
            Cause::TooManyColumns => 7,
            Cause::TextOver => 8,
            Cause::WordLength => 9,
            Cause::EntryTooWide => 10,
            Cause::RowInHand => 21,
            Cause::Full(_) => 22,
            Cause::CannotSet => 23,
            Cause::NoSuchColumn | Cause::NoSuchSide => 24,
            Cause::TooLittleRoom => 26,
            Cause::OutOfRange | Cause::MeasurerRange => 27,
            Cause::BadBox => 28,
            Cause::NoCharacter => 41,
        }
    }

    /// 1 reader, 2 alignment, 3 packer, 4 measurer.
    pub fn layer(self) -> u32 {
        match self {
            Cause::BadByte | Cause::UnknownControl | Cause::BadLength | Cause::WordLength => 1,
            Cause::CannotSet | Cause::NoSuchSide | Cause::TooLittleRoom | Cause::BadBox => 3,
            Cause::MeasurerRange | Cause::NoCharacter => 4,
            _ => 2,
        }
    }

    pub fn at(self, place: usize) -> Fault {
        Fault { cause: self, place }
    }
}

#[derive(Clone, Copy, Debug, PartialEq, Eq)]
pub struct Fault {
    pub cause: Cause,
    pub place: usize,
}

impl fmt::Display for Fault {
    fn fmt(&self, f: &mut fmt::Formatter<'_>) -> fmt::Result {
        write!(f, "fault {} place {} layer {}", self.cause.number(), self.place, self.cause.layer())
    }
}
