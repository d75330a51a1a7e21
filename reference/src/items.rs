//! Items of templates and cells.

use crate::measure::Extent;

#[derive(Clone, Debug, PartialEq, Eq)]
pub struct Item {
    pub width: Extent,
    pub kind: Kind,
}

#[derive(Clone, Debug, PartialEq, Eq)]
pub enum Kind {
    /// A space or a kern.
    Blank,
    Fill,
    /// A template's word: where it stands in the preamble text.
    Template { place: usize, len: usize },
    /// A cell's word: its bytes, which go to the line text.
    Cell(Vec<u8>),
}

impl Item {
    pub fn blank(width: Extent) -> Item {
        Item { width, kind: Kind::Blank }
    }

    pub fn fill(no_width: Extent) -> Item {
        Item { width: no_width, kind: Kind::Fill }
    }

    pub fn template_word(width: Extent, place: usize, len: usize) -> Item {
        Item { width, kind: Kind::Template { place, len } }
    }

    pub fn cell_word(width: Extent, bytes: &[u8]) -> Item {
        Item { width, kind: Kind::Cell(bytes.to_vec()) }
    }

    pub fn is_fill(&self) -> bool {
        self.kind == Kind::Fill
    }

    pub fn is_word(&self) -> bool {
        matches!(self.kind, Kind::Template { .. } | Kind::Cell(_))
    }

    /// The bytes that it adds to the line text.
    pub fn text(&self) -> &[u8] {
        match &self.kind {
            Kind::Cell(bytes) => bytes,
            Kind::Blank | Kind::Fill | Kind::Template { .. } => &[],
        }
    }
}
