//! A second program for the table setter, in ordinary Rust, written from the documentation alone.
//! What it answers to a script of calls is compared with what the proved program answers.

pub mod boxes;
pub mod bytes;
pub mod compare;
pub mod faults;
pub mod generate;
pub mod items;
pub mod lengths;
pub mod lines;
pub mod measure;
pub mod preamble;
pub mod random;
pub mod reading;
pub mod row_texts;
pub mod script;
pub mod set_tally;
pub mod setting;
pub mod shrink;
pub mod spelling;
pub mod table;
pub mod tally;
pub mod texts;
pub mod widths;
