//! The rules of the tracing engine, written from the paper alone and for clarity alone: nothing here is shared with `crates/`.

pub mod big;
pub mod book;
pub mod claims;
pub mod dice;
pub mod groups;
pub mod kernels;
pub mod lists;
pub mod places;
pub mod sheet;
pub mod two_areas;

/// A refusal: its number, a file number, a line and a column, each 0 where there is none.
#[derive(Clone, Copy, Debug, PartialEq, Eq)]
pub struct Refusal {
    pub number: u64,
    pub file: u64,
    pub line: u64,
    pub column: u64,
}

pub fn plain(number: u64) -> Refusal {
    at(number, 0, 0)
}

pub fn at(number: u64, file: u64, line: usize) -> Refusal {
    Refusal { number, file, line: line as u64, column: 0 }
}

/// The numbers that bound a call: library or desk.
#[derive(Clone, Copy)]
pub struct Limits {
    pub vertices: usize,
    pub edges: usize,
    pub claims: usize,
}

pub const LIBRARY: Limits = Limits { vertices: 65_536, edges: 1_048_576, claims: 65_536 };
pub const DESK: Limits = Limits { vertices: 1_024, edges: 2_048, claims: 1_024 };
