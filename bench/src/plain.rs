//! The algorithm of the proved crates in plain Rust: the same record, checks, search and writes, in place.

pub mod book;
mod change;
mod image;
mod joining;
mod list;
pub mod owner;
pub mod paths;
pub mod reason;
pub mod search;
mod sheet;
mod weave;

use crate::Record;

pub use change::{close, open};
pub use image::{read_image, write_image};
pub use list::run_list;
pub use owner::owner;
pub use sheet::sheet;
pub use weave::weave;

pub const LINES: usize = 64;
pub const ROWS: usize = 11;

/// Weight and edge, 0 and 0 where the row is not used.
pub type Row = [u16; 2];

/// The rows of a line, from the root on.
pub type Path = [Row; ROWS];

/// A plan record: the path of each line.
pub type Plan = [Path; LINES];

/// The path of a closed line.
pub const CLOSED: Path = [[0; 2]; ROWS];

pub const EMPTY: Plan = [CLOSED; LINES];

/// The answer of a call that is refused.
pub const fn refused(number: i64) -> i64 {
    -number
}

/// The plan of a record, over the same memory. The lengths are known, so that no test of them is left in the code.
pub fn plan_in(numbers: &Record) -> &Plan {
    let (rows, _) = numbers.as_chunks();
    let (paths, _) = rows.as_chunks();
    paths.try_into().expect("a record has a path for each line")
}

/// The same, to be changed.
pub fn plan_in_mut(numbers: &mut Record) -> &mut Plan {
    let (rows, _) = numbers.as_chunks_mut();
    let (paths, _) = rows.as_chunks_mut();
    paths.try_into().expect("a record has a path for each line")
}

/// The record is a tree.
pub fn is_tree(numbers: &Record) -> bool {
    paths::legal(plan_in(numbers))
}
