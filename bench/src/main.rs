//! Compares the proved library and the program `book` with the same in plain Rust: first their answers, then their speed.
//! Then the trial of the library with its open, and the search of plain Rust with the same one without its pruning.

use gaplinte::raw;

mod compare;
mod inputs;
mod measure;
mod numbers;
mod plain;
mod programs;
mod pruning;
mod questions;
mod trials;

const RECORD: usize = 1408;
const SHEET: usize = 65;

/// The bytes of the longest image.
const IMAGE: usize = 2_193;
const SEED: u64 = 4;

type Record = [u16; RECORD];

/// The turns of each line, and the idle rounds.
type Sheet = [u16; SHEET];

/// The calls, of the library or of plain Rust. Each answers its value, or minus the number of the refusal.
#[derive(Clone, Copy)]
struct Calls {
    open: fn(&mut Record, u64, u64) -> i64,
    close: fn(&mut Record, u64) -> i64,
    owner: fn(&Record, u64) -> i64,
    sheet: fn(&Record, u64, u16, &mut Sheet) -> i64,
    reason: fn(&Record, u64, u64, u64, u64) -> i64,
    run_list: fn(&mut Record, &[u8], &mut [u8]) -> i64,
    write_image: fn(&Record, &mut [u8]) -> i64,
    read_image: fn(&mut Record, &[u8]) -> i64,
    weave: fn(&Record, &Record, &mut Record) -> i64,
}

const LIBRARY: Calls = Calls {
    open: raw::open,
    close: raw::close,
    owner: raw::owner,
    sheet: raw::sheet,
    reason: raw::reason,
    run_list: raw::run_list,
    write_image: raw::write_image,
    read_image: raw::read_image,
    weave: raw::weave,
};
const PLAIN: Calls = Calls {
    open: plain::open,
    close: plain::close,
    owner: plain::owner,
    sheet: plain::sheet,
    reason: plain::reason::reason,
    run_list: plain::run_list,
    write_image: plain::write_image,
    read_image: plain::read_image,
    weave: plain::weave,
};

/// Compares, then measures. The programs' files are in a folder of their own.
fn compare_and_measure() {
    let folder = std::env::temp_dir().join(format!("bench-{}", std::process::id()));
    std::fs::create_dir(&folder).expect("the folder is new");
    compare::compare_answers(&folder);
    measure::measure(&folder);
    trials::measure_trials();
    pruning::measure_pruning();
    std::fs::remove_dir_all(&folder).expect("the folder is this program's own");
}

fn main() {
    let mut words = std::env::args().skip(1);
    match words.next().as_deref() {
        None => compare_and_measure(),
        Some("book") => plain::book::run().expect("standard input and output can be used"),
        Some("trials") => trials::measure_trials(),
        Some("pruning") => pruning::measure_pruning(),
        Some("profile") => measure::profile(words),
        Some("list") => measure::write_list(words),
        Some(word) => panic!("{word}: none of `book`, `trials`, `pruning`, `profile` and `list`"),
    }
}
