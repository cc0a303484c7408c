//! The functions of the library as they are (`include/gaplinte.h`): numbers and lent records in, one number out. It is
//! the value, 0 or more, or minus the number of a refusal. A refused call leaves all that it was lent as found.

/// The numbers of a plan record: 11 rows of weight and edge for each of the 64 lines.
pub const PLAN_NUMBERS: usize = 1408;
/// The numbers that show writes: period, start, and 11 rows of weight and edge.
pub const SHOWN_NUMBERS: usize = 24;
/// The numbers that sheet writes: the turns of each of the 64 lines, and the idle rounds.
pub const SHEET_NUMBERS: usize = 65;
/// The bytes of the longest image.
pub const IMAGE_BYTES: usize = 2193;
/// A value of owner or of the walker from this on says that the round is idle, and is this plus the rest.
pub const IDLE_FROM: i64 = 64;
/// A value of reason that is no line: the node's step does not divide the period.
pub const STEP_DOES_NOT_DIVIDE: i64 = 64;

// The only unsafe code: a foreign function can be declared and called in no other way. A reference to an array is the
// pointer that the library takes, and lasts as long as the call. The library is proved to stay within what it is lent
// for every content, keeps no pointer, and always returns.
#[allow(unsafe_code)]
mod foreign {
    use super::{PLAN_NUMBERS, SHEET_NUMBERS, SHOWN_NUMBERS};

    unsafe extern "C" {
        pub safe fn gaplinte_open(rows: &mut [u16; PLAN_NUMBERS], line: u64, period: u64) -> i64;
        pub safe fn gaplinte_trial(
            rows: &[u16; PLAN_NUMBERS],
            line: u64,
            period: u64,
            tried: &mut [u16; 3],
        ) -> i64;
        pub safe fn gaplinte_reason(
            rows: &[u16; PLAN_NUMBERS],
            period: u64,
            level: u64,
            offset: u64,
            class: u64,
        ) -> i64;
        pub safe fn gaplinte_close(rows: &mut [u16; PLAN_NUMBERS], line: u64) -> i64;
        pub safe fn gaplinte_owner(rows: &[u16; PLAN_NUMBERS], round: u64) -> i64;
        pub safe fn gaplinte_show(
            rows: &[u16; PLAN_NUMBERS],
            line: u64,
            shown: &mut [u16; SHOWN_NUMBERS],
        ) -> i64;
        pub safe fn gaplinte_turns(
            rows: &[u16; PLAN_NUMBERS],
            line: u64,
            first: u64,
            rounds: u32,
        ) -> i64;
        pub safe fn gaplinte_sheet(
            rows: &[u16; PLAN_NUMBERS],
            first: u64,
            rounds: u16,
            sheet: &mut [u16; SHEET_NUMBERS],
        ) -> i64;
        pub safe fn gaplinte_walk(rows: &[u16; PLAN_NUMBERS], place: &mut [u64; 2]) -> i64;
        fn gaplinte_run_list(
            rows: &mut [u16; PLAN_NUMBERS],
            orders: *const u8,
            order_bytes: usize,
            answers: *mut u8,
            answer_bytes: usize,
        ) -> i64;
        fn gaplinte_write_image(
            rows: &[u16; PLAN_NUMBERS],
            buffer: *mut u8,
            buffer_bytes: usize,
        ) -> i64;
        fn gaplinte_read_image(
            rows: &mut [u16; PLAN_NUMBERS],
            image: *const u8,
            image_bytes: usize,
        ) -> i64;
        pub safe fn gaplinte_weave(
            a: &[u16; PLAN_NUMBERS],
            b: &[u16; PLAN_NUMBERS],
            woven: &mut [u16; PLAN_NUMBERS],
        ) -> i64;
        pub safe fn gaplinte_pack(kind: u64, line: u64, period: u64, order: &mut [u8; 3]) -> i64;
        pub safe fn gaplinte_read(order: &[u8; 3], call: &mut [u16; 3]) -> i64;
        pub safe fn gaplinte_is_tree(rows: &[u16; PLAN_NUMBERS]) -> i64;
    }

    /// Not safe as it is declared, since each slice is a pointer and a length: here they are of one slice.
    pub fn run_list(rows: &mut [u16; PLAN_NUMBERS], orders: &[u8], answers: &mut [u8]) -> i64 {
        unsafe {
            gaplinte_run_list(
                rows,
                orders.as_ptr(),
                orders.len(),
                answers.as_mut_ptr(),
                answers.len(),
            )
        }
    }

    /// Likewise.
    pub fn write_image(rows: &[u16; PLAN_NUMBERS], buffer: &mut [u8]) -> i64 {
        unsafe { gaplinte_write_image(rows, buffer.as_mut_ptr(), buffer.len()) }
    }

    /// Likewise.
    pub fn read_image(rows: &mut [u16; PLAN_NUMBERS], image: &[u8]) -> i64 {
        unsafe { gaplinte_read_image(rows, image.as_ptr(), image.len()) }
    }
}

/// Opens a line; the value is its start. Refused with 1, 2, 3 or 5.
#[must_use]
pub fn open(rows: &mut [u16; PLAN_NUMBERS], line: u64, period: u64) -> i64 {
    foreign::gaplinte_open(rows, line, period)
}

/// Tries a line: the start that the open would answer, how many more nodes the plan would have, and 1 where a node would
/// be split, else 0, are written; the value is 0. Refused with 1, 2, 3 or 5, as the open would be.
#[must_use]
pub fn trial(rows: &[u16; PLAN_NUMBERS], line: u64, period: u64, tried: &mut [u16; 3]) -> i64 {
    foreign::gaplinte_trial(rows, line, period, tried)
}

/// What keeps a period from a class of the node at a level and an offset; the value is the open line of lowest number
/// that stands under an edge of the class, or [`STEP_DOES_NOT_DIVIDE`]. Refused with 2, 10, 11 or 12.
#[must_use]
pub fn reason(rows: &[u16; PLAN_NUMBERS], period: u64, level: u64, offset: u64, class: u64) -> i64 {
    foreign::gaplinte_reason(rows, period, level, offset, class)
}

/// Closes a line; the value is 0. Refused with 1 or 4.
#[must_use]
pub fn close(rows: &mut [u16; PLAN_NUMBERS], line: u64) -> i64 {
    foreign::gaplinte_close(rows, line)
}

/// The owner of a round; the value is its line, or [`IDLE_FROM`] plus the rest. Never refused.
#[must_use]
pub fn owner(rows: &[u16; PLAN_NUMBERS], round: u64) -> i64 {
    foreign::gaplinte_owner(rows, round)
}

/// Shows a line: its period, its start and its path are written; the value is 0. Refused with 1 or 4.
#[must_use]
pub fn show(rows: &[u16; PLAN_NUMBERS], line: u64, shown: &mut [u16; SHOWN_NUMBERS]) -> i64 {
    foreign::gaplinte_show(rows, line, shown)
}

/// Turns of a line; the value is exactly how many rounds it owns among so many that begin with `first`, past 2^64 too.
/// Refused with 1 or 4.
#[must_use]
pub fn turns(rows: &[u16; PLAN_NUMBERS], line: u64, first: u64, rounds: u32) -> i64 {
    foreign::gaplinte_turns(rows, line, first, rounds)
}

/// The sheet of so many rounds that begin with `first`, past 2^64 too: the turns of each line, 0 for a closed one, and
/// the idle rounds are written; the value is 0. Never refused.
#[must_use]
pub fn sheet(
    rows: &[u16; PLAN_NUMBERS],
    first: u64,
    rounds: u16,
    sheet: &mut [u16; SHEET_NUMBERS],
) -> i64 {
    foreign::gaplinte_sheet(rows, first, rounds, sheet)
}

/// The walker on a place, which is the next round and the count; the value is that round's line, or [`IDLE_FROM`] plus
/// the rest. Refused with 9.
#[must_use]
pub fn walk(rows: &[u16; PLAN_NUMBERS], place: &mut [u64; 2]) -> i64 {
    foreign::gaplinte_walk(rows, place)
}

/// Runs a list of orders, and writes two bytes for each; the value is 0. Refused with 7 or 8.
#[must_use]
pub fn run_list(rows: &mut [u16; PLAN_NUMBERS], orders: &[u8], answers: &mut [u8]) -> i64 {
    foreign::run_list(rows, orders, answers)
}

/// Writes the image of a plan; the value is its length in bytes, and later bytes of the buffer are left alone. Refused
/// with 8.
#[must_use]
pub fn write_image(rows: &[u16; PLAN_NUMBERS], buffer: &mut [u8]) -> i64 {
    foreign::write_image(rows, buffer)
}

/// Reads an image, whose tree the plan gets; the value is 0. Refused with 13 or 14.
#[must_use]
pub fn read_image(rows: &mut [u16; PLAN_NUMBERS], image: &[u8]) -> i64 {
    foreign::read_image(rows, image)
}

/// Weaves two plans, whose woven tree the third gets, whatever it was; the value is 0. Refused with 15 or 16.
#[must_use]
pub fn weave(
    a: &[u16; PLAN_NUMBERS],
    b: &[u16; PLAN_NUMBERS],
    woven: &mut [u16; PLAN_NUMBERS],
) -> i64 {
    foreign::gaplinte_weave(a, b, woven)
}

/// Packs an order; the value is 0. Refused with 6, 1 or 2.
#[must_use]
pub fn pack(kind: u64, line: u64, period: u64, order: &mut [u8; 3]) -> i64 {
    foreign::gaplinte_pack(kind, line, period, order)
}

/// Reads an order: kind, line and period are written; the value is 0. Refused with 6.
#[must_use]
pub fn read(order: &[u8; 3], call: &mut [u16; 3]) -> i64 {
    foreign::gaplinte_read(order, call)
}

/// Whether a record is a tree; the value is 1 or 0. Never refused.
#[must_use]
pub fn is_tree(rows: &[u16; PLAN_NUMBERS]) -> i64 {
    foreign::gaplinte_is_tree(rows)
}
