//! Sheets by both: the same 65 numbers.

use super::each_plan;
use crate::inputs::{plan_of, plan_of_powers};
use crate::measure::LINES;
use crate::{Record, Sheet, LIBRARY, PLAIN, SHEET};

const SHEETS: usize = 2_000;

/// What was seen in the generated sheets.
#[derive(Default)]
struct SeenSheets {
    none: usize,
    one: usize,
    few: usize,
    most: usize,
    over_2_32: usize,
    over_2_64: usize,
    rounds: u64,
    idle: u64,
}

impl SeenSheets {
    /// Notes a sheet of so many rounds that begin with `first`.
    fn sheet(&mut self, first: u64, rounds: u16, sheet: &Sheet) {
        let kind = match rounds {
            0 => &mut self.none,
            1 => &mut self.one,
            u16::MAX => &mut self.most,
            _ => &mut self.few,
        };
        *kind += 1;
        let first = u128::from(first);
        let end = first + u128::from(rounds);
        let goes_over = |border: u128| usize::from(first < border && border < end);
        self.over_2_32 += goes_over(1 << 32);
        self.over_2_64 += goes_over(1 << 64);
        self.rounds += u64::from(rounds);
        self.idle += u64::from(sheet[64]);
    }

    fn print(&self) {
        println!(
            "  {} of no round, {} of one, {} of up to 999, {} of 65535; {} go over 2^32, {} over 2^64",
            self.none, self.one, self.few, self.most, self.over_2_32, self.over_2_64
        );
        println!("  {} of the {} rounds are idle", self.idle, self.rounds);
    }
}

/// One sheet by both: the same numbers, which are returned and add up. What is lent to the two differs, so that all 65
/// are written.
fn compare_sheet(rows: &Record, first: u64, rounds: u16) -> Sheet {
    let (mut sheet, mut other) = ([1; SHEET], [2; SHEET]);
    let answer = (LIBRARY.sheet)(rows, first, rounds, &mut sheet);
    let other_answer = (PLAIN.sheet)(rows, first, rounds, &mut other);
    assert_eq!((answer, other_answer), (0, 0), "a sheet is refused");
    assert_eq!(sheet, other, "the sheets differ");
    let total: u64 = sheet.map(u64::from).iter().sum();
    assert_eq!(total, u64::from(rounds), "the sheet does not add up");
    sheet
}

/// Sheets of plans that lists leave, empty ones among them. Every fourth is of a damaged copy.
pub fn compare_sheets() {
    let mut sheets = SeenSheets::default();
    let seen = each_plan(SHEETS, 50, |_, record, numbers| {
        let rounds = numbers.rounds();
        let first = numbers.first(rounds);
        let sheet = compare_sheet(record, first, rounds);
        sheets.sheet(first, rounds, &sheet);
    });
    println!("{SHEETS} sheets: equal numbers, which add up");
    sheets.print();
    seen.print_records();
}

/// The sheets that are measured, with such as go over 2^32 and 2^64, and the same of case F's plan.
pub fn compare_measured_sheets() {
    let plans = LINES.map(|lines| plan_of(lines as u64));
    for rows in plans.iter().chain([&plan_of_powers()]) {
        for first in [0, (1 << 32) - 30_000, u64::MAX - 30_000] {
            compare_sheet(rows, first, u16::MAX);
        }
    }
}
