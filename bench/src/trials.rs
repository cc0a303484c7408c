//! The trial beside the open: both by the library, in turn, each on a copy of the same record, since the open changes it.

use crate::inputs::{plan_of, plan_of_powers};
use crate::measure::{best_of, Task, TOGETHER};
use crate::{Record, LIBRARY};
use gaplinte::raw;
use std::hint::black_box;

/// The line that is tried and opened. It is closed in every plan here.
const LINE: u64 = 63;
const REPETITIONS: usize = 1_000;

/// What the open does.
#[derive(Clone, Copy, Debug, PartialEq, Eq)]
enum Outcome {
    Whole,
    Split,
    Refused,
}

/// By the open itself: a split moves rows of lines that were there before.
fn outcome(rows: &Record, period: u64) -> Outcome {
    let mut opened = *rows;
    let answer = (LIBRARY.open)(&mut opened, LINE, period);
    let others = 22 * LINE as usize;
    match answer {
        ..0 => Outcome::Refused,
        _ if opened[..others] == rows[..others] => Outcome::Whole,
        _ => Outcome::Split,
    }
}

/// The smallest period above 1 whose open does this.
fn period_for(rows: &Record, wanted: Outcome) -> u64 {
    let mut periods = 2..4_096;
    let period = periods.find(|&period| outcome(rows, period) == wanted);
    period.expect("some open does this")
}

/// The trial tells the open's start and split, or its refusal.
fn assert_open_does_what_was_told(rows: &Record, period: u64) {
    let mut tried = [0; 3];
    let told = raw::trial(rows, LINE, period, &mut tried);
    let answer = (LIBRARY.open)(&mut rows.clone(), LINE, period);
    let outcome = outcome(rows, period);
    match told {
        0 => {
            assert_eq!(answer, i64::from(tried[0]));
            assert_eq!(tried[2] == 1, outcome == Outcome::Split);
        }
        _ => assert_eq!((answer, outcome), (told, Outcome::Refused)),
    }
}

fn on_copies(rows: Record, call: impl Fn(&mut Record) -> i64 + 'static) -> Task {
    Box::new(move || {
        for _ in 0..TOGETHER {
            let mut copy = *black_box(&rows);
            black_box(call(black_box(&mut copy)));
            black_box(&copy);
        }
    })
}

fn measure_one(plan: &str, rows: Record, wanted: Outcome) {
    let period = period_for(&rows, wanted);
    assert_open_does_what_was_told(&rows, period);
    let trial = on_copies(rows, move |copy| {
        raw::trial(copy, LINE, black_box(period), black_box(&mut [0; 3]))
    });
    let open = on_copies(rows, move |copy| {
        (LIBRARY.open)(copy, LINE, black_box(period))
    });
    let [trial, open] = best_of(REPETITIONS, [trial, open]).map(|total| total / TOGETHER as f64);
    let ratio = trial / open;
    println!("| {plan} | {period} | {wanted:?} | {trial:.0} | {open:.0} | {ratio:.2} |");
}

/// In plans of so many lines, and in case F's, with 11 nodes above its last line.
pub fn measure_trials() {
    println!();
    println!("| plan | period | the open | trial, ns | open, ns | trial by open |");
    println!("|---|---|---|---|---|---|");
    measure_one("empty", plan_of(0), Outcome::Whole);
    let plans = [
        ("1 line", plan_of(1)),
        ("15 lines", plan_of(15)),
        // With more no node can be split: a period that 120 divides gets an edge of the root, and another one no class.
        ("59 lines", plan_of(59)),
    ];
    for (plan, rows) in plans {
        for wanted in [Outcome::Whole, Outcome::Split, Outcome::Refused] {
            measure_one(plan, rows, wanted);
        }
    }
    // Its nodes have weight 2, and none can be split.
    for wanted in [Outcome::Whole, Outcome::Refused] {
        measure_one("case F", plan_of_powers(), wanted);
    }
}
