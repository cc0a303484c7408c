//! The table: nanoseconds of the library and of plain Rust, which take turns, the best of many repetitions for each.

mod images;
mod weaves;

use crate::inputs::{
    deep_plan_of, list_of, plan_of, plan_of_powers, rounds_under_11_nodes, rounds_where, ORDERS,
};
use crate::programs::programs;
use crate::questions::questions;
use crate::{Calls, Record, LIBRARY, PLAIN, RECORD, SHEET};
use std::hint::black_box;
use std::io::Write;
use std::path::Path;
use std::time::Instant;

/// The numbers of lines that are measured.
pub const LINES: [usize; 3] = [1, 16, 64];

/// The same, of a deep plan, which has two and more.
pub const DEEP_LINES: [usize; 2] = [16, 64];

/// The numbers of lines that are measured where an open splits the root: with more than 60 lines none does.
pub const SPLIT_LINES: [usize; 3] = [2, 16, 60];

/// A period whose open splits the root there.
pub const SPLIT_PERIOD: u64 = 60;

/// The numbers of lines of each of two plans that are woven.
pub const PAIR_LINES: [usize; 3] = [1, 8, 32];

/// The same, where one line is open in both.
pub const REFUSED_PAIR_LINES: [usize; 1] = [32];

/// The number of lines of a plan that is woven with the empty one.
pub const WITH_EMPTY_LINES: [usize; 1] = [64];

/// How many calls are timed together, where one is short.
pub const TOGETHER: usize = 100;

/// How often each program is run.
const PROGRAM_REPETITIONS: usize = 40;

/// What is measured once: a number of calls.
pub type Task = Box<dyn FnMut()>;

fn owners_of(calls: Calls, rows: Record, rounds: Vec<u64>) -> Task {
    Box::new(move || {
        for &round in &rounds {
            black_box((calls.owner)(black_box(&rows), black_box(round)));
        }
    })
}

fn owners_where(calls: Calls, lines: usize, owned: bool) -> Task {
    let rows = plan_of(lines as u64);
    let rounds = rounds_where(&rows, owned, TOGETHER);
    owners_of(calls, rows, rounds)
}

/// Owners of owned rounds, in a plan of so many lines.
fn owners_when_owned(calls: Calls, lines: usize) -> Task {
    owners_where(calls, lines, true)
}

/// Owners of idle rounds, whose rest is answered, in a plan of so many lines.
fn owners_when_idle(calls: Calls, lines: usize) -> Task {
    owners_where(calls, lines, false)
}

/// Owners of rounds of the line that has 11 nodes above it, in case F's plan.
fn owners_under_11_nodes(calls: Calls, _: usize) -> Task {
    owners_of(calls, plan_of_powers(), rounds_under_11_nodes(TOGETHER))
}

/// One sheet of the most rounds, from round 0 on, of a plan of so many lines.
fn sheet(calls: Calls, lines: usize) -> Task {
    let rows = plan_of(lines as u64);
    let mut sheet = [0; SHEET];
    Box::new(move || {
        let (rows, first, rounds) = black_box((&rows, 0, u16::MAX));
        let answer = (calls.sheet)(rows, first, rounds, &mut sheet);
        assert_eq!(answer, 0, "the sheet is made");
        black_box(&sheet);
    })
}

/// Reasons for the fixed set of questions of a plan, which have each outcome in its turn.
fn reasons_of(calls: Calls, rows: Record) -> Task {
    let questions = questions(&rows, TOGETHER);
    Box::new(move || {
        for &question in &questions {
            black_box(black_box(question).ask(calls, black_box(&rows)));
        }
    })
}

/// Reasons in a plan of so many lines.
fn reasons(calls: Calls, lines: usize) -> Task {
    reasons_of(calls, plan_of(lines as u64))
}

/// The same in a plan with nodes below nodes.
fn reasons_deep(calls: Calls, lines: usize) -> Task {
    reasons_of(calls, deep_plan_of(lines as u64))
}

fn open_and_close(calls: Calls, rows: &mut Record, line: u64, period: u64) {
    let start = (calls.open)(black_box(rows), line, black_box(period));
    assert!(0 <= start, "the line is booked");
    black_box((calls.close)(black_box(rows), line));
}

/// Opens of a line, each with a close of it, in the plan that is made with so many lines.
fn changes_in(calls: Calls, plan: fn(u64) -> Record, lines: usize, period: u64) -> Task {
    let line = lines as u64 - 1;
    let mut rows = plan(line);
    Box::new(move || (0..TOGETHER).for_each(|_| open_and_close(calls, &mut rows, line, period)))
}

/// The plan has so many lines while that line is open.
fn changes(calls: Calls, lines: usize) -> Task {
    changes_in(calls, plan_of, lines, 480)
}

/// The same in a plan with nodes below nodes, whose lines but one take one edge of the root.
fn changes_deep(calls: Calls, lines: usize) -> Task {
    changes_in(calls, deep_plan_of, lines, 480)
}

/// The open splits the root, and the close joins it again.
fn changes_that_split(calls: Calls, lines: usize) -> Task {
    changes_in(calls, plan_of, lines, SPLIT_PERIOD)
}

/// One list on an empty plan.
fn list(calls: Calls, lines: usize) -> Task {
    let list = list_of(lines).bytes;
    let mut answers = vec![0; 2 * ORDERS];
    Box::new(move || {
        let mut rows = [0; RECORD];
        let answer = (calls.run_list)(&mut rows, black_box(&list), &mut answers);
        assert_eq!(answer, 0, "the list is run");
        black_box((&rows, &answers));
    })
}

/// A row of the table: its name, for how many lines it is measured, how many calls, orders or rounds a task has, how
/// often the task is repeated, and the task.
struct Measured {
    name: &'static str,
    lines: &'static [usize],
    calls: usize,
    repetitions: usize,
    task: fn(Calls, usize) -> Task,
}

const MEASURED: [Measured; 17] = [
    Measured {
        name: "owner, owned round",
        lines: &LINES,
        calls: TOGETHER,
        repetitions: 300,
        task: owners_when_owned,
    },
    Measured {
        name: "owner, idle round",
        lines: &LINES,
        calls: TOGETHER,
        repetitions: 300,
        task: owners_when_idle,
    },
    Measured {
        name: "owner, under 11 nodes",
        lines: &[11],
        calls: TOGETHER,
        repetitions: 300,
        task: owners_under_11_nodes,
    },
    Measured {
        name: "sheet of 65,535 rounds, each round",
        lines: &LINES,
        calls: u16::MAX as usize,
        repetitions: 100,
        task: sheet,
    },
    Measured {
        name: "reason",
        lines: &LINES,
        calls: TOGETHER,
        repetitions: 300,
        task: reasons,
    },
    Measured {
        name: "reason, deep plan",
        lines: &DEEP_LINES,
        calls: TOGETHER,
        repetitions: 300,
        task: reasons_deep,
    },
    Measured {
        name: "image written",
        lines: &LINES,
        calls: TOGETHER,
        repetitions: 300,
        task: images::writes,
    },
    Measured {
        name: "image written, deep plan",
        lines: &DEEP_LINES,
        calls: TOGETHER,
        repetitions: 300,
        task: images::writes_deep,
    },
    Measured {
        name: "image read",
        lines: &LINES,
        calls: TOGETHER,
        repetitions: 300,
        task: images::reads,
    },
    Measured {
        name: "image read, deep plan",
        lines: &DEEP_LINES,
        calls: TOGETHER,
        repetitions: 300,
        task: images::reads_deep,
    },
    Measured {
        name: "weave, lines of each plan",
        lines: &PAIR_LINES,
        calls: TOGETHER,
        repetitions: 300,
        task: weaves::weaves,
    },
    Measured {
        name: "weave with the empty plan",
        lines: &WITH_EMPTY_LINES,
        calls: TOGETHER,
        repetitions: 300,
        task: weaves::weaves_with_empty,
    },
    Measured {
        name: "weave refused with 15, lines of each plan",
        lines: &REFUSED_PAIR_LINES,
        calls: TOGETHER,
        repetitions: 300,
        task: weaves::weaves_refused,
    },
    Measured {
        name: "open with close",
        lines: &LINES,
        calls: TOGETHER,
        repetitions: 300,
        task: changes,
    },
    Measured {
        name: "open with close, deep plan",
        lines: &DEEP_LINES,
        calls: TOGETHER,
        repetitions: 300,
        task: changes_deep,
    },
    Measured {
        name: "open with close, split and joined",
        lines: &SPLIT_LINES,
        calls: TOGETHER,
        repetitions: 300,
        task: changes_that_split,
    },
    Measured {
        name: "list, each order",
        lines: &LINES,
        calls: ORDERS,
        repetitions: 60,
        task: list,
    },
];

/// Nanoseconds of the fastest repetition of each of the two.
pub fn best_of(repetitions: usize, mut tasks: [Task; 2]) -> [f64; 2] {
    let mut best = [f64::MAX; 2];
    for _ in 0..repetitions {
        for (least, task) in best.iter_mut().zip(&mut tasks) {
            let begin = Instant::now();
            task();
            *least = least.min(begin.elapsed().as_nanos() as f64);
        }
    }
    best
}

fn print_row(name: &str, lines: usize, [library, plain]: [f64; 2]) {
    let ratio = library / plain;
    println!("| {name} | {lines} | {library:.0} | {plain:.0} | {ratio:.2} |");
}

/// Measures everything and prints the table.
pub fn measure(folder: &Path) {
    println!("| calls | lines | library, ns | plain Rust, ns | ratio |");
    println!("|---|---|---|---|---|");
    for measured in MEASURED {
        for &lines in measured.lines {
            let tasks = [LIBRARY, PLAIN].map(|calls| (measured.task)(calls, lines));
            let best = best_of(measured.repetitions, tasks);
            let each = best.map(|total| total / measured.calls as f64);
            print_row(measured.name, lines, each);
        }
    }
    for lines in LINES {
        let programs = programs(folder, &list_of(lines).bytes);
        let tasks = programs.map(|program| -> Task { Box::new(move || program.run()) });
        print_row("`book` whole", lines, best_of(PROGRAM_REPETITIONS, tasks));
    }
}

/// For a profile: so many tasks of one row of the table, by one of the two.
pub fn profile(mut words: impl Iterator<Item = String>) {
    let calls = match words.next().as_deref() {
        Some("library") => LIBRARY,
        _ => PLAIN,
    };
    let mut number = || words.next().and_then(|word| word.parse().ok());
    let row: usize = number().expect(
        "a row: 0 owned round, 1 idle round, 2 owner under 11 nodes, 3 sheet, 4 reason, 5 the same in a deep plan, \
         6 image written, 7 the same of a deep plan, 8 image read, 9 the same of a deep plan, 10 weave, \
         11 the same with the empty plan, 12 the same refused with 15, 13 open with close, 14 the same in a deep plan, \
         15 the same that splits and joins, 16 list",
    );
    let lines: usize = number().expect("a number of lines");
    let times: usize = number().expect("a number of tasks");
    let mut task = (MEASURED[row].task)(calls, lines);
    (0..times).for_each(|_| task());
}

/// For a profile of `book`: the list of so many lines, to standard output.
pub fn write_list(mut words: impl Iterator<Item = String>) {
    let lines = words.next().and_then(|word| word.parse().ok());
    let list = list_of(lines.expect("a number of lines")).bytes;
    let written = std::io::stdout().write_all(&list);
    written.expect("standard output can be written");
}
