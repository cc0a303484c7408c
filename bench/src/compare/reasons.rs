//! Reasons by both: the same answer to every question.

use super::each_plan;
use crate::inputs::{deep_plan_of, plan_of};
use crate::measure::{DEEP_LINES, LINES, TOGETHER};
use crate::questions::{outcome, question, questions, Outcome, Question, OUTCOMES};
use crate::{Record, LIBRARY, PLAIN};

const PLANS: usize = 2_000;

/// How many questions are asked of each plan.
const QUESTIONS: usize = 50;

/// One question by both: the same answer, whose kind is returned.
fn compare_reason(rows: &Record, question: Question) -> Outcome {
    let answer = question.ask(LIBRARY, rows);
    assert_eq!(answer, question.ask(PLAIN, rows), "{question:?}");
    outcome(answer)
}

fn count_of(outcomes: &[Outcome], wanted: Outcome) -> usize {
    outcomes.iter().filter(|&&seen| seen == wanted).count()
}

/// Questions of plans that lists leave, empty ones among them. Every fourth plan has its questions asked of a damaged
/// copy.
pub fn compare_reasons() {
    let mut outcomes = Vec::new();
    let seen = each_plan(PLANS, 10, |rows, record, numbers| {
        for _ in 0..QUESTIONS {
            outcomes.push(compare_reason(record, question(rows, numbers)));
        }
    });
    println!("{QUESTIONS} reasons of each of {PLANS} plans: equal answers");
    let counts = OUTCOMES.map(|wanted| count_of(&outcomes, wanted));
    let out_of_range = count_of(&outcomes, Outcome::Refused(2));
    println!("  a line, the step, 10, 11 and 12: {counts:?}; 2: {out_of_range}");
    seen.print_records();
}

/// The questions of a plan that are measured: the same answers, with as many of each of these outcomes.
fn compare_measured(rows: &Record, expected: &[Outcome]) {
    let asked = questions(rows, TOGETHER).into_iter();
    let outcomes: Vec<Outcome> = asked.map(|asked| compare_reason(rows, asked)).collect();
    for &wanted in expected {
        let count = count_of(&outcomes, wanted);
        assert_eq!(count, TOGETHER / expected.len(), "{wanted:?}");
    }
}

/// All that is measured. The plan of one line has the root alone, whose step divides every period.
pub fn compare_measured_reasons() {
    let mut without_step = OUTCOMES.to_vec();
    without_step.retain(|&outcome| outcome != Outcome::Step);
    for lines in LINES {
        let expected: &[Outcome] = if lines == 1 { &without_step } else { &OUTCOMES };
        compare_measured(&plan_of(lines as u64), expected);
    }
    for lines in DEEP_LINES {
        compare_measured(&deep_plan_of(lines as u64), &OUTCOMES);
    }
}
