//! Marked case A of document 01: periods 4, 6 and 8, then 2, which is refused with 5, then 12. The 6 and the 12 are
//! tried first, and after the refusal each class of each node is asked for its reason. Prints what the library answers,
//! and panics where that differs from documents 01 and 02.

use gaplinte::{Class, Line, Node, Owner, Period, Plan, Reason, Refusal, Round, Start, Trial};

fn book(plan: &mut Plan, line: u64, period: u64, expected: Result<Start, Refusal>) {
    let answer = plan.open(Line(line), Period(period));
    match answer {
        Ok(start) => println!("line {line}, period {period}: starts at {start}"),
        Err(refusal) => println!("line {line}, period {period}: {refusal}"),
    }
    assert_eq!(answer, expected);
}

/// Tells what the open of a line would do. The plan is only read.
fn tell(plan: &Plan, line: u64, period: u64, expected: Trial) -> Result<(), Refusal> {
    let told = plan.trial(Line(line), Period(period))?;
    let Trial { start, added, .. } = told;
    let split = if told.split { "yes" } else { "no" };
    println!(
        "line {line}, period {period}: would start at {start}, nodes added {added}, split {split}"
    );
    assert_eq!(told, expected);
    Ok(())
}

/// Tells what keeps a period from a class of the node at a level and an offset.
fn explain(
    plan: &Plan,
    period: u64,
    (level, offset): (u64, u64),
    class: u64,
    expected: Reason,
) -> Result<(), Refusal> {
    let node = Node { level, offset };
    let reason = plan.reason(Period(period), node, Class(class))?;
    println!("period {period}, {node}, class {class}: {reason}");
    assert_eq!(reason, expected);
    Ok(())
}

fn ask(plan: &Plan, round: u64, expected: Owner) {
    let owner = plan.owner(Round(round));
    println!("round {round}: {owner}");
    assert_eq!(owner, expected);
}

fn main() -> Result<(), Refusal> {
    let mut plan = Plan::new();
    let trial = |start, added, split| Trial {
        start: Start(start),
        added,
        split,
    };
    book(&mut plan, 1, 4, Ok(Start(0)));
    tell(&plan, 2, 6, trial(1, 2, true))?;
    book(&mut plan, 2, 6, Ok(Start(1)));
    book(&mut plan, 3, 8, Ok(Start(2)));
    book(&mut plan, 4, 2, Err(Refusal::NoCandidate));
    let line = |number| Reason::Line(Line(number));
    explain(&plan, 2, (0, 0), 0, line(1))?;
    explain(&plan, 2, (0, 0), 1, line(2))?;
    explain(&plan, 2, (1, 0), 0, line(1))?;
    explain(&plan, 2, (1, 1), 0, line(2))?;
    explain(&plan, 2, (2, 2), 0, Reason::StepDoesNotDivide)?;
    tell(&plan, 4, 12, trial(3, 1, false))?;
    book(&mut plan, 4, 12, Ok(Start(3)));
    ask(&plan, 7, Owner::Line(Line(2)));
    ask(&plan, 9, Owner::Idle { rest: 1 });
    ask(&plan, 10, Owner::Line(Line(3)));
    Ok(())
}
