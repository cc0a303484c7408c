//! Two hutches on one recorder of twice the rate. Books a plan for each of them, weaves the two into one, and books that
//! one further. Prints the lines that each plan has.

use gaplinte::{Line, Period, Plan, Refusal};

/// A plan with these lines, each with a period.
fn booked(lines: [(u64, u64); 2]) -> Result<Plan, Refusal> {
    let mut plan = Plan::new();
    for (line, period) in lines {
        plan.open(Line(line), Period(period))?;
    }
    Ok(plan)
}

fn main() -> Result<(), Refusal> {
    let hutch_a = booked([(1, 4), (2, 6)])?;
    let hutch_b = booked([(3, 3), (4, 3)])?;
    let mut woven = hutch_a.weave(&hutch_b)?;
    woven.open(Line(5), Period(12))?;
    woven.open(Line(6), Period(12))?;
    println!("hutch A\n{hutch_a}");
    println!("hutch B\n{hutch_b}");
    println!("both, booked further\n{woven}");
    Ok(())
}
