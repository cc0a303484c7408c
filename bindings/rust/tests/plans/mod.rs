//! Plans of which each line's period and start are worked out from documents 01 and 02.

use gaplinte::{Line, Period, Plan, Start};

/// Period and start of the lines of marked case A.
pub const CASE_A: [(u64, u64); 4] = [(4, 0), (6, 1), (8, 2), (12, 3)];

/// Those of marked case C, as in document 02, Ask 6.
pub const CASE_C: [(u64, u64); 3] = [(6, 0), (12, 1), (12, 2)];

/// Those of marked case F.
pub fn case_f() -> Vec<(u64, u64)> {
    (1..=11).map(|k| (1 << k, (1 << (k - 1)) - 1)).collect()
}

/// Opens lines 1, 2, 3 .. with periods that have these starts.
pub fn opened(lines: &[(u64, u64)]) -> Plan {
    opened_from(1, lines)
}

/// The same from another line on.
pub fn opened_from(first: u64, lines: &[(u64, u64)]) -> Plan {
    let mut plan = Plan::new();
    for (line, &(period, start)) in (first..).zip(lines) {
        let answer = plan.open(Line(line), Period(period));
        assert_eq!(answer, Ok(Start(start)));
    }
    plan
}
