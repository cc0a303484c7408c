//! The marked cases of document 01, case C as in document 02, Ask 6, and `earliest_start`, through the bindings.

use gaplinte::{
    Answered, Answers, Line, OpenLine, Owner, Period, Plan, Refusal, Round, Row, Start,
};

/// Opens lines 1, 2, 3 .. in turn, each with a period, and compares what each open gives: a start, or a refusal. A
/// refused open leaves the plan as found.
fn opened(periods: &[(u64, Result<u64, Refusal>)]) -> Plan {
    let mut plan = Plan::new();
    for (line, &(period, expected)) in (1..).zip(periods) {
        let before = plan.clone();
        let answer = plan.open(Line(line), Period(period));
        assert_eq!(answer, expected.map(Start), "line {line}, period {period}");
        assert!(answer.is_ok() || plan == before);
    }
    owners_fit(&plan);
    plan
}

/// Each of some rounds, small and large, is owned by the one open line that it fits, or idle.
fn owners_fit(plan: &Plan) {
    let open: Vec<_> = (0..64)
        .filter_map(|line| Some((Line(line), plan.show(Line(line)).ok()?)))
        .collect();
    let lines = plan.lines().map(|it| (it.line, it.period, it.start));
    let shown = open.iter().map(|&(line, it)| (line, it.period, it.start));
    assert!(lines.eq(shown));
    for round in (0..5000).chain(u64::MAX - 5000..=u64::MAX) {
        let fitting: Vec<_> = open
            .iter()
            .filter(|(_, shown)| round % shown.period.0 == shown.start.0)
            .map(|&(line, _)| line)
            .collect();
        assert!(fitting.len() < 2, "round {round} fits two lines");
        assert_eq!(plan.owner(Round(round)).line(), fitting.first().copied());
    }
}

fn path(rows: &[(u16, u16)]) -> [Row; 11] {
    let mut path = [Row::default(); 11];
    for (row, &(weight, edge)) in path.iter_mut().zip(rows) {
        *row = Row { weight, edge };
    }
    path
}

#[test]
fn case_a() {
    let plan = opened(&[
        (4, Ok(0)),
        (6, Ok(1)),
        (8, Ok(2)),
        (2, Err(Refusal::NoCandidate)),
        (12, Ok(3)),
    ]);
    assert_eq!(plan.owner(Round(7)), Owner::Line(Line(2)));
    assert_eq!(plan.owner(Round(10)), Owner::Line(Line(3)));
    assert_eq!(plan.owner(Round(9)), Owner::Idle { rest: 1 });
    let shown = plan.show(Line(5)).unwrap();
    assert_eq!((shown.period, shown.start), (Period(12), Start(3)));
    assert_eq!(shown.rows, path(&[(2, 1), (3, 1), (2, 0)]));
    assert_eq!(plan.turns(Line(5), Round(0), 100), Ok(9));
    assert_eq!(
        format!("{plan:?}"),
        r#"{1: "4@0", 2: "6@1", 3: "8@2", 5: "12@3"}"#
    );
    let lines = "line 1: period 4, start 0\nline 2: period 6, start 1\n\
                 line 3: period 8, start 2\nline 5: period 12, start 3";
    assert_eq!(plan.to_string(), lines);
}

#[test]
fn case_b() {
    opened(&[(4, Ok(0)), (4, Ok(1)), (2, Err(Refusal::NoCandidate))]);
}

#[test]
fn case_c() {
    let plan = opened(&[(6, Ok(0)), (12, Ok(1)), (12, Ok(2))]);
    let paths = [1, 2, 3].map(|line| plan.show(Line(line)).unwrap().rows);
    let expected: [&[_]; 3] = [&[(6, 0)], &[(6, 1), (2, 0)], &[(6, 2), (2, 0)]];
    assert_eq!(paths, expected.map(path));
}

#[test]
fn case_d() {
    let plan = opened(&[
        (1, Ok(0)),
        (1, Err(Refusal::NoCandidate)),
        (4095, Err(Refusal::NoCandidate)),
    ]);
    assert_eq!(plan.show(Line(1)).unwrap().rows, path(&[(1, 0)]));
}

#[test]
fn case_e() {
    opened(&[(2, Ok(0)), (3, Err(Refusal::NoCandidate))]);
}

#[test]
fn case_f() {
    let mut plan = Plan::new();
    for line in 1..=11 {
        plan.open(Line(line), Period(1 << line)).unwrap();
    }
    let last = plan.show(Line(11)).unwrap();
    assert_eq!((last.period, last.start), (Period(2048), Start(1023)));
    let mut rows = [(2, 1); 11];
    rows[10] = (2, 0);
    assert_eq!(last.rows, path(&rows));
    owners_fit(&plan);
}

#[test]
fn case_g() {
    opened(&[(4095, Ok(0))]);
    let out_of_range = Err(Refusal::PeriodOutOfRange);
    opened(&[(4096, out_of_range), (0, out_of_range)]);
}

#[test]
fn case_h() {
    let mut plan = Plan::new();
    assert_eq!(plan.open(Line(63), Period(5)), Ok(Start(0)));
    assert_eq!(plan.open(Line(64), Period(5)), Err(Refusal::LineAbove63));
}

#[test]
fn case_i() {
    let orders = [
        0x01, 0x00, 0x60, 0x02, 0x00, 0x20, 0x03, 0x00, 0x30, 0x42, 0x00, 0x00, 0x03, 0x00, 0x30,
        0x42, 0x00, 0x00,
    ];
    let mut answers = [0xee; 14];
    let mut plan = Plan::new();
    let told = [
        Ok(Answered::Booked(Start(0))),
        Ok(Answered::Booked(Start(1))),
        Err(Refusal::NoCandidate),
        Ok(Answered::Closed),
        Ok(Answered::Booked(Start(1))),
        Err(Refusal::LineNotOpen),
    ];
    let run = plan.run_list_into(&orders, &mut answers).unwrap();
    assert_eq!(run.len(), 6);
    assert_eq!(run.collect::<Vec<_>>(), told);
    assert_eq!(Plan::new().run_list(&orders), Ok(told.to_vec()));
    assert!(Answers::of(&orders, &answers).unwrap().eq(told));
    // Results 0, 0, 5, 0, 0, 4 and starts 0, 1, 1; the bytes behind them stay.
    let expected = [
        0x00, 0x00, 0x00, 0x01, 0x50, 0x00, 0x00, 0x00, 0x00, 0x01, 0x40, 0x00, 0xee, 0xee,
    ];
    assert_eq!(answers, expected);
    assert_eq!(plan.show(Line(1)).map(|shown| shown.period), Ok(Period(6)));
    assert_eq!(plan.show(Line(2)), Err(Refusal::LineNotOpen));
    assert_eq!(plan.show(Line(3)).map(|shown| shown.period), Ok(Period(3)));
    owners_fit(&plan);
}

/// Opens lines, each with a period, at these starts.
fn book(plan: &mut Plan, lines: &[(u64, u64, u64)]) {
    for &(line, period, start) in lines {
        let answer = plan.open(Line(line), Period(period));
        assert_eq!(answer, Ok(Start(start)), "line {line}");
    }
}

/// The root has weight 4, and above each 8 stands a node of weight 2. For line 4 the root is full, and the nodes offer
/// 5, 6 and 7. For line 5 the root offers 3, and the nodes above lines 4 and 2 offer 1 and 6.
#[test]
fn earliest_start() {
    let mut plan = Plan::new();
    book(&mut plan, &[(0, 4, 0)]);
    book(&mut plan, &[(1, 8, 1), (2, 8, 2), (3, 8, 3), (4, 8, 5)]);
    for line in [1, 3] {
        assert_eq!(plan.close(Line(line)), Ok(()));
    }
    book(&mut plan, &[(5, 8, 1), (6, 8, 3), (7, 8, 6)]);
    owners_fit(&plan);
}

#[test]
fn an_emptied_plan_is_the_fresh_one() {
    let mut plan = opened(&[(4, Ok(0)), (6, Ok(1)), (8, Ok(2))]);
    for line in 1..=3 {
        assert_eq!(plan.close(Line(line)), Ok(()));
        owners_fit(&plan);
    }
    assert_eq!(plan, Plan::new());
}

#[test]
fn the_open_lines() {
    let mut plan = Plan::default();
    assert_eq!(plan, Plan::new());
    assert_eq!(plan.lines().next(), None);
    assert_eq!(plan.to_string(), "no open lines");
    for (line, period) in [(63, 12), (0, 4), (7, 8)] {
        plan.open(Line(line), Period(period)).unwrap();
    }
    let open = [(0, 4, 1), (7, 8, 2), (63, 12, 0)].map(|(line, period, start)| OpenLine {
        line: Line(line),
        period: Period(period),
        start: Start(start),
    });
    assert!(plan.lines().eq(open));
    plan.close(Line(7)).unwrap();
    assert!(plan.lines().eq([open[0], open[2]]));
    assert_eq!(open[2].to_string(), "line 63: period 12, start 0");
}

#[test]
fn numbers_are_displayed() {
    assert_eq!(Line(63).to_string(), "63");
    assert_eq!(Period(4095).to_string(), "4095");
    assert_eq!(Start(0).to_string(), "0");
    assert_eq!(Round(u64::MAX).to_string(), "18446744073709551615");
    assert_eq!(
        format!("{:>4}|{:<4}|{:03}", Line(7), Start(12), Period(5)),
        "   7|12  |005"
    );
}
