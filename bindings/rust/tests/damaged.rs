//! A record that is no tree, through every call: it is treated as the empty plan, and a refused call leaves it as
//! found.

use gaplinte::{
    Answered, Class, Line, Node, Owner, Period, Plan, Refusal, Round, Start, Trial, Walker,
};

/// Records that are no tree: a number out of range, an edge not below its weight, a row after an unused one, two lines
/// at one place, an edge without a weight, a line above another, every number alike.
fn damaged() -> Vec<Plan> {
    let mut booked = Plan::new();
    booked.open(Line(3), Period(12)).unwrap();
    let with = |numbers: &[(usize, u16)]| {
        let mut record = *booked.record();
        for &(place, number) in numbers {
            record[place] = number;
        }
        Plan::from_record(record)
    };
    vec![
        with(&[(22 * 3, 4096)]),
        with(&[(1407, 65_535)]),
        with(&[(22 * 3 + 1, 12)]),
        with(&[(22 * 3 + 4, 2)]),
        with(&[(22 * 5, 12)]),
        with(&[(22 * 3, 0), (22 * 3 + 1, 1)]),
        with(&[(22 * 5, 12), (22 * 5 + 1, 0), (22 * 5 + 2, 2)]),
        Plan::from_record([65_535; 1408]),
        Plan::from_record([1; 1408]),
    ]
}

#[test]
fn asked() {
    for plan in damaged() {
        assert!(!plan.is_tree());
        assert_eq!(plan.lines().next(), None);
        assert_eq!(plan.to_string(), "no open lines: the record is no tree");
        for round in [0, 1, 12, u64::MAX] {
            assert_eq!(plan.owner(Round(round)), Owner::Idle { rest: 0 });
        }
        for line in [0, 3, 5, 63].map(Line) {
            assert_eq!(plan.show(line), Err(Refusal::LineNotOpen));
            for (first, rounds) in [(0, 7), (12, 0), (u64::MAX, u32::MAX)] {
                let turns = plan.turns(line, Round(first), rounds);
                assert_eq!(turns, Err(Refusal::LineNotOpen));
            }
        }
        assert_eq!(plan.show(Line(64)), Err(Refusal::LineAbove63));
        for (first, rounds) in [(0, 7), (12, 0), (u64::MAX, u16::MAX)] {
            let sheet = plan.sheet(Round(first), rounds);
            assert_eq!((sheet.turns, sheet.idle), ([0; 64], rounds));
        }
        let mut walker = Walker::default();
        assert_eq!(walker.walk(&plan), Ok(Owner::Idle { rest: 0 }));
        assert_eq!((walker.next, walker.owned), (Round(1), 0));
    }
}

/// As on the empty plan: one node is added, and no line is open.
#[test]
fn tried() {
    let told = Trial {
        start: Start(0),
        added: 1,
        split: false,
    };
    for plan in damaged() {
        let found = plan.clone();
        for line in [0, 3, 5, 63].map(Line) {
            for period in [1, 5, 12, 4095].map(Period) {
                assert_eq!(plan.trial(line, period), Ok(told));
            }
            let refused = plan.trial(line, Period(0));
            assert_eq!(refused, Err(Refusal::PeriodOutOfRange));
        }
        assert_eq!(plan.trial(Line(64), Period(0)), Err(Refusal::LineAbove63));
        assert_eq!(plan, found);
    }
}

/// As in the empty plan, no node is there.
#[test]
fn asked_for_reasons() {
    for plan in damaged() {
        let found = plan.clone();
        for (level, offset) in [(0, 0), (1, 0), (1, 1), (10, 1023), (u64::MAX, u64::MAX)] {
            let node = Node { level, offset };
            for class in [0, 1, u64::MAX].map(Class) {
                for period in [1, 12, 4095].map(Period) {
                    assert_eq!(plan.reason(period, node, class), Err(Refusal::NoNode));
                }
                for period in [0, 4096, u64::MAX].map(Period) {
                    let refused = plan.reason(period, node, class);
                    assert_eq!(refused, Err(Refusal::PeriodOutOfRange));
                }
            }
        }
        assert_eq!(plan, found);
    }
}

/// It is written as the empty plan. What is read takes its place, or leaves it as found.
#[test]
fn images() {
    let mut fresh = Plan::new();
    assert_eq!(fresh.open(Line(3), Period(12)), Ok(Start(0)));
    // 0000001, 000011 0001, 000000001100 000000000000, and seven bits more
    let image = [0x02, 0x18, 0x80, 0x60, 0x00, 0x00];
    for found in damaged() {
        let mut plan = found.clone();
        assert_eq!(plan.to_image(), [0x00]);
        let refused = plan.write_image(&mut []);
        assert_eq!(refused, Err(Refusal::BufferTooShort));
        let mut buffer = [0xee; 2];
        assert_eq!(plan.write_image(&mut buffer), Ok(1));
        assert_eq!(buffer, [0x00, 0xee]);
        assert_eq!(plan.read_image(&image[1..]), Err(Refusal::ImageField));
        assert_eq!(plan.read_image(&image[..5]), Err(Refusal::ImageLength));
        assert_eq!(plan, found);
        assert_eq!(plan.read_image(&image), Ok(()));
        assert_eq!(plan, fresh);
    }
}

/// On either side it is one without lines, whatever lines and periods its rows would have.
#[test]
fn woven() {
    let mut plan = Plan::new();
    assert_eq!(plan.open(Line(3), Period(12)), Ok(Start(0)));
    let woven = |a: &Plan, b: &Plan| a.weave(b).unwrap().to_string();
    for found in damaged() {
        let no_tree = found.clone();
        assert_eq!(woven(&plan, &no_tree), "line 3: period 24, start 0");
        assert_eq!(woven(&no_tree, &plan), "line 3: period 24, start 1");
        assert_eq!(no_tree.weave(&no_tree), Ok(Plan::new()));
        assert_eq!(no_tree.weave(&Plan::new()), Ok(Plan::new()));
        assert_eq!(no_tree, found);
    }
}

#[test]
fn changed() {
    let mut fresh = Plan::new();
    assert_eq!(fresh.open(Line(3), Period(12)), Ok(Start(0)));
    for found in damaged() {
        let mut plan = found.clone();
        assert_eq!(plan.close(Line(3)), Err(Refusal::LineNotOpen));
        assert_eq!(plan.close(Line(64)), Err(Refusal::LineAbove63));
        assert_eq!(
            plan.open(Line(3), Period(0)),
            Err(Refusal::PeriodOutOfRange)
        );
        assert_eq!(plan.open(Line(64), Period(1)), Err(Refusal::LineAbove63));
        assert_eq!(plan, found);
        assert_eq!(plan.open(Line(3), Period(12)), Ok(Start(0)));
        assert_eq!(plan, fresh);
        assert!(plan.is_tree());
    }
}

#[test]
fn lists() {
    let mut fresh = Plan::new();
    assert_eq!(fresh.open(Line(3), Period(12)), Ok(Start(0)));
    for found in damaged() {
        let mut plan = found.clone();
        let mut answers = [0xee; 4];
        // An empty list, and one whose only order is refused: nothing was carried out, and the record is as found.
        assert_eq!(plan.run_list(&[]), Ok(vec![]));
        assert_eq!(plan, found);
        let refused = plan.run_list_into(&[0x43, 0x00, 0x00], &mut answers);
        assert!(refused.unwrap().eq([Err(Refusal::LineNotOpen)]));
        assert_eq!(answers, [0x40, 0x00, 0xee, 0xee]);
        assert_eq!(plan, found);
        let orders = [0x43, 0x00, 0x00, 0x03, 0x00, 0xc0];
        let booked = plan.run_list_into(&orders, &mut answers);
        let told = [Err(Refusal::LineNotOpen), Ok(Answered::Booked(Start(0)))];
        assert!(booked.unwrap().eq(told));
        assert_eq!(answers, [0x40, 0x00, 0x00, 0x00]);
        assert_eq!(plan, fresh);
    }
}
