//! Each refusal, by each call that can give it. A refused call leaves plan, place and buffers as found.

use gaplinte::{
    raw, Answered, Answers, Call, Class, Line, Node, Owner, Period, Plan, Refusal, Round, Start,
    Walker,
};

fn one_line() -> Plan {
    let mut plan = Plan::new();
    assert_eq!(plan.open(Line(0), Period(4)), Ok(Start(0)));
    plan
}

/// The order of a kind that may be none, of which a [`Call`] cannot be made.
fn pack(kind: u64, line: Line, period: Period) -> Result<[u8; 3], Refusal> {
    let mut order = [0xee; 3];
    let answer = raw::pack(kind, line.0, period.0, &mut order);
    if answer == 0 {
        return Ok(order);
    }
    assert_eq!(order, [0xee; 3]);
    Err(Refusal::numbered(answer.unsigned_abs() as u8).unwrap())
}

#[test]
fn numbers() {
    let numbers = [
        Refusal::LineAbove63,
        Refusal::PeriodOutOfRange,
        Refusal::LineOpen,
        Refusal::LineNotOpen,
        Refusal::NoCandidate,
        Refusal::NoOrder,
        Refusal::ListLength,
        Refusal::BufferTooShort,
        Refusal::WalkerAtEnd,
        Refusal::NoNode,
        Refusal::NoClass,
        Refusal::NoLineInClass,
        Refusal::ImageLength,
        Refusal::ImageField,
        Refusal::OpenInBoth,
        Refusal::DoubledPeriodOutOfRange,
    ]
    .map(Refusal::number);
    assert!(numbers.into_iter().eq(1..=16));
    assert_eq!(Refusal::ALL.map(Refusal::number), numbers);
    for number in 0..=255 {
        let refusal = Refusal::numbered(number);
        assert_eq!(refusal.is_some(), (1..=16).contains(&number));
        assert!(refusal.is_none_or(|refusal| refusal.number() == number));
    }
}

/// Each is a sentence of its own with its number, in the words of the header for C.
#[test]
fn texts() {
    let header = include_str!("../../../include/gaplinte.h");
    for refusal in Refusal::ALL {
        let (number, text) = (refusal.number(), refusal.text());
        assert_eq!(
            refusal.to_string(),
            format!("refused with {number}: {text}")
        );
        assert_eq!(
            header.matches(&format!("return \"{text}\";")).count(),
            1,
            "{text}"
        );
    }
    assert_eq!(
        Refusal::LineNotOpen.to_string(),
        "refused with 4: the line is not open"
    );
}

#[test]
fn line_above_63() {
    let mut plan = one_line();
    for line in [64, 65, 256, 1 << 32, u64::MAX].map(Line) {
        assert_eq!(plan.open(line, Period(4)), Err(Refusal::LineAbove63));
        assert_eq!(plan.open(line, Period(0)), Err(Refusal::LineAbove63));
        assert_eq!(plan.trial(line, Period(4)), Err(Refusal::LineAbove63));
        assert_eq!(plan.trial(line, Period(0)), Err(Refusal::LineAbove63));
        assert_eq!(plan.close(line), Err(Refusal::LineAbove63));
        assert_eq!(plan.show(line), Err(Refusal::LineAbove63));
        assert_eq!(plan.turns(line, Round(0), 9), Err(Refusal::LineAbove63));
        assert_eq!(pack(0, line, Period(4)), Err(Refusal::LineAbove63));
        assert_eq!(
            Call::Open(line, Period(4)).pack(),
            Err(Refusal::LineAbove63)
        );
        assert_eq!(Call::Close(line).pack(), Err(Refusal::LineAbove63));
        assert_eq!(pack(1, line, Period(4096)), Err(Refusal::LineAbove63));
    }
    assert_eq!(plan, one_line());
}

#[test]
fn period_out_of_range() {
    let mut plan = one_line();
    // 65,548 is 12 in its low 16 bits: it is refused, and not cut.
    for period in [4096, 65_535, 65_548, 1 << 32, u64::MAX].map(Period) {
        assert_eq!(plan.open(Line(1), period), Err(Refusal::PeriodOutOfRange));
        // before 3
        assert_eq!(plan.open(Line(0), period), Err(Refusal::PeriodOutOfRange));
        for line in [1, 0].map(Line) {
            assert_eq!(plan.trial(line, period), Err(Refusal::PeriodOutOfRange));
        }
        let reason = plan.reason(period, Node::ROOT, Class(0));
        assert_eq!(reason, Err(Refusal::PeriodOutOfRange));
        assert_eq!(pack(0, Line(1), period), Err(Refusal::PeriodOutOfRange));
        assert_eq!(
            Call::Open(Line(1), period).pack(),
            Err(Refusal::PeriodOutOfRange)
        );
        assert_eq!(pack(1, Line(1), period), Err(Refusal::PeriodOutOfRange));
    }
    assert_eq!(
        plan.open(Line(1), Period(0)),
        Err(Refusal::PeriodOutOfRange)
    );
    assert_eq!(
        plan.trial(Line(1), Period(0)),
        Err(Refusal::PeriodOutOfRange)
    );
    let reason = plan.reason(Period(0), Node::ROOT, Class(0));
    assert_eq!(reason, Err(Refusal::PeriodOutOfRange));
    assert_eq!(pack(0, Line(1), Period(0)), Ok([0x01, 0x00, 0x00]));
    assert_eq!(plan, one_line());
}

#[test]
fn line_open_and_not_open() {
    let mut plan = one_line();
    assert_eq!(plan.open(Line(0), Period(4)), Err(Refusal::LineOpen));
    // before 5
    for period in [4, 3].map(Period) {
        assert_eq!(plan.trial(Line(0), period), Err(Refusal::LineOpen));
    }
    assert_eq!(plan.close(Line(1)), Err(Refusal::LineNotOpen));
    assert_eq!(plan.show(Line(1)), Err(Refusal::LineNotOpen));
    for rounds in [0, 9] {
        let turns = plan.turns(Line(1), Round(0), rounds);
        assert_eq!(turns, Err(Refusal::LineNotOpen));
    }
    assert_eq!(plan, one_line());
}

#[test]
fn no_candidate() {
    let mut plan = one_line();
    assert_eq!(plan.open(Line(1), Period(3)), Err(Refusal::NoCandidate));
    assert_eq!(plan.trial(Line(1), Period(3)), Err(Refusal::NoCandidate));
    assert_eq!(plan, one_line());
}

/// The root has weight 4, and under its edge 0 stands the line.
#[test]
fn no_reason() {
    let plan = one_line();
    let line = Node {
        level: 1,
        offset: 0,
    };
    let reason = |node, class| plan.reason(Period(4), node, Class(class));
    assert_eq!(reason(line, 0), Err(Refusal::NoNode));
    assert_eq!(reason(Node::ROOT, 4), Err(Refusal::NoClass));
    assert_eq!(reason(Node::ROOT, 3), Err(Refusal::NoLineInClass));
    assert_eq!(plan, one_line());
}

#[test]
fn no_order() {
    assert_eq!(pack(2, Line(0), Period(0)), Err(Refusal::NoOrder));
    assert_eq!(
        pack(u64::MAX, Line(64), Period(4096)),
        Err(Refusal::NoOrder)
    );
    assert_eq!(pack(1, Line(0), Period(1)), Err(Refusal::NoOrder));
    for order in [
        [0x80, 0, 0],
        [0xc0, 0, 0],
        [0, 0, 1],
        [0, 0, 8],
        [0x40, 0, 0x10],
    ] {
        assert_eq!(Call::read(order), Err(Refusal::NoOrder), "{order:x?}");
    }
}

#[test]
fn orders_there_and_back() {
    for line in 0..64 {
        for period in [0, 1, 2, 15, 16, 255, 256, 4094, 4095] {
            let call = Call::Open(Line(line), Period(period));
            let number = line << 16 | period << 4;
            let order = [(number >> 16) as u8, (number >> 8) as u8, number as u8];
            assert_eq!(call.pack(), Ok(order));
            assert_eq!(Call::read(order), Ok(call));
        }
        let order = [0x40 | line as u8, 0, 0];
        assert_eq!(Call::Close(Line(line)).pack(), Ok(order));
        assert_eq!(Call::read(order), Ok(Call::Close(Line(line))));
    }
}

#[test]
fn list_length_and_short_answers() {
    let mut plan = one_line();
    let mut answers = vec![0xee; 50_000];
    let mut refused = |orders: &[u8], answers: &mut [u8]| {
        let run = plan.run_list_into(orders, answers);
        run.expect_err("the list is refused")
    };
    for length in [1, 2, 4, 65_534, 65_536, 65_538] {
        let orders = vec![0; length];
        assert_eq!(refused(&orders, &mut answers), Refusal::ListLength);
        assert_eq!(refused(&orders, &mut []), Refusal::ListLength);
        assert_eq!(one_line().run_list(&orders), Err(Refusal::ListLength));
    }
    for orders in [1, 2, 21_845] {
        let list = [0x01, 0x00, 0x80].repeat(orders);
        let short = &mut answers[..2 * orders - 1];
        assert_eq!(refused(&list, short), Refusal::BufferTooShort);
        assert_eq!(refused(&list, &mut []), Refusal::BufferTooShort);
    }
    assert!(answers.iter().all(|&byte| byte == 0xee));
    assert_eq!(plan, one_line());
}

/// The image of one line under one node has 6 bytes.
#[test]
fn short_buffer_for_an_image() {
    let plan = one_line();
    let mut buffer = [0xee; 5];
    for room in 0..=5 {
        let refused = plan.write_image(&mut buffer[..room]);
        assert_eq!(refused, Err(Refusal::BufferTooShort));
    }
    assert_eq!(buffer, [0xee; 5]);
    assert_eq!(plan.write_image(&mut [0xee; 6]), Ok(6));
}

/// No bytes; 64 lines that are missing, and 65; one more byte; a bit that fills the byte.
#[test]
fn no_image() {
    let (length, field) = (Refusal::ImageLength, Refusal::ImageField);
    let refused: [(&[u8], _); 6] = [
        (&[], length),
        (&[0x80], length),
        (&[0x82], field),
        (&[0x00, 0x00], length),
        (&[0x01], field),
        (&[0x01, 0x00], length),
    ];
    let mut plan = one_line();
    for (bytes, refusal) in refused {
        assert_eq!(plan.read_image(bytes), Err(refusal));
        assert_eq!(Plan::from_image(bytes), Err(refusal));
    }
    assert_eq!(plan, one_line());
}

/// 15 comes before 16, and a plan has its lines in common with itself. Both plans are as found.
#[test]
fn not_woven() {
    let (in_both, out_of_range) = (Refusal::OpenInBoth, Refusal::DoubledPeriodOutOfRange);
    let plan = one_line();
    let (mut same, mut long) = (Plan::new(), Plan::new());
    assert_eq!(same.open(Line(0), Period(4095)), Ok(Start(0)));
    assert_eq!(long.open(Line(1), Period(2048)), Ok(Start(0)));
    let found = (same.clone(), long.clone());
    for (one, other, refusal) in [
        (&plan, &same, in_both),
        (&plan, &plan, in_both),
        (&long, &long, in_both),
        (&plan, &long, out_of_range),
        (&same, &long, out_of_range),
        (&same, &Plan::new(), out_of_range),
    ] {
        assert_eq!(one.weave(other), Err(refusal));
        assert_eq!(other.weave(one), Err(refusal));
    }
    assert_eq!((plan, (same, long)), (one_line(), found));
}

#[test]
fn shortest_and_longest_list() {
    let mut plan = one_line();
    assert_eq!(plan.run_list_into(&[], &mut []).unwrap().len(), 0);
    assert_eq!(plan.run_list(&[]), Ok(vec![]));
    assert_eq!(plan, one_line());
    // The line opens once, and is open after that.
    let longest = [0x01, 0x00, 0x80].repeat(21_845);
    let mut answers = vec![0xee; 50_000];
    let run = plan.run_list_into(&longest, &mut answers).unwrap();
    let mut told = vec![Err(Refusal::LineOpen); 21_845];
    told[0] = Ok(Answered::Booked(Start(1)));
    assert_eq!(run.collect::<Vec<_>>(), told);
    assert_eq!(answers[..2], [0x00, 0x01]);
    assert!(answers[2..43_690]
        .chunks(2)
        .all(|answer| answer == [0x30, 0x00]));
    assert!(answers[43_690..].iter().all(|&byte| byte == 0xee));
    assert_eq!(one_line().run_list(&longest), Ok(told));
}

/// Bytes with which no list is answered are not taken for answers.
#[test]
fn bytes_that_are_no_answers() {
    let (open, close, none) = ([0x01, 0x00, 0x80], [0x41, 0x00, 0x00], [0x80, 0x00, 0x00]);
    let told = |order: &[u8], answer: &[u8]| Answers::of(order, answer)?.next();
    let booked = |start| Some(Ok(Answered::Booked(Start(start))));
    assert_eq!(told(&open, &[0x00, 0x00]), booked(0));
    assert_eq!(told(&open, &[0x00, 0x07, 0xee]), booked(7));
    assert_eq!(told(&open, &[0x50, 0x00]), Some(Err(Refusal::NoCandidate)));
    assert_eq!(told(&close, &[0x00, 0x00]), Some(Ok(Answered::Closed)));
    assert_eq!(told(&none, &[0x60, 0x00]), Some(Err(Refusal::NoOrder)));
    // a start that is not below the period of 8, a start of a close, or one beside a refusal
    assert_eq!(told(&open, &[0x00, 0x08]), None);
    assert_eq!(told(&close, &[0x00, 0x01]), None);
    assert_eq!(told(&open, &[0x50, 0x01]), None);
    // a result that no order has, or not this one
    for result in [1, 4, 6, 7, 8, 9, 10, 11, 12, 13, 14, 15] {
        assert_eq!(told(&open, &[result << 4, 0x00]), None);
    }
    for result in [1, 2, 3, 5, 6, 7, 8, 9, 10, 11, 12, 13, 14, 15] {
        assert_eq!(told(&close, &[result << 4, 0x00]), None);
    }
    for result in [0, 1, 2, 3, 4, 5] {
        assert_eq!(told(&none, &[result << 4, 0x00]), None);
    }
    // too few bytes, and lists of no length that a list has
    assert_eq!(told(&open, &[0x00]), None);
    assert!(Answers::of(&open[..2], &[0x00, 0x00]).is_none());
    assert!(Answers::of(&open.repeat(21_846), &[0; 43_692]).is_none());
    assert!(Answers::of(&open.repeat(21_845), &[0; 43_690]).is_some());
    assert_eq!(Answers::of(&[], &[]).map(|answers| answers.len()), Some(0));
}

#[test]
fn walker() {
    let plan = one_line();
    let mut walker = Walker::default();
    for round in 0..100 {
        let owner = match round % 4 {
            0 => Owner::Line(Line(0)),
            past => Owner::Idle { rest: 4 - past },
        };
        assert_eq!(walker.walk(&plan), Ok(owner));
        assert_eq!(walker.next, Round(round + 1));
        assert_eq!(walker.owned, round / 4 + 1);
    }
    for (next, owned) in [(u64::MAX, 0), (0, u64::MAX), (u64::MAX, u64::MAX)] {
        let next = Round(next);
        let mut at_end = Walker { next, owned };
        assert_eq!(at_end.walk(&plan), Err(Refusal::WalkerAtEnd));
        assert_eq!(at_end, Walker { next, owned });
    }
    let (next, owned) = (Round(u64::MAX - 3), u64::MAX - 1);
    let mut last = Walker { next, owned };
    assert_eq!(last.walk(&plan), Ok(Owner::Line(Line(0))));
    assert_eq!((last.next, last.owned), (Round(u64::MAX - 2), u64::MAX));
    assert_eq!(last.walk(&plan), Err(Refusal::WalkerAtEnd));
}
