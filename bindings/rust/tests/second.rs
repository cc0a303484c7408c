//! The same calls put to the second program, which is written from document 01 and, of document 02, Ask 1 and Ask 3 to
//! Ask 10; Ask 2 changes no answer. Every answer agrees. The calls of Ask 9 are in `images.rs`, that of Ask 10 in
//! `weaves.rs`.

mod drawn;

use drawn::{first_round, sheet_rounds};
use gaplinte::{
    raw, Answered, Answers, Call, Class, Line, Node, Owner, Period, Plan, Reason, Refusal, Round,
    Start, Trial, Walker,
};
use second::orders::{self, Order};
use second::random::Random;
use second::reason::{self, Asked};
use second::record::{drawn_write, Held, Record};
use second::shapes::Shape;
use second::{ask, lists, sheet, tree, trial, walker};
use std::array;
use std::collections::{BTreeMap, BTreeSet};

const LISTS_OF_A_SHAPE: u64 = 100;
const ROUNDS: u64 = 200;
const DRAWN_PERIODS: u64 = 40;
const SHEETS: u64 = 4;
const REASONS: u64 = 60;

/// Cut to 8, 16 or 32 bits some would be line 0 or 4.
const LINES_ABOVE_63: [u64; 9] = [
    64,
    255,
    260,
    65_540,
    1 << 32,
    (1 << 32) + 4,
    1 << 63,
    u64::MAX - 63,
    u64::MAX,
];

/// Cut to 16 or 32 bits some would be 4 or 12.
const BORDER_PERIODS: [u64; 15] = [
    0,
    1,
    2,
    4094,
    4095,
    4096,
    4097,
    65_535,
    65_536,
    65_548,
    1 << 32,
    (1 << 32) + 4,
    1 << 63,
    u64::MAX - 1,
    u64::MAX,
];

/// A refusal of either program as its number.
fn numbered<T>(answer: Result<T, Refusal>) -> Result<T, u8> {
    answer.map_err(Refusal::number)
}

fn numbered_second<T>(answer: Result<T, second::refusal::Refusal>) -> Result<T, u8> {
    answer.map_err(second::refusal::Refusal::number)
}

/// An owner of the second program.
fn owner_of_second(owner: ask::Owner) -> Owner {
    match owner {
        ask::Owner::Line(line) => Owner::Line(Line(line.into())),
        ask::Owner::Idle { rest } => Owner::Idle { rest },
    }
}

fn lists() -> impl Iterator<Item = Vec<u8>> {
    Shape::ALL.into_iter().flat_map(|shape| {
        let mut random = Random::new(11);
        (0..LISTS_OF_A_SHAPE).map(move |_| lists::generate(shape, &mut random))
    })
}

/// A number that is mostly below the bound, sometimes just about it and sometimes any.
fn number_about(bound: u64, random: &mut Random) -> u64 {
    match random.below(8) {
        0 => random.draw(),
        1 => bound + random.below(3),
        2 => 65_536 + random.below(bound),
        _ => random.below(bound),
    }
}

fn rounds(random: &mut Random) -> Vec<u64> {
    let near = [0, 1 << 32, u64::MAX - ROUNDS];
    let mut rounds: Vec<_> = near
        .into_iter()
        .flat_map(|from| from..=from + ROUNDS)
        .collect();
    rounds.extend((0..ROUNDS).map(|_| random.draw()));
    rounds
}

/// Owners on two plans, with the rests of idle rounds.
fn same_owners(plan: &Plan, other: &tree::Plan, rounds: impl IntoIterator<Item = u64>) {
    for round in rounds {
        let expected = owner_of_second(ask::owner(other, round));
        assert_eq!(plan.owner(Round(round)), expected, "round {round}");
    }
}

/// How many of the last rounds of 64 bits are idle and have the next owned one past them.
fn rests_past_64_bits(plan: &Plan) -> usize {
    let is_past = |&round: &u64| match plan.owner(Round(round)) {
        Owner::Line(_) => false,
        Owner::Idle { rest } => rest > u64::MAX - round,
    };
    (u64::MAX - ROUNDS..=u64::MAX).filter(is_past).count()
}

/// The lines that each of two plans has open, with period and start.
fn same_lines(plan: &Plan, other: &tree::Plan) {
    let lines = plan.lines().map(|it| (it.line.0, it.period.0, it.start.0));
    let expected = (0..64).filter_map(|line| {
        let shown = ask::show(other, line).ok()?;
        Some((line, shown.period.0.into(), shown.start.0.into()))
    });
    assert!(lines.eq(expected));
}

/// Turns of a line on two plans, from a round near a border or from any on: in no rounds, in about as many as its
/// period, in the most and in any number of them.
fn same_turns(plan: &Plan, other: &tree::Plan, line: u64, random: &mut Random) {
    let period = ask::show(other, line).map_or(1, |shown| shown.period.0.into());
    let first = first_round(random);
    let any = random.draw() as u32;
    for rounds in [0, 1, period - 1, period, period + 1, u32::MAX, any] {
        let turns = numbered(plan.turns(Line(line), Round(first), rounds));
        let expected = numbered_second(ask::turns(other, line, first, rounds));
        assert_eq!(turns, expected, "line {line}, {rounds} rounds from {first}");
    }
}

/// A sheet on two plans, of few or many rounds from a round near a border or from any on.
fn same_sheet(plan: &Plan, other: &tree::Plan, random: &mut Random) {
    let (first, rounds) = (first_round(random), sheet_rounds(random));
    let sheet = plan.sheet(Round(first), rounds);
    let expected = sheet::sheet(other, first, rounds);
    let figures = (sheet.turns.map(u64::from), u64::from(sheet.idle));
    let expected = (expected.turns, expected.idle);
    assert_eq!(figures, expected, "{rounds} rounds from {first}");
}

/// A trial on two plans that should have the same tree: whether a node would be split, or the refusal.
fn same_trial(plan: &Plan, other: &tree::Plan, line: u64, period: u64) -> Result<bool, u8> {
    let told = numbered(plan.trial(Line(line), Period(period)));
    let expected = numbered_second(trial::trial(other, line, period)).map(|it| Trial {
        start: Start(it.start.0.into()),
        added: it.added,
        split: it.split,
    });
    assert_eq!(told, expected, "line {line}, period {period}");
    told.map(|it| it.split)
}

/// Periods at the borders, drawn ones, and such as share a factor with the period of an open line.
fn periods_to_try(plan: &Plan, random: &mut Random) -> Vec<u64> {
    let mut periods = BTreeSet::from(BORDER_PERIODS);
    periods.extend((0..DRAWN_PERIODS).map(|_| number_about(4096, random)));
    let factors = |period| [period / 3, period / 2, period, 2 * period, 3 * period];
    periods.extend(plan.lines().flat_map(|it| factors(it.period.0)));
    periods.into_iter().collect()
}

/// Trials of every line with one of the periods, and of a line that is not open, if there is one, with each of them.
fn same_trials(plan: &Plan, other: &tree::Plan, random: &mut Random) -> Vec<Result<bool, u8>> {
    let periods = periods_to_try(plan, random);
    let lines = (0..64).chain(LINES_ABOVE_63);
    let mut tries: Vec<_> = lines.map(|line| (line, random.pick(&periods))).collect();
    let not_open = (0..64).find(|&line| ask::show(other, line).is_err());
    let line = not_open.unwrap_or(63);
    tries.extend(periods.into_iter().map(|period| (line, period)));
    let told = tries
        .into_iter()
        .map(|(line, period)| same_trial(plan, other, line, period));
    told.collect()
}

/// What stands in the way on two plans that should have the same tree: a line or not, or the refusal.
fn same_reason(plan: &Plan, other: &tree::Plan, asked: Asked) -> Result<bool, u8> {
    let (level, offset) = (asked.level, asked.offset);
    let node = Node { level, offset };
    let told = numbered(plan.reason(Period(asked.period), node, Class(asked.class)));
    let expected = numbered_second(reason::reason(other, asked)).map(|it| match it {
        reason::Reason::Step => Reason::StepDoesNotDivide,
        reason::Reason::Line(line) => Reason::Line(Line(line.into())),
    });
    assert_eq!(told, expected, "{asked:?}");
    told.map(|it| it.line().is_some())
}

/// A node above an open line, or where the line itself stands. In a plan without lines the root.
fn drawn_node(plan: &Plan, random: &mut Random) -> Node {
    let lines: Vec<_> = plan.lines().map(|it| it.line).collect();
    if lines.is_empty() {
        return Node::ROOT;
    }
    let rows = plan.show(random.pick(&lines)).unwrap().rows;
    let used = rows.iter().filter(|row| row.weight > 0).count();
    let level = random.below(used as u64 + 1);
    let (mut step, mut offset) = (1, 0);
    for row in &rows[..level as usize] {
        offset += u64::from(row.edge) * step;
        step *= u64::from(row.weight);
    }
    Node { level, offset }
}

/// Mostly the number; else one more, one with the same lowest bits, or any.
fn number_or_other(number: u64, random: &mut Random) -> u64 {
    match random.below(40) {
        0 => number + 1,
        1 => number + 65_536,
        2 => number + (1 << 32),
        3 => random.draw(),
        _ => number,
    }
}

/// Reasons at nodes, where lines stand and where nothing stands, mostly for periods in range.
fn same_reasons(plan: &Plan, other: &tree::Plan, random: &mut Random) -> Vec<Result<bool, u8>> {
    let mut periods = periods_to_try(plan, random);
    periods.retain(|period| (1..=4095).contains(period));
    let told = (0..REASONS).map(|_| {
        let node = drawn_node(plan, random);
        let below = 1 << random.below(6);
        let class = random.below(below);
        let asked = Asked {
            period: number_or_other(random.pick(&periods), random),
            level: number_or_other(node.level, random),
            offset: number_or_other(node.offset, random),
            class: number_or_other(class, random),
        };
        same_reason(plan, other, asked)
    });
    told.collect()
}

/// What show answers of every line, row by row.
fn same_paths(plan: &Plan, other: &tree::Plan) {
    for line in 0..66 {
        let shown = numbered(plan.show(Line(line))).map(|shown| {
            let rows = shown.rows.map(|row| (row.weight, row.edge));
            (shown.period.0, shown.start.0, rows)
        });
        let expected = numbered_second(ask::show(other, line)).map(|shown| {
            let rows = shown.path.map(|row| (row.weight, row.edge));
            (shown.period.0.into(), shown.start.0.into(), rows)
        });
        assert_eq!(shown, expected, "line {line}");
    }
}

/// Owner, show, turns, sheets, the open lines and the walker on two plans that should have the same tree.
fn ask_both(plan: &Plan, other: &tree::Plan, random: &mut Random) {
    same_owners(plan, other, rounds(random));
    same_lines(plan, other);
    same_paths(plan, other);
    for line in 0..66 {
        same_turns(plan, other, line, random);
    }
    for _ in 0..SHEETS {
        same_sheet(plan, other, random);
    }
    for from in [0, random.draw(), u64::MAX - ROUNDS / 2] {
        let mut walker = Walker {
            next: Round(from),
            owned: from / 2,
        };
        let mut place = walker::Place {
            next: from,
            owned: from / 2,
        };
        for _ in 0..ROUNDS {
            let (answer, after) = walker::walk(other, place);
            let expected = numbered_second(answer).map(owner_of_second);
            assert_eq!(numbered(walker.walk(plan)), expected);
            assert_eq!((walker.next.0, walker.owned), (after.next, after.owned));
            place = after;
        }
    }
}

/// A close that was done gave another line another path.
fn joined(before: &Plan, line: u64, after: &Plan) -> bool {
    let shown = |plan: &Plan, other| plan.show(Line(other)).map(|it| it.rows);
    (0..64).any(|other| other != line && shown(before, other) != shown(after, other))
}

/// Opens and closes, with some arguments out of range and some far out of range. After each close that was done every
/// path is that of the second program, and many closes join nodes.
#[test]
fn calls() {
    let mut random = Random::new(12);
    let mut joins = 0;
    for list in lists() {
        let mut plan = Plan::new();
        let mut other = tree::Plan::empty();
        for order in list.chunks_exact(3) {
            let wide = number_about(4096, &mut random);
            match orders::read([order[0], order[1], order[2]]) {
                Ok(Order::Open { line, period }) => {
                    let line = if wide < 64 { wide } else { line.into() };
                    let period = if wide < 4096 { period.into() } else { wide };
                    let answer = plan.open(Line(line), Period(period)).map(|start| start.0);
                    let expected = other.open(line, period).map(|start| start.0.into());
                    assert_eq!(numbered(answer), numbered_second(expected));
                }
                Ok(Order::Close { line }) => {
                    let line = if wide < 4096 { line.into() } else { wide };
                    let before = plan.clone();
                    let answer = plan.close(Line(line));
                    assert_eq!(numbered(answer), numbered_second(other.close(line)));
                    if answer.is_ok() {
                        same_paths(&plan, &other);
                        joins += usize::from(joined(&before, line, &plan));
                    }
                }
                Err(_) => continue,
            }
        }
        ask_both(&plan, &other, &mut random);
    }
    assert!(joins > 200, "{joins}");
}

/// What the second program tells of each order of a list.
fn told_by_second(plan: &mut tree::Plan, list: &[u8]) -> Vec<Result<Answered, u8>> {
    let (orders, rest) = list.as_chunks();
    assert!(rest.is_empty());
    let told = orders.iter().map(|&order| {
        let answer = numbered_second(orders::run_order(plan, order))?;
        Ok(answer.map_or(Answered::Closed, |start| {
            Answered::Booked(Start(start.0.into()))
        }))
    });
    told.collect()
}

/// Lists, run whole on the empty plan and once more on the plan that they left. Rests past 2^64 are seen often.
#[test]
fn order_lists() {
    let mut random = Random::new(13);
    let mut past = 0;
    for list in lists() {
        let mut plan = Plan::new();
        let mut other = tree::Plan::empty();
        for _ in 0..2 {
            let told = told_by_second(&mut other.clone(), &list);
            let vector = plan.clone().run_list(&list).unwrap();
            assert!(vector.into_iter().map(numbered).eq(told.clone()));

            let room = 2 * (list.len() / 3) + random.below(4) as usize;
            let mut answers = vec![0xee; room];
            let mut expected = vec![0xee; room];
            let run = plan.run_list_into(&list, &mut answers).unwrap();
            assert!(run.map(numbered).eq(told.clone()));
            orders::run(&mut other, &list, &mut expected).unwrap();
            assert_eq!(answers, expected);
            let decoded = Answers::of(&list, &answers).unwrap();
            assert!(decoded.map(numbered).eq(told));
        }
        ask_both(&plan, &other, &mut random);
        past += rests_past_64_bits(&plan);
    }
    assert!(past > 1000, "{past}");
}

/// Before each open of a list trials with its line or another and with its period or another, and more after the list.
fn try_list(list: &[u8], random: &mut Random) -> Vec<Result<bool, u8>> {
    let mut plan = Plan::new();
    let mut other = tree::Plan::empty();
    let mut told = Vec::new();
    for order in list.as_chunks::<3>().0 {
        if let Ok(Order::Open { line, period }) = orders::read(*order) {
            let lines = [line.into(), number_about(64, random)];
            let periods = [period.into(), number_about(4096, random)];
            let tries = lines.map(|line| periods.map(|period| (line, period)));
            let tries = tries.as_flattened().iter();
            told.extend(tries.map(|&(line, period)| same_trial(&plan, &other, line, period)));
        }
        let answers = plan.run_list(order).unwrap().into_iter().map(numbered);
        assert!(answers.eq(told_by_second(&mut other, order)));
    }
    told.extend(same_trials(&plan, &other, random));
    told
}

/// Each refusal of a trial, and trials with and without a split, are seen often.
#[test]
fn trials() {
    let mut random = Random::new(16);
    let mut seen = BTreeMap::new();
    for told in lists().flat_map(|list| try_list(&list, &mut random)) {
        *seen.entry(told).or_insert(0) += 1;
    }
    let kinds = [Ok(false), Ok(true), Err(1), Err(2), Err(3), Err(5)];
    assert!(seen.keys().eq(&kinds), "{seen:?}");
    assert!(seen.values().all(|&count| count > 1000), "{seen:?}");
}

/// Each refusal of the call, steps that do not divide the period and lines are seen often.
#[test]
fn reasons() {
    let mut random = Random::new(20);
    let mut seen = BTreeMap::new();
    for list in lists() {
        let mut plan = Plan::new();
        let mut other = tree::Plan::empty();
        for orders in list.chunks(3 * 32) {
            let answers = plan.run_list(orders).unwrap().into_iter().map(numbered);
            assert!(answers.eq(told_by_second(&mut other, orders)));
            for told in same_reasons(&plan, &other, &mut random) {
                *seen.entry(told).or_insert(0) += 1;
            }
        }
    }
    let kinds = [Ok(false), Ok(true), Err(2), Err(10), Err(11), Err(12)];
    assert!(seen.keys().eq(&kinds), "{seen:?}");
    assert!(seen.values().all(|&count| count > 400), "{seen:?}");
}

fn numbers(record: &Record) -> [u16; raw::PLAN_NUMBERS] {
    array::from_fn(|place| record.number(place))
}

/// Records with numbers written over: no tree, the same tree or another one, and then calls on them.
#[test]
fn damaged_records() {
    let mut random = Random::new(15);
    let mut seen = [0; 2];
    for list in lists() {
        let mut held = Held::empty();
        held.run(&list, &mut vec![0; list.len()]).unwrap();
        for _ in 0..8 {
            let (place, number) = drawn_write(&held.record, &mut random);
            held.write(place, number);
            let mut plan = Plan::from_record(numbers(&held.record));
            assert_eq!(plan.is_tree(), held.record.tree().is_some());
            seen[usize::from(plan.is_tree())] += 1;
            same_lines(&plan, &held.plan);
            let near = random.below(5000);
            let asked = [0, near, random.draw(), u64::MAX - near, u64::MAX];
            same_owners(&plan, &held.plan, asked);

            let (line, period) = (random.below(64), random.below(4096));
            let mut lines: Vec<u64> = plan.lines().map(|open| open.line.0).collect();
            lines.push(line);
            same_turns(&plan, &held.plan, random.pick(&lines), &mut random);
            same_sheet(&plan, &held.plan, &mut random);
            same_trials(&plan, &held.plan, &mut random);
            same_reasons(&plan, &held.plan, &mut random);
            let answer = plan.close(Line(line));
            assert_eq!(numbered(answer), numbered_second(held.close(line)));
            let _ = same_trial(&plan, &held.plan, line, period);
            let answer = plan.open(Line(line), Period(period)).map(|start| start.0);
            let expected = held.open(line, period).map(|start| start.0.into());
            assert_eq!(numbered(answer), numbered_second(expected));
            assert_eq!(*plan.record(), numbers(&held.record));
        }
    }
    assert!(seen.iter().all(|&count| count > 100), "{seen:?}");
}

#[test]
fn packing_and_reading() {
    let mut random = Random::new(14);
    for _ in 0..100_000 {
        let kind = random.below(3);
        let line = number_about(64, &mut random);
        let period = match random.below(3) {
            0 => 0,
            _ => number_about(4096, &mut random),
        };
        let expected = numbered_second(orders::pack(kind, line, period));
        let mut order = [0xee; 3];
        match raw::pack(kind, line, period, &mut order) {
            0 => assert_eq!(Ok(order), expected),
            refusal => assert_eq!((-refusal, order), (expected.unwrap_err().into(), [0xee; 3])),
        }
        if kind == 0 {
            let call = Call::Open(Line(line), Period(period));
            assert_eq!(numbered(call.pack()), expected);
        } else if kind == 1 && period == 0 {
            assert_eq!(numbered(Call::Close(Line(line)).pack()), expected);
        }

        let [first, second, third, ..] = random.draw().to_be_bytes();
        let order = match random.below(2) {
            0 => [first, second, third],
            _ => [first & 0x7f, second, third & 0xf0],
        };
        let expected = orders::read(order).map(|order| match order {
            Order::Open { line, period } => Call::Open(Line(line.into()), Period(period.into())),
            Order::Close { line } => Call::Close(Line(line.into())),
        });
        assert_eq!(numbered(Call::read(order)), numbered_second(expected));
    }
}
