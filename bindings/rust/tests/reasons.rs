//! The reason behind a 5. What is expected is worked out from documents 01 and 02, or from the periods and the starts
//! of the open lines.

mod overwritten;
mod plans;

use gaplinte::{Class, Line, Node, OpenLine, Period, Plan, Reason, Refusal, Start};
use overwritten::each_overwritten;
use plans::{case_f, opened, CASE_A, CASE_C};
use second::lists;
use second::random::Random;
use second::shapes::Shape;
use std::collections::{BTreeMap, BTreeSet};

const LISTS_OF_A_SHAPE: usize = 10;
const DAMAGED_OF_A_SHAPE: usize = 20;
const DRAWN_PERIODS: usize = 8;

type Told = Result<Reason, Refusal>;

const STEP: Told = Ok(Reason::StepDoesNotDivide);

fn line(number: u64) -> Told {
    Ok(Reason::Line(Line(number)))
}

/// What the call answers, for some nodes, by level and offset, and classes of a period. The plan stays as found.
fn expect(plan: &Plan, period: u64, expected: &[(u64, u64, u64, Told)]) {
    let found = plan.clone();
    for &(level, offset, class, told) in expected {
        let node = Node { level, offset };
        let reason = plan.reason(Period(period), node, Class(class));
        assert_eq!(reason, told, "period {period}, {node}, class {class}");
    }
    assert_eq!(*plan, found, "the call only reads");
}

/// Marked case A up to the 2, which is refused with 5. The root has weight 2. At level 1 the node at offset 0 has
/// weight 2, and the one at offset 1, above the 6, weight 3. At level 2 the node above the 8 has offset 2, weight 2 and
/// step 4.
fn refused_with_5() -> Plan {
    let mut plan = opened(&CASE_A[..3]);
    let refused = plan.open(Line(4), Period(2));
    assert_eq!(refused, Err(Refusal::NoCandidate));
    plan
}

/// Each class of each node has a reason. Without the 8 each still has one; without the 6 the root and the node above
/// the 4 are joined, class 1 of the root has none, and the 2 is booked there.
#[test]
fn taken_away_one_after_the_other() {
    let mut plan = refused_with_5();
    let above = [(0, 0, 0, line(1)), (1, 0, 0, line(1))];
    let above_the_6 = [(0, 0, 1, line(2)), (1, 1, 0, line(2))];
    expect(&plan, 2, &above);
    expect(&plan, 2, &above_the_6);
    expect(&plan, 2, &[(2, 2, 0, STEP), (2, 2, 1, STEP)]);
    assert_eq!(plan.close(Line(3)), Ok(()));
    expect(&plan, 2, &above);
    expect(&plan, 2, &above_the_6);
    expect(&plan, 2, &[(2, 2, 0, Err(Refusal::NoNode))]);
    let refused = plan.open(Line(4), Period(2));
    assert_eq!(refused, Err(Refusal::NoCandidate));
    assert_eq!(plan.close(Line(2)), Ok(()));
    expect(&plan, 2, &above[..1]);
    expect(&plan, 2, &[(0, 0, 1, Err(Refusal::NoLineInClass))]);
    let no_node = Err(Refusal::NoNode);
    expect(&plan, 2, &[(1, 0, 0, no_node), (1, 1, 0, no_node)]);
    assert_eq!(plan.open(Line(4), Period(2)), Ok(Start(1)));
    expect(&plan, 2, &above);
    expect(&plan, 2, &[(0, 0, 1, line(4))]);
}

/// Line 0 is the deepest of those with an even start, and line 63 the only one with an odd start.
#[test]
fn the_lowest_number_at_any_depth() {
    let mut plan = Plan::new();
    for (line, period, start) in [(9, 4, 0), (63, 6, 1), (5, 8, 2), (0, 16, 6)] {
        let answer = plan.open(Line(line), Period(period));
        assert_eq!(answer, Ok(Start(start)));
    }
    expect(&plan, 2, &[(0, 0, 0, line(0)), (0, 0, 1, line(63))]);
    expect(&plan, 4, &[(1, 0, 0, line(9)), (1, 0, 1, line(0))]);
    expect(&plan, 8, &[(2, 2, 0, line(5)), (2, 2, 1, line(0))]);
    assert_eq!(plan.close(Line(0)), Ok(()));
    expect(&plan, 2, &[(0, 0, 0, line(5))]);
    expect(&plan, 4, &[(1, 0, 0, line(9)), (1, 0, 1, line(5))]);
    assert_eq!(plan.close(Line(5)), Ok(()));
    expect(&plan, 2, &[(0, 0, 0, line(9))]);
    let free = Err(Refusal::NoLineInClass);
    expect(&plan, 4, &[(1, 0, 0, line(9)), (1, 0, 1, free)]);
}

/// The root has weight 12, and its edges 0, 1, 6 and 7 lead to lines 1, 2, 7 and 8. The period says of which classes
/// they are.
#[test]
fn classes_by_the_divisor() {
    let lines: Vec<_> = (0..8).map(|start| (12, start)).collect();
    let mut plan = opened(&lines);
    for gone in 3..7 {
        assert_eq!(plan.close(Line(gone)), Ok(()));
    }
    let free = Err(Refusal::NoLineInClass);
    let none = Err(Refusal::NoClass);
    let root = |class, told| (0, 0, class, told);
    expect(&plan, 1, &[root(0, line(1)), root(1, none)]);
    expect(&plan, 5, &[root(0, line(1)), root(1, none)]);
    expect(&plan, 2, &[root(0, line(1)), root(1, line(2))]);
    let of_3 = [root(0, line(1)), root(1, line(2)), root(2, free)];
    expect(&plan, 3, &of_3);
    expect(&plan, 9, &of_3);
    expect(&plan, 9, &[root(3, none)]);
    let of_6 = [
        root(0, line(1)),
        root(1, line(2)),
        root(5, free),
        root(6, none),
    ];
    expect(&plan, 6, &of_6);
    expect(&plan, 30, &of_6);
    let of_12 = [root(6, line(7)), root(7, line(8)), root(8, free)];
    expect(&plan, 12, &of_12);
    expect(&plan, 4092, &of_12);
    expect(&plan, 24, &[root(11, free), root(12, none)]);
}

/// Each refusal, and each later check that strikes too. A line is no node: at level 1 line 1 would have offset 0, and
/// at level 2 line 2 offset 1.
#[test]
fn checks_in_sequence() {
    let plan = opened(&CASE_C);
    let range = Err(Refusal::PeriodOutOfRange);
    for period in [0, 4096] {
        let asked = [(0, 0, 0, range), (0, 0, 12, range), (1, 0, 0, range)];
        expect(&plan, period, &asked);
    }
    let none = Err(Refusal::NoNode);
    let asked = [
        (1, 0, 0, none),
        (1, 3, 0, none),
        (0, 1, 0, none),
        (2, 1, 0, none),
        (11, 0, 0, none),
        (12, 0, 99, none),
    ];
    // No step but 1 divides 5.
    for period in [5, 12] {
        expect(&plan, period, &asked);
    }
    expect(&plan, 5, &[(1, 1, 0, STEP), (1, 1, 2, STEP)]);
    let none = Err(Refusal::NoClass);
    expect(
        &plan,
        12,
        &[(1, 1, 2, none), (0, 0, 6, none), (0, 0, 7, none)],
    );
    let free = Err(Refusal::NoLineInClass);
    expect(&plan, 12, &[(1, 1, 1, free), (0, 0, 3, free)]);
}

/// Cut to 8, 16 or 32 bits these would be the root, one of its classes or the period 2.
#[test]
fn wide_numbers() {
    let plan = refused_with_5();
    let wide = |number: u64| [8, 16, 32, 48, 63].map(|bits| (1_u64 << bits) + number);
    let none = Err(Refusal::NoNode);
    for number in wide(0).into_iter().chain([u64::MAX]) {
        expect(&plan, 2, &[(number, 0, 0, none), (0, number, 0, none)]);
        expect(&plan, 2, &[(0, 0, number, Err(Refusal::NoClass))]);
        expect(&plan, 2, &[(2, 2, number, STEP)]);
    }
    for number in wide(1) {
        expect(&plan, 2, &[(number, 0, 0, none), (1, number, 0, none)]);
        expect(&plan, 2, &[(0, 0, number, Err(Refusal::NoClass))]);
    }
    let range = Err(Refusal::PeriodOutOfRange);
    for period in wide(2).into_iter().skip(1).chain([u64::MAX]) {
        expect(&plan, period, &[(0, 0, 0, range), (3, 3, 3, range)]);
    }
}

#[test]
fn smallest_plans() {
    let none = Err(Refusal::NoNode);
    let mut emptied = opened(&[(4, 0)]);
    assert_eq!(emptied.close(Line(1)), Ok(()));
    for plan in [Plan::new(), emptied] {
        for period in [1, 4, 4095] {
            expect(&plan, period, &[(0, 0, 0, none), (1, 0, 0, none)]);
        }
        expect(&plan, 0, &[(0, 0, 0, Err(Refusal::PeriodOutOfRange))]);
    }
    let plan = opened(&[(1, 0)]);
    for period in [1, 2, 4095] {
        let classes = [(0, 0, 0, line(1)), (0, 0, 1, Err(Refusal::NoClass))];
        expect(&plan, period, &classes);
        expect(&plan, period, &[(1, 0, 0, none)]);
    }
}

#[test]
fn deep_plan() {
    let plan = opened(&case_f());
    let free = Err(Refusal::NoLineInClass);
    let none = Err(Refusal::NoNode);
    expect(&plan, 2, &[(0, 0, 0, line(1)), (0, 0, 1, line(2))]);
    expect(&plan, 2048, &[(10, 1023, 0, line(11)), (10, 1023, 1, free)]);
    expect(&plan, 2048, &[(9, 511, 0, line(10)), (9, 511, 1, line(11))]);
    expect(&plan, 2048, &[(11, 1023, 0, none), (10, 1022, 0, none)]);
    expect(&plan, 1024, &[(10, 1023, 0, line(11))]);
    expect(&plan, 512, &[(10, 1023, 0, STEP), (9, 511, 0, line(10))]);
}

#[test]
fn displayed() {
    let plan = refused_with_5();
    let node = Node {
        level: 1,
        offset: 0,
    };
    assert_eq!(node.to_string(), "level 1, offset 0");
    let reason = plan.reason(Period(2), Node::ROOT, Class(1)).unwrap();
    assert_eq!(reason.to_string(), "line 2 stands in the class");
    assert_eq!(reason.line(), Some(Line(2)));
    let reason = plan.reason(Period(3), node, Class(1)).unwrap();
    let text = "the node's step does not divide the period";
    assert_eq!(reason.to_string(), text);
    assert_eq!(reason.line(), None);
    assert_eq!(format!("{:03}", Class(7)), "007");
}

/// Step and weight of each node, by the lines' paths.
fn nodes(plan: &Plan, lines: &[OpenLine]) -> BTreeMap<Node, (u64, u64)> {
    let mut nodes = BTreeMap::new();
    for open in lines {
        let rows = plan.show(open.line).unwrap().rows;
        let used = rows.iter().take_while(|row| row.weight > 0);
        let (mut step, mut offset) = (1, 0);
        for (level, row) in (0..).zip(used) {
            let (weight, edge) = (u64::from(row.weight), u64::from(row.edge));
            nodes.insert(Node { level, offset }, (step, weight));
            offset += edge * step;
            step *= weight;
        }
    }
    nodes
}

fn greatest_common_divisor(a: u64, b: u64) -> u64 {
    match b {
        0 => a,
        _ => greatest_common_divisor(b, a % b),
    }
}

/// The classes of a node of this step and weight, `None` where the step does not divide the period.
fn classes(period: u64, (step, weight): (u64, u64)) -> Option<u64> {
    let divides = period.is_multiple_of(step);
    divides.then(|| greatest_common_divisor(weight, period / step))
}

/// What is told of each class of a node. The edges of class i lead to the rounds that leave r + i·m when they are
/// divided by m·d, and a line stands under one of them where its start is such a round.
fn told_at(
    plan: &Plan,
    lines: &[OpenLine],
    period: u64,
    node: Node,
    shape: (u64, u64),
) -> Vec<Told> {
    let Some(classes) = classes(period, shape) else {
        let Node { level, offset } = node;
        let any = [0, 1, 64, u64::MAX].map(|class| (level, offset, class, STEP));
        expect(plan, period, &any);
        return vec![STEP];
    };
    let led = classes * shape.0;
    let lowest = |class| {
        let left = node.offset + class * shape.0;
        let found = lines.iter().find(|it| it.start.0 % led == left);
        found.map_or(Err(Refusal::NoLineInClass), |it| line(it.line.0))
    };
    let told: Vec<_> = (0..classes).map(lowest).collect();
    for (class, &told) in (0..).zip(&told) {
        expect(plan, period, &[(node.level, node.offset, class, told)]);
    }
    for class in [classes, classes + 1, (1 << 32) + classes - 1, u64::MAX] {
        let none = Err(Refusal::NoClass);
        expect(plan, period, &[(node.level, node.offset, class, none)]);
    }
    told
}

/// What is told of each class of each node of a plan that has an open line. Where each of them has a reason, an open
/// that passes checks 1, 2 and 3 is refused with 5, and elsewhere it is not.
fn explained(plan: &Plan, period: u64) -> Vec<Told> {
    let lines: Vec<_> = plan.lines().collect();
    let nodes = nodes(plan, &lines);
    let told = nodes
        .iter()
        .flat_map(|(&node, &shape)| told_at(plan, &lines, period, node, shape));
    let told: Vec<_> = told.collect();
    let not_open = |number: &u64| lines.iter().all(|open| open.line.0 != *number);
    if let Some(number) = (0..64).find(not_open) {
        let answer = plan.clone().open(Line(number), Period(period));
        let refused = answer == Err(Refusal::NoCandidate);
        assert_eq!(refused, told.iter().all(Result::is_ok), "period {period}");
        assert!(refused || answer.is_ok());
    }
    told
}

/// No node has one of these levels and offsets, which are those of a node but for one number.
fn expect_no_nodes_beside(plan: &Plan, period: u64) {
    let lines: Vec<_> = plan.lines().collect();
    let nodes = nodes(plan, &lines);
    let beside = nodes.keys().flat_map(|&Node { level, offset }| {
        let at = |level, offset| Node { level, offset };
        let levels = [level + 1, level.saturating_sub(1), level + (1 << 32)];
        let offsets = [offset + 1, offset + 4096, offset + (1 << 16)];
        let levels = levels.map(|level| at(level, offset));
        levels
            .into_iter()
            .chain(offsets.map(|offset| at(level, offset)))
    });
    for node in beside.filter(|node| !nodes.contains_key(node)) {
        let none = Err(Refusal::NoNode);
        expect(plan, period, &[(node.level, node.offset, 0, none)]);
    }
}

/// Periods that share a factor with one of the plan's, and drawn ones.
fn periods(plan: &Plan, random: &mut Random) -> BTreeSet<u64> {
    let factors = |period| [period / 3, period / 2, period, period / 2 * 3];
    let mut periods: BTreeSet<_> = plan.lines().flat_map(|it| factors(it.period.0)).collect();
    periods.extend((0..DRAWN_PERIODS).map(|_| 1 + random.below(4095)));
    periods.retain(|period| (1..=4095).contains(period));
    periods
}

/// How often a step, a line and no line were told, how often all told were reasons, and how often not.
#[derive(Debug, Default)]
struct Seen {
    steps: usize,
    lines: usize,
    free: usize,
    refused: usize,
    booked: usize,
}

impl Seen {
    fn add(&mut self, told: &[Told]) {
        let steps = told.iter().filter(|&&told| told == STEP).count();
        let free = told.iter().filter(|told| told.is_err()).count();
        self.steps += steps;
        self.free += free;
        self.lines += told.len() - steps - free;
        self.refused += usize::from(free == 0);
        self.booked += usize::from(free > 0);
    }

    /// Each kind was seen often.
    fn expect_all_above(&self, least: usize) {
        let counts = [self.steps, self.lines, self.free, self.refused, self.booked];
        assert!(counts.iter().all(|&count| count > least), "{self:?}");
    }
}

fn explain_each(plan: &Plan, random: &mut Random, seen: &mut Seen) {
    if plan.lines().next().is_none() {
        return;
    }
    for period in periods(plan, random) {
        seen.add(&explained(plan, period));
        expect_no_nodes_beside(plan, period);
    }
}

/// After every 16 orders of a list, and after the last one.
#[test]
fn generated_lists() {
    let mut random = Random::new(18);
    let mut seen = Seen::default();
    for shape in Shape::ALL.repeat(LISTS_OF_A_SHAPE) {
        let list = lists::generate(shape, &mut random);
        let mut plan = Plan::new();
        for orders in list.chunks(3 * 16) {
            plan.run_list(orders).unwrap();
            explain_each(&plan, &mut random, &mut seen);
        }
    }
    seen.expect_all_above(500);
}

/// Records with numbers written over. In one that is no tree there is no node.
#[test]
fn damaged_records() {
    let mut seen = Seen::default();
    let mut damaged = 0;
    each_overwritten(19, DAMAGED_OF_A_SHAPE, |plan, random| {
        explain_each(plan, random, &mut seen);
        if !plan.is_tree() {
            damaged += 1;
            let period = 1 + random.below(4095);
            let none = Err(Refusal::NoNode);
            let asked = [0, 1, 2, 10].map(|level| (level, random.below(4), 0, none));
            expect(plan, period, &asked);
        }
    });
    seen.expect_all_above(100);
    assert!(damaged > 100, "{damaged}");
}
