//! A trial: what an open would bring about. What is expected is worked out from the rules of documents 01 and 02, or
//! counted in the records before and after the open.

mod overwritten;

use gaplinte::{raw, Call, Line, Period, Plan, Refusal, Start, Trial};
use overwritten::each_overwritten;
use second::lists;
use second::random::Random;
use second::shapes::Shape;
use std::collections::{BTreeMap, BTreeSet};

const LISTS_OF_A_SHAPE: u64 = 100;

/// Start, nodes added and whether a node is split.
type Told = Result<(u64, u16, bool), Refusal>;

const NO_CANDIDATE: Told = Err(Refusal::NoCandidate);

/// The rows in use of each open line: weight and edge, from the root on. A record that is no tree has no open lines.
fn paths(plan: &Plan) -> Vec<Vec<[u16; 2]>> {
    let (lines, _) = plan.record().as_chunks::<22>();
    let lines = lines.iter().filter(|_| plan.is_tree());
    let used = |line: &[u16; 22]| {
        let (rows, _) = line.as_chunks();
        rows.iter().copied().take_while(|row| row[0] > 0).collect()
    };
    lines.map(used).collect()
}

/// How many nodes there are: each is told from the others by the edges that lead to it from the root.
fn count_nodes(paths: &[Vec<[u16; 2]>]) -> usize {
    let mut nodes = BTreeSet::new();
    for path in paths {
        let edges: Vec<u16> = path.iter().map(|row| row[1]).collect();
        nodes.extend((0..path.len()).map(|level| edges[..level].to_vec()));
    }
    nodes.len()
}

/// The weight of each node, by its level and offset.
fn weights(paths: &[Vec<[u16; 2]>]) -> BTreeMap<(usize, u16), u16> {
    let mut weights = BTreeMap::new();
    for path in paths {
        let (mut step, mut offset) = (1, 0);
        for (level, &[weight, edge]) in path.iter().enumerate() {
            weights.insert((level, offset), weight);
            offset += edge * step;
            step *= weight;
        }
    }
    weights
}

/// How many nodes there are more, and whether a node has another weight.
fn difference(before: &Plan, after: &Plan) -> (usize, bool) {
    let (before, after) = (paths(before), paths(after));
    let added = count_nodes(&after) - count_nodes(&before);
    let (before, after) = (weights(&before), weights(&after));
    let another = |place, weight| after.get(place).is_some_and(|after| after != weight);
    let split = before.iter().any(|(place, weight)| another(place, weight));
    (added, split)
}

/// Tries a line and then opens it: start or refusal, nodes added and split are what the open brings about.
fn open_as_tried(plan: &mut Plan, line: Line, period: Period) -> Result<Trial, Refusal> {
    let found = plan.clone();
    let told = plan.trial(line, period);
    assert_eq!(*plan, found, "a trial only reads");
    let answer = plan.open(line, period);
    let start = told.map(|told| told.start);
    assert_eq!(answer, start, "line {line}, period {period}");
    match told {
        Ok(told) => {
            let told = (usize::from(told.added), told.split);
            assert_eq!(
                told,
                difference(&found, plan),
                "line {line}, period {period}"
            );
        }
        Err(_) => assert_eq!(*plan, found),
    }
    told
}

/// Opens lines 1, 2, 3 .. in turn, each with a period, and compares what each one's trial tells.
fn opened(periods: &[(u64, Told)]) -> Plan {
    let mut plan = Plan::new();
    for (line, &(period, expected)) in (1..).zip(periods) {
        let told = open_as_tried(&mut plan, Line(line), Period(period));
        let told = told.map(|it| (it.start.0, it.added, it.split));
        assert_eq!(told, expected, "line {line}, period {period}");
    }
    plan
}

/// Tries line 63, each time on the same plan.
fn expect(plan: &Plan, periods: &[(u64, Told)]) {
    for &(period, expected) in periods {
        let told = open_as_tried(&mut plan.clone(), Line(63), Period(period));
        let told = told.map(|it| (it.start.0, it.added, it.split));
        assert_eq!(told, expected, "period {period}");
    }
}

/// The 6 splits the root: of weight 4 it becomes one of weight 2, with a node of weight 2 above the 4 and one of weight
/// 3 above the 6. The 8 and the 12 get a node of weight 2 each.
fn case_a() -> Plan {
    opened(&[
        (4, Ok((0, 1, false))),
        (6, Ok((1, 2, true))),
        (8, Ok((2, 1, false))),
        (2, NO_CANDIDATE),
        (12, Ok((3, 1, false))),
    ])
}

/// Marked case F: under edge 1 of the deepest node stands a new node of weight 2 each time.
fn rising_powers() -> Plan {
    let starts = (0..11).map(|power| (1 << power) - 1);
    let told = starts.map(|start| (2 * start + 2, Ok((start, 1, false))));
    opened(&told.collect::<Vec<_>>())
}

/// From 2,048 down. The root's edges are 0, 1 .. k - 1 when period 2^(11 - k) is tried. Its weight is halved, and each
/// of these edges leads to a new node of weight 2; the line stands under edge k. All edges of 8 are taken when k is 8.
fn falling_powers() -> Plan {
    let mut periods = vec![(2048, Ok((0, 1, false)))];
    periods.extend((1..8).map(|k| (2048 >> k, Ok((k.into(), k, true)))));
    periods.push((8, NO_CANDIDATE));
    opened(&periods)
}

/// Lines 0 to 62 with period 128, under one node.
fn all_but_one() -> Plan {
    let mut plan = Plan::new();
    for line in 0..63 {
        let told = open_as_tried(&mut plan, Line(line), Period(128));
        let (start, added, split) = (Start(line), (line == 0).into(), false);
        let expected = Trial {
            start,
            added,
            split,
        };
        assert_eq!(told, Ok(expected));
    }
    plan
}

/// One node of weight 12 whose edges are 0 and 2.
fn two_edges_of_12() -> Plan {
    let lines = [(0, 1, false), (1, 0, false), (2, 0, false)];
    let mut plan = opened(&lines.map(|told| (12, Ok(told))));
    assert_eq!(plan.close(Line(2)), Ok(()));
    plan
}

#[test]
fn marked_cases() {
    let first = |period| (period, Ok((0, 1, false)));
    case_a();
    opened(&[first(4), (4, Ok((1, 0, false))), (2, NO_CANDIDATE)]);
    opened(&[first(6), (12, Ok((1, 1, false))), (12, Ok((2, 1, false)))]);
    opened(&[first(1), (1, NO_CANDIDATE), (4095, NO_CANDIDATE)]);
    opened(&[first(2), (3, NO_CANDIDATE)]);
    opened(&[first(4095)]);
    expect(&Plan::new(), &[1, 2, 12, 4095].map(first));
    // Case I: what the 2 splits is joined when its line is closed.
    let split = Ok((1, 1, true));
    let mut plan = opened(&[first(6), (2, split), (3, NO_CANDIDATE)]);
    assert_eq!(plan.close(Line(2)), Ok(()));
    expect(&plan, &[(3, split), (2, split)]);
}

/// Tries and opens lines, each with a period: start and nodes added are these, and no node is split.
fn book(plan: &mut Plan, lines: &[(u64, u64, u64, u16)]) {
    for &(line, period, start, added) in lines {
        let told = open_as_tried(plan, Line(line), Period(period));
        let expected = Trial {
            start: Start(start),
            added,
            split: false,
        };
        assert_eq!(told, Ok(expected), "line {line}");
    }
}

/// The root has weight 4, and above each 8 stands a node of weight 2, which another 8 can share.
#[test]
fn earliest_start() {
    let mut plan = Plan::new();
    book(&mut plan, &[(0, 4, 0, 1)]);
    book(&mut plan, &[(1, 8, 1, 1), (2, 8, 2, 1), (3, 8, 3, 1)]);
    // The root is full, and the nodes offer 5, 6 and 7.
    book(&mut plan, &[(4, 8, 5, 0)]);
    for line in [1, 3] {
        assert_eq!(plan.close(Line(line)), Ok(()));
    }
    // The root offers 3, and the nodes above lines 4 and 2 offer 1 and 6.
    book(&mut plan, &[(5, 8, 1, 0), (6, 8, 3, 1), (7, 8, 6, 0)]);
}

/// In a node of weight 12 class 1 is free for each d but 1. Each of the classes 0 and 2 modulo d gets a node of weight
/// 12 / d, one node where they are the same class; one more stands above the line where q is not 1.
#[test]
fn classes_of_a_split() {
    let split = |added| Ok((1, added, true));
    let periods = [
        (2, split(1)),
        (10, split(2)),
        (3, split(2)),
        (9, split(3)),
        (4, split(2)),
        (8, split(3)),
        (6, split(2)),
        (18, split(3)),
        (12, Ok((1, 0, false))),
        (24, Ok((1, 1, false))),
        (1, NO_CANDIDATE),
        (5, NO_CANDIDATE),
    ];
    expect(&two_edges_of_12(), &periods);
}

/// Under edge 1 of the root a node of weight 4 and step 2, whose edge 0 leads to the 8. Without the 2 both are joined:
/// the root has weight 8, offers 0, and is split.
#[test]
fn a_split_below_the_root() {
    let mut plan = opened(&[(2, Ok((0, 1, false))), (8, Ok((1, 1, false)))]);
    let periods = [
        (4, Ok((3, 1, true))),
        (12, Ok((3, 2, true))),
        (8, Ok((3, 0, false))),
        (16, Ok((3, 1, false))),
        (6, NO_CANDIDATE),
    ];
    expect(&plan, &periods);
    assert_eq!(plan.close(Line(1)), Ok(()));
    expect(&plan, &[(4, Ok((0, 1, true))), (12, Ok((0, 2, true)))]);
}

/// Under edge 0 of the root stands the first 3. Under edge 2 a node of weight 6, which offers 5, and would be split. The
/// root offers 1, and no node is split.
#[test]
fn an_earlier_start_without_a_split() {
    let told = [(3, 0, 1), (3, 1, 0), (18, 2, 1)];
    let mut plan = opened(&told.map(|(period, start, added)| (period, Ok((start, added, false)))));
    assert_eq!(plan.close(Line(2)), Ok(()));
    expect(&plan, &[6, 12].map(|period| (period, Ok((1, 1, false)))));
}

/// Under edge 0 of the root a node of weight 3, which offers 2. Under edge 1 one of weight 4, whose edge 1 leads to the
/// second 8: it offers 1, and would be split.
#[test]
fn a_split_for_an_earlier_start() {
    let told = [(6, (0, 1, false)), (8, (1, 2, true)), (8, (3, 0, false))];
    let mut plan = opened(&told.map(|(period, figures)| (period, Ok(figures))));
    assert_eq!(plan.close(Line(2)), Ok(()));
    expect(&plan, &[12, 36].map(|period| (period, Ok((1, 2, true)))));
}

#[test]
fn deep_plans() {
    // The deepest node has weight 2, step 1,024 and offset 1,023, and its edge 1 is the only free one.
    let plan = rising_powers();
    expect(&plan, &[(2048, Ok((2047, 0, false))), (1024, NO_CANDIDATE)]);
    // The first root, and k nodes for each k from 1 to 7.
    let mut plan = falling_powers();
    assert_eq!(count_nodes(&paths(&plan)), 29);
    // The root has weight 16 and edges 0 to 7. The nodes below it have step 16 at least, and offer 16 at least.
    let periods = [
        (2048, Ok((8, 1, false))),
        (16, Ok((8, 0, false))),
        (48, Ok((8, 1, false))),
        (24, NO_CANDIDATE),
    ];
    expect(&plan, &periods);
    // With eight more lines of 16 the root is full. The node under its edge 0 offers 16, and each other one more.
    for line in 10..18 {
        assert_eq!(plan.open(Line(line), Period(16)), Ok(Start(line - 2)));
    }
    let periods = [
        (2048, Ok((16, 1, false))),
        (32, Ok((16, 0, false))),
        (16, NO_CANDIDATE),
    ];
    expect(&plan, &periods);
}

/// The 64 splits the node: its weight becomes 64, and 63 edges lead to a new node of weight 2. The 192 and the 4,032 do
/// that too, and add a node above themselves: no open adds more.
#[test]
fn full_plans() {
    let plan = all_but_one();
    let periods = [
        (128, Ok((63, 0, false))),
        (256, Ok((63, 1, false))),
        (64, Ok((63, 63, true))),
        (192, Ok((63, 64, true))),
        (4032, Ok((63, 64, true))),
        (32, NO_CANDIDATE),
    ];
    expect(&plan, &periods);
    let mut full = plan;
    assert_eq!(full.open(Line(63), Period(192)), Ok(Start(63)));
    for line in (0..64).map(Line) {
        assert_eq!(full.trial(line, Period(128)), Err(Refusal::LineOpen));
    }
}

/// Each refusal alone, and then with each later check that strikes too: lines 1, 2, 3 and 5 are open, and no node is a
/// candidate for 2. A refused trial leaves what it is lent as found.
#[test]
fn refusals_in_sequence() {
    let plan = case_a();
    let refused = |line, period, refusal: Refusal| {
        let told = open_as_tried(&mut plan.clone(), Line(line), Period(period));
        assert_eq!(told, Err(refusal), "line {line}, period {period}");
        let mut lent = [7, 8, 9];
        let answer = raw::trial(plan.record(), line, period, &mut lent);
        assert_eq!(answer, -i64::from(refusal.number()));
        assert_eq!(lent, [7, 8, 9]);
    };
    // Cut to 8, 16 or 32 bits some would be line 4, which is not open.
    for line in [64, 260, 65_540, (1 << 32) + 4, 1 << 32, u64::MAX] {
        for period in [12, 0, 4096, 2] {
            refused(line, period, Refusal::LineAbove63);
        }
    }
    // Cut to 16 or 32 bits some would be 12.
    for period in [0, 4096, 65_548, (1 << 32) + 12, 1 << 32, u64::MAX] {
        for line in [4, 5] {
            refused(line, period, Refusal::PeriodOutOfRange);
        }
    }
    refused(5, 12, Refusal::LineOpen);
    refused(5, 2, Refusal::LineOpen);
    refused(4, 2, Refusal::NoCandidate);
}

/// What is written, as the library writes it.
#[test]
fn numbers_as_they_are() {
    let plan = all_but_one();
    for (period, numbers) in [(192, [63, 64, 1]), (256, [63, 1, 0])] {
        let mut lent = [9999; 3];
        assert_eq!(raw::trial(plan.record(), 63, period, &mut lent), 0);
        assert_eq!(lent, numbers);
    }
}

#[test]
fn each_period() {
    let plans = [
        case_a(),
        rising_powers(),
        falling_powers(),
        two_edges_of_12(),
        all_but_one(),
    ];
    for plan in plans {
        for period in (0..=4096).map(Period) {
            let _ = open_as_tried(&mut plan.clone(), Line(63), period);
        }
    }
}

/// Tries a line that is not open, for periods that share a factor with one of the plan's.
fn try_factors(plan: &Plan) -> Vec<Result<Trial, Refusal>> {
    let open: Vec<_> = plan.lines().map(|it| it.line).collect();
    let Some(line) = (0..64).map(Line).find(|line| !open.contains(line)) else {
        return Vec::new();
    };
    let factors = |period| [period / 3, period / 2, period, period / 2 * 3];
    let periods: BTreeSet<_> = plan.lines().flat_map(|it| factors(it.period.0)).collect();
    periods
        .into_iter()
        .map(|period| open_as_tried(&mut plan.clone(), line, Period(period)))
        .collect()
}

/// Carries out an order of a list; an open is tried first.
fn run_as_tried(plan: &mut Plan, order: [u8; 3]) -> Option<Result<Trial, Refusal>> {
    match Call::read(order) {
        Ok(Call::Open(line, period)) => return Some(open_as_tried(plan, line, period)),
        // A close that is refused leaves the plan as found.
        Ok(Call::Close(line)) => drop(plan.close(line)),
        Err(_) => {}
    }
    None
}

/// All that is told where every open of a list is tried first, and more after every 16 orders and after the last one.
fn try_list(list: &[u8]) -> Vec<Result<Trial, Refusal>> {
    let mut plan = Plan::new();
    let mut told = Vec::new();
    for orders in list.as_chunks().0.chunks(16) {
        let orders = orders.iter();
        told.extend(orders.filter_map(|&order| run_as_tried(&mut plan, order)));
        told.extend(try_factors(&plan));
    }
    told
}

/// All that is told of generated lists.
fn try_lists(shape: Shape) -> Vec<Result<Trial, Refusal>> {
    let mut random = Random::new(16);
    let lists = (0..LISTS_OF_A_SHAPE).map(|_| lists::generate(shape, &mut random));
    lists.flat_map(|list| try_list(&list)).collect()
}

/// Every refusal that an open in a list can have, and every kind of change is seen often. Without a split one node is added at
/// most. A split adds one at least, and 64 at most: one for each other line and one for the line itself.
#[test]
fn generated_lists() {
    let kinds = [
        (false, 0..=0),
        (false, 1..=1),
        (true, 1..=1),
        (true, 2..=9),
        (true, 10..=64),
    ];
    let mut seen = [0; 5];
    let mut refused = [0; 10];
    for told in Shape::ALL.into_iter().flat_map(try_lists) {
        match told {
            Ok(Trial { added, split, .. }) => {
                let mut kinds = kinds.iter();
                let kind = kinds.position(|(of, counts)| *of == split && counts.contains(&added));
                seen[kind.expect("no open adds so many")] += 1;
            }
            Err(refusal) => refused[usize::from(refusal.number())] += 1,
        }
    }
    assert!(seen.iter().all(|&count| count > 50), "{seen:?}");
    assert!([2, 3, 5].iter().all(|&number| refused[number] > 50));
}

/// In the empty plan only the range of line and period can refuse, and the root is the one node.
fn trial_of_a_first_line(line: Line, period: Period) -> Result<Trial, Refusal> {
    match (line.0, period.0) {
        (64.., _) => Err(Refusal::LineAbove63),
        (_, 0 | 4096..) => Err(Refusal::PeriodOutOfRange),
        _ => Ok(Trial {
            start: Start(0),
            added: 1,
            split: false,
        }),
    }
}

/// Records with numbers written over. One that is no tree is the empty plan to a trial.
#[test]
fn damaged_records() {
    let mut seen = [0; 2];
    each_overwritten(17, 80, |plan, random| {
        let (line, period) = (Line(random.below(66)), Period(random.below(4098)));
        let told = open_as_tried(&mut plan.clone(), line, period);
        seen[usize::from(plan.is_tree())] += 1;
        if !plan.is_tree() {
            assert_eq!(told, trial_of_a_first_line(line, period));
        }
    });
    assert!(seen.iter().all(|&count| count > 100), "{seen:?}");
}
