//! `second weave-script cases`: weaves that are refused and weaves just within the limits, sides
//! that are empty, of one line of every round, deep and full, records that are no tree, a plan with
//! its own record, and bookings that go on from a woven plan, as a script (`weave_script.rs`).

use crate::ask::{paths, Path, Row};
use crate::image_cases::{paths_of, ILLEGAL_TREES};
use crate::random::Random;
use crate::record::{Held, Record, RECORD_NUMBERS};
use crate::script::{self, opened_in_turn, Step as Call};
use crate::tree::{Plan, LAST_LINE};
use crate::weave_script::{change, Step};
use std::ops::Range;

/// The whole script.
pub fn cases() -> Vec<Step> {
    [
        periods_at_the_border(),
        lines_in_both(),
        both_refusals(),
        sides_of_every_kind(),
        numbers_of_sides(),
        named_cases(),
        with_itself(),
        damaged_records(),
        damaged_plans(),
        records_of_any_numbers(),
        illegal_trees(),
        deep_plans(),
        full_plans(),
        deepest_plans(),
        joined_after_weaving(),
        woven_again(),
    ]
    .concat()
}

/// The steps of a case, and what they leave.
struct Case {
    steps: Vec<Step>,
    held: Held,
}

impl Case {
    /// With these lines open, from line 1 on (`opened_in_turn`).
    fn opened(periods: &[u64]) -> Case {
        let (calls, held) = opened_in_turn(periods);
        let steps = calls.into_iter().map(Step::Call).collect();
        Case { steps, held }
    }

    fn push(&mut self, step: Step) {
        change(&mut self.held, &step);
        self.steps.push(step);
    }

    fn call(&mut self, call: Call) {
        self.push(Step::Call(call));
    }

    fn open(&mut self, lines: &[(u64, u64)]) {
        for &(line, period) in lines {
            self.call(Call::Open(line, period));
        }
    }

    fn close(&mut self, line: u64) {
        self.call(Call::Close(line));
    }

    fn write(&mut self, numbers: &[(u64, u16)]) {
        for &(place, number) in numbers {
            self.call(Call::Write(place, number));
        }
    }

    /// The plan is side A with an even number and side B with an odd one.
    fn weave(&mut self, side: u64, other: Record) {
        self.push(Step::Weave { side, other });
    }

    /// Every open line, line 0, and the first rounds.
    fn ask(&mut self) {
        let lines = paths(&self.held.plan).into_iter().map(|path| path.line);
        for line in lines.chain([0]) {
            self.call(Call::Show(line.into()));
        }
        (0..9).for_each(|round| self.call(Call::Owner(round)));
    }
}

/// The record of a plan with these lines of these periods.
fn with_lines(lines: &[(u64, u64)]) -> Record {
    let mut plan = Plan::empty();
    for &(line, period) in lines {
        let start = plan.open(line, period);
        start.expect("the line is not open and some node is a candidate");
    }
    Record::of(&plan)
}

/// From this line on.
fn in_turn(first: u64, periods: &[u64]) -> Record {
    let lines = (first..).zip(periods.iter().copied());
    with_lines(&Vec::from_iter(lines))
}

fn empty() -> Record {
    with_lines(&[])
}

/// 4,094 is the longest doubled period (Ask 10, 6): of one line and of one among others, on each
/// side.
fn periods_at_the_border() -> Vec<Step> {
    let mut steps = Vec::new();
    for (periods, of_other) in [
        (&[2_047][..], &[][..]),
        (&[2_048], &[]),
        (&[2_047], &[2_047]),
        (&[2_047], &[2_048]),
        (&[2_048], &[2_048]),
        (&[4_095], &[1]),
        (&[4_094], &[2]),
        (&[1], &[2_047]),
        (&[23, 2_047, 2_047], &[2, 4, 1_024]),
        (&[2, 4, 2_048], &[23, 2_047]),
        (&[3, 2_046, 3_069], &[2_047]),
        (&[3, 9, 2_046], &[7, 7, 2_044]),
    ] {
        for (side, periods, of_other) in [(0, periods, of_other), (1, of_other, periods)] {
            let mut case = Case::opened(periods);
            case.weave(side, in_turn(20, of_other));
            case.ask();
            steps.extend(case.steps);
        }
    }
    steps
}

/// The lowest line, the highest and one between, alone and beside others that are not in both, of
/// equal periods and of different ones (Ask 10, 6). When it is closed, the two are woven.
fn lines_in_both() -> Vec<Step> {
    let mut steps = Vec::new();
    for (side, line) in [(0, 0), (1, 31), (0, 63), (1, 0), (0, 31), (1, 63)] {
        for (beside, beside_of_other, period) in [
            (&[][..], &[][..], 8),
            (&[(10, 4), (11, 6)], &[], 12),
            (&[(10, 4)], &[(9, 6), (62, 6)], 8),
        ] {
            let mut case = Case::opened(&[]);
            case.open(&[&[(line, 8)], beside].concat());
            let other = with_lines(&[&[(line, period)], beside_of_other].concat());
            case.weave(side, other.clone());
            case.ask();
            case.close(line);
            case.weave(side, other);
            case.ask();
            steps.extend(case.steps);
        }
    }
    steps
}

/// A line in both comes before a doubled period, whichever line is too long (Ask 10, 6): the one in
/// both on one side or on each, or others. First the line in both is closed, then all that are too
/// long.
fn both_refusals() -> Vec<Step> {
    let mut steps = Vec::new();
    for (side, lines, of_other) in [
        (0, &[(1, 4_095)][..], &[(1, 4_095)][..]),
        (1, &[(1, 2_048)], &[(1, 2)]),
        (0, &[(1, 2)], &[(1, 2_048)]),
        (1, &[(1, 2), (2, 2_048)], &[(1, 2)]),
        (0, &[(1, 2)], &[(1, 2), (30, 4_094)]),
        (1, &[(2, 2), (1, 2_048)], &[(1, 3), (30, 3_000)]),
        (0, &[(1, 6), (0, 4_092)], &[(63, 2_050), (1, 2_050)]),
    ] {
        let mut case = Case::opened(&[]);
        case.open(lines);
        case.weave(side, with_lines(of_other));
        case.close(1);
        case.weave(side, with_lines(of_other));
        case.ask();
        case.close(0);
        case.close(2);
        case.weave(side, with_lines(of_other));
        let within = |&(_, period): &(u64, u64)| period <= 2_047;
        let of_other: Vec<_> = of_other.iter().copied().filter(within).collect();
        case.weave(side, with_lines(&of_other));
        case.ask();
        steps.extend(case.steps);
    }
    steps
}

/// No line, a line of every round, one line, and several lines, with each of these (Ask 10, 3).
/// Three opens follow.
fn sides_of_every_kind() -> Vec<Step> {
    let kinds = [&[][..], &[1], &[2], &[7], &[4, 6, 8], &[3, 3, 3]];
    let mut steps = Vec::new();
    for (at, periods) in (0..).zip(kinds) {
        for (other_at, of_other) in (0..).zip(kinds) {
            let mut case = Case::opened(periods);
            case.weave(at + other_at, in_turn(40, of_other));
            case.ask();
            case.open(&[(60, 2), (61, 4), (62, 12)]);
            case.ask();
            steps.extend(case.steps);
        }
    }
    steps
}

/// Even and odd ones of up to 64 bits.
fn numbers_of_sides() -> Vec<Step> {
    let mut steps = Vec::new();
    for side in [2, 3, 1 << 32, (1 << 32) + 1, u64::MAX - 1, u64::MAX] {
        let mut case = Case::opened(&[5]);
        case.weave(side, in_turn(9, &[3]));
        case.ask();
        steps.extend(case.steps);
    }
    steps
}

/// (Marked cases, A to I) and `earliest_start`, each with case A as lines from 41 on.
fn named_cases() -> Vec<Step> {
    let mut steps = Vec::new();
    for calls in script::named_cases() {
        for side in [0, 1] {
            let mut case = Case::opened(&[]);
            calls.iter().for_each(|&call| case.call(call));
            case.weave(side, in_turn(41, &[4, 6, 8, 12]));
            case.ask();
            case.open(&[(50, 2), (51, 12), (52, 48), (1, 10)]);
            case.close(42);
            case.ask();
            steps.extend(case.steps);
        }
    }
    steps
}

/// The other record is the plan's own: a weave is refused, unless the plan is empty or the record
/// is no tree.
fn with_itself() -> Vec<Step> {
    let mut steps = Vec::new();
    for periods in [&[][..], &[1], &[4, 6], &[4_095]] {
        for damage in [&[][..], &[(1_406, 65_535)]] {
            let mut case = Case::opened(periods);
            case.write(damage);
            for side in [0, 1] {
                let own = case.held.record.clone();
                case.weave(side, own);
                case.ask();
            }
            steps.extend(case.steps);
        }
    }
    steps
}

/// What makes the record of the lines 1 and 2, of the periods 4 and 6, no tree.
const DAMAGES: &[&[(u64, u16)]] = &[
    // a weight out of range, of 1, of 0, and another than that of the other line's path
    &[(22, 4_096)],
    &[(22, 65_535)],
    &[(24, 1)],
    &[(22, 0)],
    &[(44, 3)],
    // an edge as large as its weight, and larger
    &[(23, 2)],
    &[(45, 65_535)],
    // a period above 4,095, and one that is in range in 16 bits
    &[(24, 2_048)],
    &[(24, 32_769)],
    // a line at the place of another, on the way to it, and below it
    &[(88, 2), (90, 2)],
    &[(88, 2)],
    &[(88, 2), (90, 2), (92, 2)],
    // a number in a row that is not used, in each column, and a row behind one that is not used
    &[(27, 1)],
    &[(43, 1)],
    &[(1, 1)],
    &[(1_407, 1)],
    &[(1_406, 65_535)],
    &[(28, 2)],
    &[(30, 3), (31, 2)],
];

fn with_damage(mut record: Record, damage: &[(u64, u16)]) -> Record {
    for &(place, number) in damage {
        record.write(place as usize, number);
    }
    record
}

/// The other record is no tree, so that no line is in both and no period too long: the side is
/// empty.
fn damaged_records() -> Vec<Step> {
    let mut steps = Vec::new();
    for (side, damage) in (0..).zip(DAMAGES) {
        let mut case = Case::opened(&[4, 6]);
        case.weave(side, with_damage(in_turn(1, &[4, 6]), damage));
        case.ask();
        steps.extend(case.steps);
    }
    for side in [0, 1] {
        let mut case = Case::opened(&[1]);
        case.weave(side, with_damage(in_turn(9, &[4_095]), &[(0, 1)]));
        case.ask();
        steps.extend(case.steps);
    }
    steps
}

/// The plan's record is no tree. It is as found after a weave that is refused: when the numbers are
/// written back, the lines are there again. One that is not refused leaves none of them.
fn damaged_plans() -> Vec<Step> {
    let mut steps = Vec::new();
    for (side, damage) in (0..).zip(DAMAGES) {
        let mut case = Case::opened(&[4, 6]);
        let found = case.held.record.clone();
        let written_back = |&(place, _): &(u64, u16)| (place, found.number(place as usize));
        let back: Vec<_> = damage.iter().map(written_back).collect();
        case.write(damage);
        case.weave(side, in_turn(2, &[2, 2_048]));
        case.write(&back);
        case.ask();
        case.write(damage);
        case.weave(side, in_turn(2, &[2, 6]));
        case.open(&[(1, 12), (2, 4)]);
        case.ask();
        steps.extend(case.steps);
    }
    steps
}

/// One number at every place, and any numbers, which are no tree.
fn records_of_any_numbers() -> Vec<Step> {
    let mut random = Random::new(103);
    let mut all = [0, 1, 2, 255, 256, 4_095, 4_096, 32_768, 65_535]
        .map(|number| vec![number; RECORD_NUMBERS])
        .to_vec();
    for below in [2, 4, 64, 1 << 16] {
        let drawn = (0..RECORD_NUMBERS).map(|_| random.below(below) as u16);
        all.push(drawn.collect());
    }
    let mut steps = Vec::new();
    for (side, numbers) in (0..).zip(all) {
        let mut record = empty();
        for (place, number) in numbers.into_iter().enumerate() {
            record.write(place, number);
        }
        let mut case = Case::opened(&[4, 6]);
        case.weave(side, record);
        case.ask();
        steps.extend(case.steps);
    }
    steps
}

/// Those of the image cases that a record can hold, beside a plan with a line that is mostly also
/// in the other record.
fn illegal_trees() -> Vec<Step> {
    let mut case = Case::opened(&[]);
    for (side, lines) in (0..).zip(ILLEGAL_TREES) {
        let record = Record::of_paths(&paths_of(lines));
        if record.tree().is_none() {
            case.call(Call::Begin);
            case.open(&[(5, 3)]);
            case.weave(side, record);
            case.ask();
        }
    }
    case.steps
}

/// The factor times each power of 2, from this one on, one more node above each line.
fn powers(factor: u64, first: u32, lines: u32) -> Vec<u64> {
    (first..first + lines)
        .map(|power| factor << power)
        .collect()
}

/// A line under 11 nodes can not be woven, one under 10 can, on one side and on both.
fn deep_plans() -> Vec<Step> {
    let mut steps = Vec::new();
    for side in [0, 1] {
        for (factor, first) in [(1, 1), (3, 0)] {
            let mut case = Case::opened(&powers(factor, first, 11));
            case.weave(side, in_turn(20, &[5]));
            case.close(11);
            case.weave(side, in_turn(20, &powers(factor, first, 11)));
            case.weave(side, in_turn(20, &powers(factor, first, 10)));
            case.ask();
            case.open(&[(40, 2_048), (41, 3_072), (42, 4_094), (43, 4)]);
            case.close(10);
            case.close(29);
            case.open(&[(44, 2_048), (45, 1_024), (46, 3_072)]);
            case.ask();
            steps.extend(case.steps);
        }
        let mut case = Case::opened(&powers(1, 1, 10));
        case.weave(side, in_turn(20, &[1]));
        case.ask();
        steps.extend(case.steps);
    }
    steps
}

/// 32 lines on each side, where every round has an owner and where not, and 64 lines on one.
fn full_plans() -> Vec<Step> {
    let mut steps = Vec::new();
    let mixed: Vec<u64> = [64, 96, 128, 192].repeat(8);
    for (side, periods) in [(0, &[32; 32][..]), (1, &[32; 32]), (0, &mixed)] {
        let mut case = Case::opened(&[]);
        let lines: Vec<_> = (0..).zip(periods.iter().copied()).collect();
        case.open(&lines);
        case.weave(side, in_turn(32, periods));
        case.ask();
        case.close(33);
        case.open(&[(33, 64), (33, 128), (0, 64)]);
        case.close(0);
        case.open(&[(0, 4_032), (64, 2)]);
        case.ask();
        steps.extend(case.steps);
    }
    let mut case = Case::opened(&[]);
    let lines: Vec<_> = (0..=LAST_LINE).map(|line| (line, 64)).collect();
    case.open(&lines);
    for side in 0..6 {
        case.weave(side, empty());
    }
    case.ask();
    steps.extend(case.steps);
    steps
}

/// Each of these lines under so many nodes of weight 2: the edges are the bits of the line's number,
/// the least first, over and over.
fn under_nodes(lines: Range<u8>, nodes: usize) -> Record {
    let row = |line: u8, level: usize| Row {
        weight: 2,
        edge: u16::from(line >> (level % 6) & 1),
    };
    let path = |line: u8| {
        let rows = (0..nodes).map(|level| row(line, level)).collect();
        Path { line, rows }
    };
    Record::of_paths(&Vec::from_iter(lines.map(path)))
}

/// All 64 lines under 11 nodes each, so that every row of the woven record is used: 64 of one side,
/// and 32 of each.
fn deepest_plans() -> Vec<Step> {
    let mut steps = Vec::new();
    for side in [0, 1] {
        let mut case = Case::opened(&[]);
        case.weave(side, under_nodes(0..64, 10));
        case.weave(side, empty());
        case.call(Call::Show(63));
        case.close(63);
        case.open(&[(63, 4), (63, 2_048), (63, 4_094)]);
        case.call(Call::Show(63));
        steps.extend(case.steps);
        let mut case = Case::opened(&[]);
        case.weave(side, under_nodes(0..32, 9));
        case.weave(side, under_nodes(32..64, 11));
        case.weave(side, under_nodes(32..64, 10));
        case.call(Call::Show(0));
        case.close(0);
        case.open(&[(0, 2_048)]);
        case.ask();
        steps.extend(case.steps);
    }
    steps
}

/// Closes after weaving (document 02, Ask 8): they join the root where all its nodes have one
/// weight, be it on two sides or on one. Before and after each the same opens are tried.
fn joined_after_weaving() -> Vec<Step> {
    let mut steps = Vec::new();
    for (periods, of_other, closed) in [
        (&[3, 3][..], &[3][..], &[2, 1, 40][..]),
        (&[3, 3], &[], &[2]),
        (&[3, 3], &[4], &[2, 40, 1]),
        (&[2, 4, 8], &[2, 4, 8], &[3, 42, 2, 41, 1]),
        (&[2, 6, 6], &[4, 4], &[41, 2, 1, 40]),
        (&[1], &[3, 3], &[41, 1]),
        (&[1], &[1], &[1, 40]),
        (&[3, 3, 3], &[3, 3, 3], &[40, 1, 41, 2, 42, 3]),
        (&[4, 6, 12], &[4, 6, 12], &[1, 40, 2, 41]),
    ] {
        for side in [0, 1] {
            let mut case = Case::opened(periods);
            case.weave(side, in_turn(40, of_other));
            case.ask();
            for &line in closed {
                for period in [3, 4, 6, 18] {
                    case.open(&[(60, period)]);
                    case.close(60);
                }
                case.close(line);
                case.ask();
            }
            steps.extend(case.steps);
        }
    }
    steps
}

/// A line of every round woven until its period can not be doubled again, on one side, on the
/// other and on each in turn, alone and with one more line each time; and three plans woven, one
/// side of which is woven, and both.
fn woven_again() -> Vec<Step> {
    let mut steps = Vec::new();
    for odd in [0, 1] {
        let mut case = Case::opened(&[1]);
        (0..12).for_each(|_| case.weave(odd, empty()));
        case.ask();
        steps.extend(case.steps);
        let mut case = Case::opened(&[1]);
        for times in 0..12 {
            case.weave(times * (1 + odd), in_turn(20 + times, &[1]));
        }
        case.weave(odd, in_turn(20, &[1]));
        case.ask();
        steps.extend(case.steps);
        let mut case = Case::opened(&[4, 6]);
        case.weave(odd, in_turn(20, &[3, 9]));
        let woven = case.held.record.clone();
        case.weave(odd, in_turn(30, &[5, 10]));
        case.weave(odd, in_turn(40, &[1]));
        case.ask();
        case.call(Call::Begin);
        case.open(&[(50, 6), (51, 14)]);
        case.weave(odd, in_turn(60, &[2, 2]));
        case.weave(odd, woven);
        case.open(&[(55, 8), (56, 12), (57, 48)]);
        case.ask();
        steps.extend(case.steps);
    }
    steps
}

#[cfg(test)]
mod tests {
    use super::*;
    use crate::weave_script::tests::printed;

    /// What each weave answers, in sequence.
    fn results(steps: &[Step]) -> Vec<u8> {
        let text = printed(steps);
        let weaves = text.lines().filter(|line| line.starts_with("weave "));
        let result = |line: &str| line.rsplit(' ').next().map(|word| word.parse().unwrap());
        weaves.filter_map(result).collect()
    }

    #[test]
    fn the_longest_period_that_is_woven_is_2_047() {
        let results = results(&periods_at_the_border());
        let of_pairs = [0, 16, 0, 16, 16, 16, 16, 0, 0, 16, 16, 0];
        assert_eq!(results, of_pairs.map(|result| [result; 2]).concat());
    }

    #[test]
    fn a_line_in_both_is_refused_until_it_is_closed() {
        assert_eq!(results(&lines_in_both()), [15, 0].repeat(18));
    }

    /// The line in both, then one that is too long, of the plan and of the other record or of that
    /// alone.
    #[test]
    fn a_line_in_both_comes_before_a_period_that_is_too_long() {
        let results = results(&both_refusals());
        let of_cases: Vec<&[u8]> = results.chunks(4).collect();
        let [of_other, of_none, of_plan] = [[15, 16, 16, 0], [15, 0, 15, 15], [15, 16, 0, 15]];
        let expected = [
            of_other, of_none, of_other, of_plan, of_other, of_other, of_other,
        ];
        assert_eq!(of_cases, expected);
    }

    #[test]
    fn no_tree_is_an_empty_side() {
        for damage in DAMAGES {
            let damaged = with_damage(in_turn(1, &[4, 6]), damage);
            assert_eq!(damaged.tree(), None, "{damage:?}");
        }
        let of_itself = [[0, 0], [0, 0], [15, 15], [0, 0]];
        let expected = [of_itself[..2].concat(), of_itself[2..].repeat(3).concat()];
        assert_eq!(results(&with_itself()), expected.concat());
        for steps in [damaged_records(), records_of_any_numbers(), illegal_trees()] {
            let results = results(&steps);
            assert!(results.len() >= 13 && results.iter().all(|&result| result == 0));
        }
        assert_eq!(results(&damaged_plans()), [16, 0].repeat(DAMAGES.len()));
    }

    /// Periods 4 and 6 of the lines 1 and 2.
    #[test]
    fn numbers_of_damaged_plans_stay() {
        let text = printed(&damaged_plans());
        let parts: Vec<&str> = text.split("plan\n").skip(1).collect();
        assert_eq!(parts.len(), DAMAGES.len());
        for part in parts {
            let there = "show 1 0 4 0 2 0 2 0 0 0";
            assert!(part.contains(there), "{part}");
            assert!(part.contains("show 2 0 6 1 2 1 3 0 0 0"), "{part}");
            assert!(part.contains("\nopen 1 12 0 "), "{part}");
            assert!(part.contains("\nopen 2 4 3 -"), "{part}");
        }
    }

    /// Each row of each of the 64 lines is used.
    #[test]
    fn deepest_plans_use_every_row() {
        let steps = deepest_plans();
        assert_eq!(results(&steps), [0, 16, 0, 16, 0].repeat(2));
        let text = printed(&steps);
        let rows = text.lines().filter(|line| line.starts_with("rows "));
        let numbers = rows.map(|line| line.split(' ').count() - 2);
        assert_eq!(numbers.filter(|&count| count == 22).count(), 4 * 64);
    }

    #[test]
    fn deep_and_full_plans_are_woven() {
        let deep = [16, 16, 0].repeat(2);
        assert_eq!(results(&deep_plans()), [deep, vec![0]].concat().repeat(2));
        let text = printed(&full_plans());
        assert_eq!(results(&full_plans()), [0, 0, 0, 0, 0, 0, 0, 0, 16]);
        assert_eq!(text.matches("\nrows ").count(), 8 * 64);
    }

    /// Line 1 of period 3 on one side, and line 40 of period 3 on the other or none: joined to a
    /// root of weight 6, in which there is room for a period of 3.
    #[test]
    fn closes_join_a_woven_root() {
        let text = printed(&joined_after_weaving());
        let parts: Vec<&str> = text.split("plan\n").skip(1).collect();
        for (part, shown) in [
            (parts[0], ["show 1 0 6 0 6 0 0", "show 40 0 6 1 6 1 0"]),
            (parts[1], ["show 1 0 6 1 6 1 0", "show 40 0 6 0 6 0 0"]),
        ] {
            assert!(shown.iter().all(|it| part.contains(it)), "{part}");
        }
        for (part, shown) in [
            (parts[2], "show 1 0 6 0 6 0"),
            (parts[3], "show 1 0 6 1 6 1"),
        ] {
            let (before, after) = part.split_once("close 2 0").unwrap();
            assert!(before.contains("open 60 3 5 -"), "{part}");
            assert!(after.contains(shown), "{part}");
        }
    }

    #[test]
    fn a_line_is_woven_until_its_period_is_too_long() {
        let results = results(&woven_again());
        let alone = [[0; 11].as_slice(), &[16]].concat();
        let beside = [alone.as_slice(), &[15]].concat();
        let three = [0; 5];
        assert_eq!(results, [alone, beside, three.to_vec()].concat().repeat(2));
    }
}
