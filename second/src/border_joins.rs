//! Closes that join nodes and closes that do not, for the script of calls (`script.rs`) and that of
//! lists (`list_cases.rs`): small plans, each with every line shown before the closes and after
//! each of them (document 02, Ask 8). Some plans are made by opens and closes alone, others are
//! written into the record.

use crate::record::LINE_NUMBERS;
use crate::script::{opens_in_turn, Step};
use std::collections::BTreeSet;

/// A plan and the lines that close on it, one after the other.
pub(crate) struct ClosedPlan {
    /// Opens, closes and writes.
    pub(crate) calls: Vec<Step>,
    pub(crate) closes: Vec<u64>,
}

/// Weight and edge from the root on.
type Rows<'a> = &'a [(u16, u16)];

pub fn border_joins() -> Vec<Step> {
    plans().iter().flat_map(ClosedPlan::steps).collect()
}

impl ClosedPlan {
    fn steps(&self) -> Vec<Step> {
        let mut steps = [&[Step::Begin], self.calls.as_slice(), &self.shows()].concat();
        for &line in &self.closes {
            steps.push(Step::Close(line));
            steps.extend(self.shows());
        }
        steps
    }

    /// The lines that the plan has, and those that are closed.
    pub(crate) fn lines(&self) -> BTreeSet<u64> {
        let line = |call: &Step| match *call {
            Step::Open(line, _) | Step::Close(line) => Some(line),
            Step::Write(place, _) => Some(place / LINE_NUMBERS as u64),
            _ => None,
        };
        let of_calls = self.calls.iter().filter_map(line);
        of_calls.chain(self.closes.iter().copied()).collect()
    }

    fn shows(&self) -> Vec<Step> {
        self.lines().into_iter().map(Step::Show).collect()
    }
}

/// Every line's rows, written into the empty plan's record, where a number is not 0.
fn written(lines: &[(u64, Rows)]) -> Vec<Step> {
    let mut steps = Vec::new();
    for &(line, rows) in lines {
        let numbers = rows.iter().flat_map(|&(weight, edge)| [weight, edge]);
        let places = (line * LINE_NUMBERS as u64..).zip(numbers);
        let others = places.filter(|&(_, number)| number != 0);
        steps.extend(others.map(|(place, number)| Step::Write(place, number)));
    }
    steps
}

fn opened(periods: &[u64], closes: &[u64]) -> ClosedPlan {
    ClosedPlan {
        calls: opens_in_turn(periods),
        closes: closes.to_vec(),
    }
}

fn as_written(lines: &[(u64, Rows)], closes: &[u64]) -> ClosedPlan {
    ClosedPlan {
        calls: written(lines),
        closes: closes.to_vec(),
    }
}

pub(crate) fn plans() -> Vec<ClosedPlan> {
    vec![
        one_line(),
        one_line_under_three_nodes(),
        no_node_goes(),
        below_a_root_that_stays(),
        its_own_node_goes(),
        two_nodes_go(),
        unequal_weights(),
        a_line_beside_nodes(),
        every_edge_moves(),
        looked_at_again(),
        three_times(),
        once_for_each_close(),
        deepest_first(),
        joined_to_another_weight(),
        above_one_that_cannot_be_joined(),
        above_and_below_one_that_cannot_be_joined(),
        not_above_the_line(),
        longest_period(),
        case_f(),
        ten_levels(),
        ten_times(),
    ]
}

/// Nothing remains above the line: the plan is empty (Closing a line, 2).
fn one_line() -> ClosedPlan {
    ClosedPlan {
        calls: vec![Step::Open(5, 12), Step::Close(5), Step::Open(63, 1)],
        closes: vec![63],
    }
}

/// With the line two of the nodes could be joined, and all three go.
fn one_line_under_three_nodes() -> ClosedPlan {
    as_written(&[(7, &[(2, 1), (3, 2), (2, 0)])], &[7])
}

/// 6@0, and 2@1 splits the root, which is joined when it closes.
fn no_node_goes() -> ClosedPlan {
    opened(&[6, 2], &[2])
}

/// 2@0, 12@1, and 4@3 splits the node of the 12, which is joined when it closes. The root has the
/// 2, and is joined when that closes.
fn below_a_root_that_stays() -> ClosedPlan {
    opened(&[2, 12, 4], &[3, 1])
}

/// 4@0, and 6@1 splits the root, which is joined when the 6 and its node have gone.
fn its_own_node_goes() -> ClosedPlan {
    opened(&[4, 6], &[2])
}

/// Line 2 stands alone under a node of weight 5 and one of weight 2; both go, and the root's other
/// nodes have the weight 2.
fn two_nodes_go() -> ClosedPlan {
    let lines: [(u64, Rows); 4] = [
        (1, &[(3, 0), (2, 1)]),
        (2, &[(3, 1), (5, 4), (2, 1)]),
        (3, &[(3, 2), (2, 0)]),
        (4, &[(3, 2), (2, 1)]),
    ];
    as_written(&lines, &[2])
}

/// 6@0, 9@1, 6@2 and 6@3 stand under nodes of the weights 2, 3 and 2. The 6@3 closes, which is no
/// reason to join any, and then the 9.
fn unequal_weights() -> ClosedPlan {
    opened(&[6, 9, 6, 6], &[4, 2])
}

/// 3@0 stands beside two nodes of weight 2, of 6@1, 6@2 and 6@4. The 6@4 closes, which is no reason
/// to join any, and then the 3.
fn a_line_beside_nodes() -> ClosedPlan {
    opened(&[3, 6, 6, 6], &[4, 1])
}

/// 3@0, and two nodes of weight 2 that are full, under edges 1 and 2 of a root of weight 3: at
/// k·v + f in place of k + w·f three of the four lines would stand at other edges.
fn every_edge_moves() -> ClosedPlan {
    opened(&[3, 6, 6, 6, 6], &[1])
}

/// Beside line 1 stands a node of weight 3, and under that one there are nodes of weight 5 only. It
/// is not above line 1: the root is joined with it, and then with these.
fn looked_at_again() -> ClosedPlan {
    let lines: [(u64, Rows); 3] = [
        (1, &[(2, 0)]),
        (2, &[(2, 1), (3, 0), (5, 0)]),
        (3, &[(2, 1), (3, 1), (5, 3)]),
    ];
    as_written(&lines, &[1])
}

/// 420@0, and 60@1, 12@2 and 4@3 split the root, each once more. While it has the 4 it is not
/// joined; then it is, three times.
fn three_times() -> ClosedPlan {
    opened(&[420, 60, 12, 4], &[2, 3, 4])
}

/// The same lines close from the last to the first, and each takes its split back.
fn once_for_each_close() -> ClosedPlan {
    opened(&[420, 60, 12, 4], &[4, 3, 2])
}

/// 3@0, 12@1 and 12@2, and 6@4 splits the node of 12@1. Without the 3 the nodes below the root have
/// the weights 2 and 4. When the 6 closes, its node has the weight 4 again, and only then the root
/// can be joined.
fn deepest_first() -> ClosedPlan {
    opened(&[3, 12, 12, 6], &[1, 4])
}

/// Two nodes of weight 2: the root could be joined, but for the node above line 4, which is joined
/// before and has the weight 4 then.
fn joined_to_another_weight() -> ClosedPlan {
    let lines: [(u64, Rows); 4] = [
        (1, &[(2, 0), (2, 0)]),
        (2, &[(2, 0), (2, 1)]),
        (3, &[(2, 1), (2, 0), (2, 0)]),
        (4, &[(2, 1), (2, 1)]),
    ];
    as_written(&lines, &[4])
}

/// 6@0, 12@2, 6@1, 6@3 and 6@4, and 6@5 splits the node of the 12, so that the root has three nodes
/// of weight 2. When 6@3 closes, its node has 6@0 and is not joined, but the root is.
fn above_one_that_cannot_be_joined() -> ClosedPlan {
    let first = [opens_in_turn(&[6, 3, 12]), vec![Step::Close(2)]].concat();
    let sixes = [4, 5, 6, 7].map(|line| Step::Open(line, 6));
    ClosedPlan {
        calls: [first.as_slice(), &sixes].concat(),
        closes: vec![5],
    }
}

/// Line 4 stands under the last of three nodes. The one between has line 2 and is not joined, but
/// the two others are.
fn above_and_below_one_that_cannot_be_joined() -> ClosedPlan {
    let lines: [(u64, Rows); 4] = [
        (1, &[(2, 0), (3, 0)]),
        (2, &[(2, 1), (3, 0)]),
        (3, &[(2, 1), (3, 1), (2, 0), (2, 1)]),
        (4, &[(2, 1), (3, 1), (2, 1)]),
    ];
    as_written(&lines, &[4])
}

/// 6@0 and 18@1, and 3@2 splits the root, so that the new node above the 18 has a node of weight 3
/// only. It is not above the 6, and stays when that closes. When the 3 closes, the root is joined
/// twice.
fn not_above_the_line() -> ClosedPlan {
    opened(&[6, 18, 3], &[1, 3])
}

/// Line 9 has the last start of the longest period.
fn longest_period() -> ClosedPlan {
    let lines: [(u64, Rows); 2] = [(0, &[(3, 0)]), (9, &[(3, 2), (1_365, 1_364)])];
    as_written(&lines, &[0])
}

/// The lines 6 and 7 close, each of which joins the node that was above line 6; then the lines 11
/// and 10, which joins none; then line 1, which joins the root.
fn case_f() -> ClosedPlan {
    let powers: Vec<u64> = (1..=11).map(|power| 1 << power).collect();
    opened(&powers, &[6, 7, 11, 10, 1])
}

/// Eleven nodes stand above both lines. When line 2 closes the last of them has line 1, and each of
/// the others is joined, once.
fn ten_levels() -> ClosedPlan {
    let first = [(2, 1); 11];
    let second = [[(2, 1); 10].as_slice(), &[(2, 0)]].concat();
    as_written(&[(1, &first), (2, &second)], &[2])
}

/// Eleven nodes stand above line 1, and of these the root alone above line 2. It is joined ten
/// times.
fn ten_times() -> ClosedPlan {
    as_written(&[(1, &[(2, 1); 11]), (2, &[(2, 0)])], &[2])
}

#[cfg(test)]
mod tests {
    use super::*;
    use crate::ask::Row;
    use crate::naive_joining::{paths, Paths};
    use crate::record::Held;
    use crate::script::change;
    use crate::script::tests::answers;
    use crate::tree::LAST_PERIOD;

    /// Of every open line.
    type Lines<'a> = &'a [(u8, Rows<'a>)];

    fn paths_of(lines: Lines) -> Paths {
        let row = |&(weight, edge): &(u16, u16)| Row { weight, edge };
        let path = |rows: Rows| rows.iter().map(row).collect();
        lines
            .iter()
            .map(|&(line, rows)| (line, path(rows)))
            .collect()
    }

    /// Expects these lines before the closes and after each of them, and no other.
    fn assert_left(plan: ClosedPlan, expected: &[Lines]) {
        let mut held = Held::empty();
        let mut found = Vec::new();
        plan.calls.iter().for_each(|&call| change(&mut held, call));
        found.push(paths(&held.plan));
        for &line in &plan.closes {
            assert_eq!(held.close(line), Ok(()));
            found.push(paths(&held.plan));
        }
        let expected: Vec<Paths> = expected.iter().map(|lines| paths_of(lines)).collect();
        assert_eq!(found, expected);
    }

    #[test]
    fn no_line_is_left() {
        assert_left(one_line(), &[&[(63, &[(1, 0)])], &[]]);
        let before: Lines = &[(7, &[(2, 1), (3, 2), (2, 0)])];
        assert_left(one_line_under_three_nodes(), &[before, &[]]);
    }

    #[test]
    fn nodes_that_go_or_not() {
        let before: Lines = &[(1, &[(2, 0), (3, 0)]), (2, &[(2, 1)])];
        assert_left(no_node_goes(), &[before, &[(1, &[(6, 0)])]]);
        let before: Lines = &[
            (1, &[(2, 0)]),
            (2, &[(2, 1), (2, 0), (3, 0)]),
            (3, &[(2, 1), (2, 1)]),
        ];
        let joined: Lines = &[(1, &[(2, 0)]), (2, &[(2, 1), (6, 0)])];
        assert_left(
            below_a_root_that_stays(),
            &[before, joined, &[(2, &[(12, 1)])]],
        );
        let before: Lines = &[(1, &[(2, 0), (2, 0)]), (2, &[(2, 1), (3, 0)])];
        assert_left(its_own_node_goes(), &[before, &[(1, &[(4, 0)])]]);
        let before: Lines = &[
            (1, &[(3, 0), (2, 1)]),
            (2, &[(3, 1), (5, 4), (2, 1)]),
            (3, &[(3, 2), (2, 0)]),
            (4, &[(3, 2), (2, 1)]),
        ];
        let joined: Lines = &[(1, &[(6, 3)]), (3, &[(6, 2)]), (4, &[(6, 5)])];
        assert_left(two_nodes_go(), &[before, joined]);
    }

    #[test]
    fn unequal_weights_and_lines_are_not_joined() {
        let before: Lines = &[
            (1, &[(3, 0), (2, 0)]),
            (2, &[(3, 1), (3, 0)]),
            (3, &[(3, 2), (2, 0)]),
            (4, &[(3, 0), (2, 1)]),
        ];
        let joined: Lines = &[(1, &[(6, 0)]), (3, &[(6, 2)])];
        assert_left(unequal_weights(), &[before, &before[..3], joined]);
        let before: Lines = &[
            (1, &[(3, 0)]),
            (2, &[(3, 1), (2, 0)]),
            (3, &[(3, 2), (2, 0)]),
            (4, &[(3, 1), (2, 1)]),
        ];
        let joined: Lines = &[(2, &[(6, 1)]), (3, &[(6, 2)])];
        assert_left(a_line_beside_nodes(), &[before, &before[..3], joined]);
    }

    /// The lines 2 to 5 have the starts 1, 2, 4 and 5.
    #[test]
    fn edges_after_joining() {
        let before: Lines = &[
            (1, &[(3, 0)]),
            (2, &[(3, 1), (2, 0)]),
            (3, &[(3, 2), (2, 0)]),
            (4, &[(3, 1), (2, 1)]),
            (5, &[(3, 2), (2, 1)]),
        ];
        let joined: Lines = &[
            (2, &[(6, 1)]),
            (3, &[(6, 2)]),
            (4, &[(6, 4)]),
            (5, &[(6, 5)]),
        ];
        assert_left(every_edge_moves(), &[before, joined]);
        let before: Lines = &[(0, &[(3, 0)]), (9, &[(3, 2), (1_365, 1_364)])];
        let joined: Lines = &[(9, &[(LAST_PERIOD as u16, 4_094)])];
        assert_left(longest_period(), &[before, joined]);
    }

    /// 21 is 1 + 1·2 + 3·6.
    #[test]
    fn a_joined_node_is_looked_at_again() {
        let before: Lines = &[
            (1, &[(2, 0)]),
            (2, &[(2, 1), (3, 0), (5, 0)]),
            (3, &[(2, 1), (3, 1), (5, 3)]),
        ];
        let joined: Lines = &[(2, &[(30, 1)]), (3, &[(30, 21)])];
        assert_left(looked_at_again(), &[before, joined]);
        let before: Lines = &[
            (1, &[(4, 0), (3, 0), (5, 0), (7, 0)]),
            (2, &[(4, 1), (3, 0), (5, 0)]),
            (3, &[(4, 2), (3, 0)]),
            (4, &[(4, 3)]),
        ];
        let (without_2, without_3) = ([before[0], before[2], before[3]], [before[0], before[3]]);
        let joined: Lines = &[(1, &[(420, 0)])];
        assert_left(three_times(), &[before, &without_2, &without_3, joined]);
        let without_4: Lines = &[
            (1, &[(12, 0), (5, 0), (7, 0)]),
            (2, &[(12, 1), (5, 0)]),
            (3, &[(12, 2)]),
        ];
        let without_3: Lines = &[(1, &[(60, 0), (7, 0)]), (2, &[(60, 1)])];
        assert_left(
            once_for_each_close(),
            &[before, without_4, without_3, joined],
        );
    }

    #[test]
    fn the_deepest_is_joined_first() {
        let before: Lines = &[
            (1, &[(3, 0)]),
            (2, &[(3, 1), (2, 0), (2, 0)]),
            (3, &[(3, 2), (4, 0)]),
            (4, &[(3, 1), (2, 1)]),
        ];
        let joined: Lines = &[(2, &[(12, 1)]), (3, &[(12, 2)])];
        assert_left(deepest_first(), &[before, &before[1..], joined]);
        let before: Lines = &[
            (1, &[(2, 0), (2, 0)]),
            (2, &[(2, 0), (2, 1)]),
            (3, &[(2, 1), (2, 0), (2, 0)]),
            (4, &[(2, 1), (2, 1)]),
        ];
        let joined: Lines = &[before[0], before[1], (3, &[(2, 1), (4, 0)])];
        assert_left(joined_to_another_weight(), &[before, joined]);
    }

    /// Line 3 of the second plan has the start 15: 3 + 2·6 after the close.
    #[test]
    fn the_way_up_does_not_end() {
        let before: Lines = &[
            (1, &[(3, 0), (2, 0)]),
            (3, &[(3, 2), (2, 0), (2, 0)]),
            (4, &[(3, 1), (2, 0)]),
            (5, &[(3, 0), (2, 1)]),
            (6, &[(3, 1), (2, 1)]),
            (7, &[(3, 2), (2, 1)]),
        ];
        let joined: Lines = &[
            (1, &[(6, 0)]),
            (3, &[(6, 2), (2, 0)]),
            (4, &[(6, 1)]),
            (6, &[(6, 4)]),
            (7, &[(6, 5)]),
        ];
        assert_left(above_one_that_cannot_be_joined(), &[before, joined]);
        let before: Lines = &[
            (1, &[(2, 0), (3, 0)]),
            (2, &[(2, 1), (3, 0)]),
            (3, &[(2, 1), (3, 1), (2, 0), (2, 1)]),
            (4, &[(2, 1), (3, 1), (2, 1)]),
        ];
        let joined: Lines = &[(1, &[(6, 0)]), (2, &[(6, 1)]), (3, &[(6, 3), (4, 2)])];
        assert_left(
            above_and_below_one_that_cannot_be_joined(),
            &[before, joined],
        );
    }

    #[test]
    fn a_node_that_is_not_above_the_line_stays() {
        let before: Lines = &[
            (1, &[(3, 0), (2, 0)]),
            (2, &[(3, 1), (2, 0), (3, 0)]),
            (3, &[(3, 2)]),
        ];
        let joined: Lines = &[(2, &[(18, 1)])];
        assert_left(not_above_the_line(), &[before, &before[1..], joined]);
    }

    type OwnRows = Vec<(u16, u16)>;

    /// So often the row of weight 2 and edge 1, and then these.
    fn ones(times: usize, last: Rows) -> OwnRows {
        [vec![(2, 1); times].as_slice(), last].concat()
    }

    /// The rows lent.
    fn lent(lines: &[(u8, OwnRows)]) -> Vec<(u8, Rows<'_>)> {
        let each = lines.iter();
        each.map(|(line, rows)| (*line, rows.as_slice())).collect()
    }

    /// Four of the closes leave the first five lines as they were, and the last one line 1 out.
    #[test]
    fn closes_in_case_f() {
        let first = |line: u8| (line, ones(usize::from(line) - 1, &[(2, 0)]));
        let opened: Vec<(u8, OwnRows)> = (1..=11).map(first).collect();
        let without_6 = [
            (7, ones(5, &[(4, 1)])),
            (8, ones(5, &[(4, 3), (2, 0)])),
            (9, ones(5, &[(4, 3), (2, 1), (2, 0)])),
            (10, ones(5, &[(4, 3), (2, 1), (2, 1), (2, 0)])),
            (11, ones(5, &[(4, 3), (2, 1), (2, 1), (2, 1), (2, 0)])),
        ];
        let without_7 = [
            (8, ones(5, &[(8, 3)])),
            (9, ones(5, &[(8, 7), (2, 0)])),
            (10, ones(5, &[(8, 7), (2, 1), (2, 0)])),
            (11, ones(5, &[(8, 7), (2, 1), (2, 1), (2, 0)])),
        ];
        let without_1 = [
            (2, vec![(4, 1)]),
            (3, vec![(4, 3), (2, 0)]),
            (4, vec![(4, 3), (2, 1), (2, 0)]),
            (5, vec![(4, 3), (2, 1), (2, 1), (2, 0)]),
            (8, [vec![(4, 3)], ones(3, &[(8, 3)])].concat()),
            (9, [vec![(4, 3)], ones(3, &[(8, 7), (2, 0)])].concat()),
        ];
        let all: [&[(u8, OwnRows)]; 6] = [
            &opened,
            &[&opened[..5], &without_6].concat(),
            &[&opened[..5], &without_7].concat(),
            &[&opened[..5], &without_7[..3]].concat(),
            &[&opened[..5], &without_7[..2]].concat(),
            &without_1,
        ];
        let lent = all.map(lent);
        let expected: Vec<Lines> = lent.iter().map(Vec::as_slice).collect();
        assert_left(case_f(), &expected);
    }

    /// 2,047 is the sum of the first eleven powers of two.
    #[test]
    fn ten_joins_in_one_close() {
        let joined: Lines = &[(1, &[(2_048, 2_047)])];
        let (first, second) = (ones(11, &[]), ones(10, &[(2, 0)]));
        let before: Lines = &[(1, &first), (2, &second)];
        assert_left(ten_levels(), &[before, joined]);
        assert_left(ten_times(), &[&[(1, &first), (2, &[(2, 0)])], joined]);
    }

    #[test]
    fn every_line_is_shown_after_each_close() {
        let text = answers(&looked_at_again().steps());
        let rest = " 0 0".repeat(10);
        let closed =
            format!("close 1 0\nshow 1 4\nshow 2 0 30 1 30 1{rest}\nshow 3 0 30 21 30 21{rest}\n");
        assert!(text.ends_with(&closed), "{text}");
        let steps = border_joins();
        let closes = steps.iter().filter(|step| matches!(step, Step::Close(_)));
        let of_plans: usize = plans().iter().map(|it| it.closes.len()).sum();
        // and two that make plans
        assert_eq!(closes.count(), of_plans + 2);
    }
}
