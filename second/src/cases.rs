//! The marked cases A to I of document 01, case C as in document 02, Ask 6, case I as in Ask 8,
//! and the mistakes that they and cases of our own catch.

use crate::ask::{owner, show, turns, Owner, Row};
use crate::book;
use crate::refusal::Refusal::{self, Line, LineNotOpen, LineOpen, NoCandidate};
use crate::tree::{Node, Period, Plan, Start, Under};
use std::collections::BTreeMap;

const TOO_LARGE: [u64; 6] = [4_096, 4_097, 65_536, 65_540, 1 << 32 | 4, u64::MAX];

fn node<const N: usize>(weight: u16, edges: [(u16, Under); N]) -> Node {
    Node {
        weight,
        edges: BTreeMap::from(edges),
    }
}

fn under<const N: usize>(weight: u16, edges: [(u16, Under); N]) -> Under {
    Under::Node(node(weight, edges))
}

fn plan_of(root: Node) -> Plan {
    Plan { root: Some(root) }
}

use Under::Line as L;

/// Opens the periods as lines 0, 1, 2 .. on an empty plan and checks each start.
fn opened(periods_and_starts: &[(u64, u16)]) -> Plan {
    let mut plan = Plan::empty();
    for (line, &(period, start)) in (0..).zip(periods_and_starts) {
        assert_eq!(plan.open(line, period), Ok(Start(start)), "{period}");
    }
    plan
}

/// Expects this refusal and an unchanged plan.
fn refused(plan: &mut Plan, line: u64, period: u64, refusal: Refusal) {
    let found = plan.clone();
    assert_eq!(plan.open(line, period), Err(refusal), "{line} {period}");
    assert_eq!(*plan, found);
}

fn period_and_start(plan: &Plan, line: u64) -> (u16, u16) {
    let shown = show(plan, line).unwrap();
    (shown.period.0, shown.start.0)
}

#[test]
fn case_a() {
    let mut plan = opened(&[(4, 0), (6, 1), (8, 2)]);
    refused(&mut plan, 3, 2, NoCandidate);
    assert_eq!(plan.open(3, 12), Ok(Start(3)));
    assert_eq!(owner(&plan, 7), Owner::Line(1));
    assert_eq!(owner(&plan, 10), Owner::Line(2));
    assert_eq!(owner(&plan, 9), Owner::Idle { rest: 1 });
    let starts: Vec<_> = (0..4).map(|line| period_and_start(&plan, line)).collect();
    assert_eq!(starts, [(4, 0), (6, 1), (8, 2), (12, 3)]);
}

/// The trees of case A, each derived by hand from the section Opening a line.
#[test]
fn case_a_trees() {
    let mut plan = Plan::empty();
    plan.open(0, 4).unwrap();
    assert_eq!(plan, plan_of(node(4, [(0, L(0))])));
    plan.open(1, 6).unwrap();
    let tree = node(2, [(0, under(2, [(0, L(0))])), (1, under(3, [(0, L(1))]))]);
    assert_eq!(plan, plan_of(tree));
    plan.open(2, 8).unwrap();
    let even = under(2, [(0, L(0)), (1, under(2, [(0, L(2))]))]);
    let tree = node(2, [(0, even.clone()), (1, under(3, [(0, L(1))]))]);
    assert_eq!(plan, plan_of(tree));
    plan.open(3, 12).unwrap();
    let odd = under(3, [(0, L(1)), (1, under(2, [(0, L(3))]))]);
    assert_eq!(plan, plan_of(node(2, [(0, even), (1, odd)])));
}

/// Empty nodes are dropped (Closing a line, 1 and 2), and of those that remain above the line
/// each is joined that can be (Ask 8, 2 and 3): first the node of the lines 0 and 2, not the root,
/// whose nodes have the weights 4 and 3; then the root, and the node of weight 2 under it stays,
/// since beside it stands line 1. In the end nothing is left to be joined.
#[test]
fn closing_in_case_a() {
    let mut plan = opened(&[(4, 0), (6, 1), (8, 2), (12, 3)]);
    plan.close(0).unwrap();
    let even = under(4, [(1, L(2))]);
    let odd = under(3, [(0, L(1)), (1, under(2, [(0, L(3))]))]);
    assert_eq!(plan, plan_of(node(2, [(0, even), (1, odd)])));
    plan.close(2).unwrap();
    let three = under(2, [(0, L(3))]);
    assert_eq!(plan, plan_of(node(6, [(1, L(1)), (3, three)])));
    plan.close(3).unwrap();
    assert_eq!(plan, plan_of(node(6, [(1, L(1))])));
    plan.close(1).unwrap();
    assert_eq!(plan, Plan::empty());
}

#[test]
fn case_b() {
    let mut plan = opened(&[(4, 0), (4, 1)]);
    refused(&mut plan, 2, 2, NoCandidate);
}

/// For line 2 the root offers 2, and the node above line 1 offers 7 (Ask 6, 4).
#[test]
fn case_c() {
    let plan = opened(&[(6, 0), (12, 1), (12, 2)]);
    let (one, two) = (under(2, [(0, L(1))]), under(2, [(0, L(2))]));
    assert_eq!(plan, plan_of(node(6, [(0, L(0)), (1, one), (2, two)])));
}

#[test]
fn case_d() {
    let mut plan = opened(&[(1, 0)]);
    assert_eq!(plan, plan_of(node(1, [(0, L(0))])));
    refused(&mut plan, 1, 1, NoCandidate);
    refused(&mut plan, 1, 4_095, NoCandidate);
    for round in [0, 1, 1 << 32, u64::MAX] {
        assert_eq!(owner(&plan, round), Owner::Line(0));
    }
    let shown = show(&plan, 0).unwrap();
    assert_eq!((shown.period, shown.start), (Period(1), Start(0)));
    assert_eq!(
        shown.path[..2],
        [Row { weight: 1, edge: 0 }, Row::default()]
    );
}

#[test]
fn case_e() {
    let mut plan = opened(&[(2, 0)]);
    refused(&mut plan, 1, 3, NoCandidate);
}

#[test]
fn case_f() {
    let mut plan = Plan::empty();
    for power in 1..=11 {
        let start = Start((1 << (power - 1)) - 1);
        assert_eq!(plan.open(power, 1 << power), Ok(start));
    }
    let shown = show(&plan, 11).unwrap();
    assert_eq!((shown.period, shown.start), (Period(2_048), Start(1_023)));
    let mut path = [Row { weight: 2, edge: 1 }; 11];
    path[10].edge = 0;
    assert_eq!(shown.path, path);
    assert_eq!(owner(&plan, 1_023), Owner::Line(11));
    assert_eq!(owner(&plan, u64::MAX - 1_024), Owner::Line(11));
    for round in [2_047, u64::MAX] {
        assert_eq!(owner(&plan, round), Owner::Idle { rest: 1 });
    }
}

/// A path shorter than 11 rows is filled up with zeros (Asking the plan, 3).
#[test]
fn case_f_unused_rows() {
    let plan = opened(&[(2, 0), (4, 1), (8, 3)]);
    let shown = show(&plan, 2).unwrap();
    let (one, zero) = (Row { weight: 2, edge: 1 }, Row { weight: 2, edge: 0 });
    assert_eq!(shown.path[..3], [one, one, zero]);
    assert_eq!(shown.path[3..], [Row::default(); 8]);
}

#[test]
fn case_g() {
    let mut plan = opened(&[(4_095, 0)]);
    assert_eq!(owner(&plan, 4_095), Owner::Line(0));
    assert_eq!(owner(&plan, 4_094), Owner::Idle { rest: 1 });
    assert_eq!(owner(&plan, 4_096), Owner::Idle { rest: 4_094 });
    for period in TOO_LARGE.into_iter().chain([0]) {
        refused(&mut plan, 1, period, Refusal::Period);
        refused(&mut Plan::empty(), 1, period, Refusal::Period);
    }
}

#[test]
fn case_h() {
    let mut plan = Plan::empty();
    assert_eq!(plan.open(63, 5), Ok(Start(0)));
    assert_eq!(owner(&plan, 10), Owner::Line(63));
    for line in [64, 255, 256, 319, 1 << 32 | 63, u64::MAX] {
        refused(&mut plan, line, 5, Line);
        refused(&mut Plan::empty(), line, 5, Line);
        assert_eq!(plan.close(line), Err(Line));
        assert_eq!(show(&plan, line), Err(Line));
        for rounds in [0, 1] {
            assert_eq!(turns(&plan, line, u64::MAX, rounds), Err(Line));
        }
    }
    assert_eq!(period_and_start(&plan, 63), (5, 0));
}

#[test]
fn case_i() {
    let list = [
        0x01, 0x00, 0x60, 0x02, 0x00, 0x20, 0x03, 0x00, 0x30, 0x42, 0x00, 0x00, 0x03, 0x00, 0x30,
        0x42, 0x00, 0x00,
    ];
    let mut out = Vec::new();
    book::print(&list, &mut out).unwrap();
    let expected = b"order kind line period result start
1 0 1 6 0 0
2 0 2 2 0 1
3 0 3 3 5 -
4 1 2 0 0 -
5 0 3 3 0 1
6 1 2 0 4 -
";
    assert_eq!(out, expected);
}

/// The trees of case I, each derived by hand: the split by the 2 is taken back when it closes, and
/// the 3 splits the root anew.
#[test]
fn case_i_trees() {
    let mut plan = opened(&[(6, 0), (2, 1)]);
    let split = node(2, [(0, under(3, [(0, L(0))])), (1, L(1))]);
    assert_eq!(plan, plan_of(split));
    refused(&mut plan, 2, 3, NoCandidate);
    plan.close(1).unwrap();
    assert_eq!(plan, opened(&[(6, 0)]));
    assert_eq!(plan, plan_of(node(6, [(0, L(0))])));
    assert_eq!(plan.open(2, 3), Ok(Start(1)));
    let split = node(3, [(0, under(2, [(0, L(0))])), (1, L(2))]);
    assert_eq!(plan, plan_of(split));
    assert_eq!(plan.close(1), Err(LineNotOpen));
}

/// Each check of an open before the later ones (Refusals, sequence).
#[test]
fn open_checks_in_sequence() {
    let mut plan = opened(&[(1, 0)]);
    refused(&mut plan, 64, 0, Line);
    refused(&mut plan, 64, 1, Line);
    refused(&mut plan, 0, 0, Refusal::Period);
    refused(&mut plan, 0, 4_096, Refusal::Period);
    refused(&mut plan, 0, 1, LineOpen);
    refused(&mut plan, 0, 7, LineOpen);
    refused(&mut plan, 1, 7, NoCandidate);
}

#[test]
fn lines_not_open_are_refused_4() {
    let mut plan = opened(&[(6, 0)]);
    let found = plan.clone();
    for line in 1..64 {
        assert_eq!(plan.close(line), Err(LineNotOpen));
        assert_eq!(show(&plan, line), Err(LineNotOpen));
        for rounds in [0, 9] {
            assert_eq!(turns(&plan, line, 6, rounds), Err(LineNotOpen));
        }
    }
    assert_eq!(plan, found);
    assert_eq!(Plan::empty().close(0), Err(LineNotOpen));
    assert_eq!(Plan::empty().close(64), Err(Line));
}

/// Each figure counted by hand from the rounds that leave the start (document 02, Ask 1).
#[test]
fn turns_of_a_line() {
    let plan = opened(&[(4, 0), (6, 1)]);
    assert_eq!(turns(&plan, 0, 0, 0), Ok(0));
    assert_eq!(turns(&plan, 0, 0, 1), Ok(1));
    assert_eq!(turns(&plan, 0, 0, 4), Ok(1));
    assert_eq!(turns(&plan, 0, 0, 5), Ok(2));
    assert_eq!(turns(&plan, 0, 1, 3), Ok(0));
    assert_eq!(turns(&plan, 0, 1, 4), Ok(1));
    assert_eq!(turns(&plan, 1, 2, 5), Ok(0));
    assert_eq!(turns(&plan, 1, 2, 6), Ok(1));
    assert_eq!(turns(&plan, 1, 1, 7), Ok(2));
}

/// 2^32 − 1 rounds; 3 is left when it is divided by 6, and 255 by 4,095.
#[test]
fn turns_in_the_most_rounds() {
    let most = u32::MAX;
    let plan = opened(&[(4, 0), (6, 1)]);
    assert_eq!(turns(&plan, 0, 0, most), Ok(1 << 30));
    assert_eq!(turns(&plan, 0, 1, most), Ok((1 << 30) - 1));
    assert_eq!(turns(&plan, 1, 1, most), Ok(715_827_883));
    assert_eq!(turns(&plan, 1, 2, most), Ok(715_827_882));
    assert_eq!(turns(&opened(&[(4_095, 0)]), 0, 3_841, most), Ok(1_048_833));
    assert_eq!(turns(&opened(&[(4_095, 0)]), 0, 3_840, most), Ok(1_048_832));
    for first in [0, 1 << 32, u64::MAX] {
        let every_round = opened(&[(1, 0)]);
        assert_eq!(turns(&every_round, 0, first, most), Ok(most.into()));
    }
}

/// 2^64 leaves 4 when divided by 6 and 16 when divided by 4,095, so that the turns after it
/// are not those of the rounds from 0 on (document 02, Ask 1).
#[test]
fn turns_past_64_bits() {
    let plan = opened(&[(4, 0), (6, 1)]);
    assert_eq!(turns(&plan, 0, u64::MAX, 1), Ok(0));
    assert_eq!(turns(&plan, 0, u64::MAX, 2), Ok(1));
    assert_eq!(turns(&plan, 1, u64::MAX, 4), Ok(0));
    assert_eq!(turns(&plan, 1, u64::MAX, 5), Ok(1));
    assert_eq!(turns(&plan, 1, u64::MAX - 2, 1), Ok(1));
    assert_eq!(turns(&plan, 1, u64::MAX - 2, 7), Ok(2));
    let plan = opened(&[(4_095, 0)]);
    assert_eq!(turns(&plan, 0, u64::MAX, 4_080), Ok(0));
    assert_eq!(turns(&plan, 0, u64::MAX, 4_081), Ok(1));
    assert_eq!(turns(&plan, 0, u64::MAX - 15, 4_095), Ok(1));
    assert_eq!(turns(&plan, 0, u64::MAX - 15, 4_096), Ok(2));
}

/// A split keeps the starts of the lines below it (Marked cases, mistakes).
#[test]
fn old_starts_stay_at_a_split() {
    let mut plan = opened(&[(12, 0), (12, 1), (12, 2)]);
    plan.close(1).unwrap();
    assert_eq!(plan.open(3, 4), Ok(Start(1)));
    let two = under(3, [(0, L(2))]);
    let tree = node(4, [(0, under(3, [(0, L(0))])), (1, L(3)), (2, two)]);
    assert_eq!(plan, plan_of(tree));
    let starts: Vec<_> = [0, 2, 3].map(|it| period_and_start(&plan, it)).into();
    assert_eq!(starts, [(12, 0), (12, 2), (4, 1)]);
}

/// Two old edges of one class share a new node (Opening a line, 6).
#[test]
fn split_keeps_edges_of_one_class_together() {
    let mut plan = opened(&[(6, 0), (6, 1), (6, 2)]);
    plan.close(1).unwrap();
    assert_eq!(plan.open(3, 2), Ok(Start(1)));
    let even = under(3, [(0, L(0)), (1, L(2))]);
    assert_eq!(plan, plan_of(node(2, [(0, even), (1, L(3))])));
}

/// A case of our own: deeper nodes alone, one of them before the root, the root before one, and
/// a deeper node alone (Ask 6, 2).
#[test]
fn earliest_start() {
    let mut plan = opened(&[(4, 0), (8, 1), (8, 2), (8, 3), (8, 5)]);
    plan.close(1).unwrap();
    plan.close(3).unwrap();
    for (line, start) in [(5, 1), (6, 3), (7, 6)] {
        assert_eq!(plan.open(line, 8), Ok(Start(start)), "{line}");
    }
    let times: Vec<_> = [0, 2, 4, 5, 6, 7]
        .map(|line| period_and_start(&plan, line))
        .into();
    assert_eq!(times, [(4, 0), (8, 2), (8, 5), (8, 1), (8, 3), (8, 6)]);
}

/// The trees of that case, each derived by hand.
#[test]
fn earliest_start_trees() {
    let mut plan = opened(&[(4, 0), (8, 1), (8, 2), (8, 3), (8, 5)]);
    let (two, three) = (under(2, [(0, L(2))]), under(2, [(0, L(3))]));
    let one = under(2, [(0, L(1)), (1, L(4))]);
    let tree = node(4, [(0, L(0)), (1, one), (2, two.clone()), (3, three)]);
    assert_eq!(plan, plan_of(tree));
    plan.close(1).unwrap();
    plan.close(3).unwrap();
    let one = under(2, [(1, L(4))]);
    let tree = node(4, [(0, L(0)), (1, one), (2, two.clone())]);
    assert_eq!(plan, plan_of(tree));
    plan.open(5, 8).unwrap();
    let one = under(2, [(0, L(5)), (1, L(4))]);
    let tree = node(4, [(0, L(0)), (1, one.clone()), (2, two.clone())]);
    assert_eq!(plan, plan_of(tree));
    plan.open(6, 8).unwrap();
    let three = under(2, [(0, L(6))]);
    let tree = node(
        4,
        [(0, L(0)), (1, one.clone()), (2, two), (3, three.clone())],
    );
    assert_eq!(plan, plan_of(tree));
    plan.open(7, 8).unwrap();
    let two = under(2, [(0, L(2)), (1, L(7))]);
    let tree = node(4, [(0, L(0)), (1, one), (2, two), (3, three)]);
    assert_eq!(plan, plan_of(tree));
}

/// Opens the period as lines 9, 10, 11 .. at these starts, and then no more.
fn filled(mut plan: Plan, period: u64, starts: &[u16]) {
    for (line, &start) in (9..).zip(starts) {
        assert_eq!(plan.open(line, period), Ok(Start(start)), "{line}");
    }
    refused(&mut plan, 63, period, NoCandidate);
}

/// Mistake: the node of the largest level first. The lower node here offers 7 from the first
/// open on, and those that the opens add offer 4, 5 and 6.
#[test]
fn the_root_before_a_lower_node() {
    let lower = under(2, [(0, L(0))]);
    let plan = plan_of(node(4, [(3, lower)]));
    assert_eq!(period_and_start(&plan, 0), (8, 3));
    filled(plan, 8, &[0, 1, 2, 4, 5, 6, 7]);
}

/// Mistake: the root first. It offers 1 at first, the node under it 0, and the node under that
/// one 6.
#[test]
fn a_node_between_before_root_and_last() {
    let last = under(2, [(0, L(0))]);
    let plan = plan_of(node(2, [(0, under(2, [(1, last)]))]));
    assert_eq!(period_and_start(&plan, 0), (8, 2));
    filled(plan, 8, &[0, 1, 3, 4, 5, 6, 7]);
}

/// Mistake: the smallest offset without the class. Of the two nodes under the root the one of
/// offset 0 offers 4, 4, 6 and 6 where the one of offset 1 offers 3, 5, 5 and 7.
#[test]
fn classes_count_among_nodes_of_one_level() {
    let (even, odd) = (under(4, [(0, L(0)), (1, L(1))]), under(4, [(0, L(2))]));
    let plan = plan_of(node(2, [(0, even), (1, odd)]));
    let times = [0, 1, 2].map(|line| period_and_start(&plan, line));
    assert_eq!(times, [(8, 0), (8, 2), (8, 1)]);
    filled(plan, 8, &[3, 4, 5, 6, 7]);
}

/// Mistake: paths of edges compared, and not starts. After 0 and 3 the four last nodes offer 4,
/// 6, 5 and 7 in the sequence of their paths.
#[test]
fn starts_are_compared_and_not_paths() {
    let even = under(2, [(1, under(2, [(0, L(0))]))]);
    let odd = under(2, [(0, under(2, [(0, L(1))]))]);
    let plan = plan_of(node(2, [(0, even), (1, odd)]));
    let times = [0, 1].map(|line| period_and_start(&plan, line));
    assert_eq!(times, [(8, 2), (8, 1)]);
    filled(plan, 8, &[0, 3, 4, 5, 6, 7]);
}

/// No empty node may remain after the last close (Marked cases, mistakes).
#[test]
fn emptied_plan_is_the_fresh_one() {
    for first in 0..4 {
        let mut plan = opened(&[(4, 0), (6, 1), (8, 2), (12, 3)]);
        for line in 0..4 {
            assert_ne!(plan, Plan::empty());
            plan.close((first + line) % 4).unwrap();
        }
        assert_eq!(plan, Plan::empty());
        assert_eq!(plan.open(9, 7), Ok(Start(0)));
        assert_eq!(plan, plan_of(node(7, [(0, L(9))])));
    }
}

/// (Ask 4, 3).
#[test]
fn empty_plan_owns_nothing() {
    for round in [0, 1, 1 << 32, u64::MAX] {
        assert_eq!(owner(&Plan::empty(), round), Owner::Idle { rest: 0 });
    }
}
