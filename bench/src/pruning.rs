//! What the pruning saves: the search of plain Rust beside the same one with nothing pruned, in turn. Both look for the
//! smallest start and search a node in the same way.

use crate::inputs::{deep_plan_of, plan_of};
use crate::measure::{best_of, Task, TOGETHER};
use crate::plain::paths::{is_closed, length, same_node};
use crate::plain::search::{best_candidate, open_lines, spot_at, starts_by, Node, Spot};
use crate::plain::{plan_in, Path};
use crate::Record;
use std::hint::black_box;

const REPETITIONS: usize = 300;

type Search = fn(&[Path], u16) -> Option<Spot>;

/// An earlier line goes through the node too, so that it was looked at.
fn seen_earlier(lines: &[Path], node: Node) -> bool {
    let path = &lines[node.line];
    let mut earlier = lines[..node.line].iter();
    earlier.any(|other| same_node(other, path, node.level))
}

fn better(lines: &[Path], node: Node, period: u16, best: Option<Spot>) -> Option<Spot> {
    if !period.is_multiple_of(node.step) || seen_earlier(lines, node) {
        return best;
    }
    match spot_at(lines, node, period) {
        Some(spot) if !starts_by(best, spot.start()) => Some(spot),
        _ => best,
    }
}

/// Every node of the path is looked at.
fn best_on_path(lines: &[Path], line: usize, period: u16, earlier: Option<Spot>) -> Option<Spot> {
    let path = &lines[line];
    let mut best = earlier;
    let mut node = Node {
        line,
        level: 0,
        step: 1,
        offset: 0,
    };
    for (level, [weight, edge]) in path[..length(path)].iter().enumerate() {
        node.level = level;
        best = better(lines, node, period, best);
        node.offset += edge * node.step;
        node.step *= weight;
    }
    best
}

fn unpruned(lines: &[Path], period: u16) -> Option<Spot> {
    let open = (0..lines.len()).filter(|&line| !is_closed(&lines[line]));
    open.fold(None, |best, line| best_on_path(lines, line, period, best))
}

fn searches(search: Search, rows: Record, period: u16) -> Task {
    Box::new(move || {
        let lines = open_lines(plan_in(&rows));
        for _ in 0..TOGETHER {
            black_box(search(black_box(lines), black_box(period)));
        }
    })
}

/// Both find the same candidate, or none, for every period.
fn assert_same_candidates(lines: &[Path]) {
    for period in 1..=4_095 {
        assert_eq!(best_candidate(lines, period), unpruned(lines, period));
    }
}

fn measure_one(plan: &str, rows: Record, period: u16) {
    let lines = open_lines(plan_in(&rows));
    assert_same_candidates(lines);
    let found = best_candidate(lines, period);
    let answer = found.map_or("refused".into(), |spot| spot.start().to_string());
    let both: [Search; 2] = [best_candidate, unpruned];
    let tasks = both.map(|search| searches(search, rows, period));
    let [pruned, whole] = best_of(REPETITIONS, tasks).map(|total| total / TOGETHER as f64);
    let ratio = whole / pruned;
    println!("| {plan} | {period} | {answer} | {pruned:.0} | {whole:.0} | {ratio:.1} |");
}

/// In each plan for a period that finds room, and for one that is refused; in the deep plans after many nodes.
pub fn measure_pruning() {
    println!();
    println!("| plan | period | start | search, ns | nothing pruned, ns | that by search |");
    println!("|---|---|---|---|---|---|");
    for (plan, rows, refused) in [
        ("16 lines", plan_of(16), 2),
        ("64 lines", plan_of(64), 2),
        ("16 lines, deep", deep_plan_of(16), 30),
        ("64 lines, deep", deep_plan_of(64), 120),
    ] {
        measure_one(plan, rows, 480);
        measure_one(plan, rows, refused);
    }
}
