//! Joining the nodes that remain above a line when it has gone.

use super::search::open_lines;
use super::{Path, Plan, Row, LINES, ROWS};

/// How many nodes the path of each line has in common with one path. A line goes through the path's node at a level where
/// its number is larger.
type Common = [u8; LINES];

fn nodes_in_common(rows: &[Row], other: &Path) -> u8 {
    for (k, ([_, edge], [other_weight, other_edge])) in rows.iter().zip(other).enumerate() {
        if *other_weight == 0 {
            return k as u8;
        }
        if edge != other_edge {
            return k as u8 + 1;
        }
    }
    rows.len() as u8
}

/// Those of the lines up to the last open one; closed ones have no node in common.
fn common_of_lines(plan: &Plan, rows: &[Row]) -> Common {
    let mut common = [0; LINES];
    for (common, path) in common.iter_mut().zip(open_lines(plan)) {
        *common = nodes_in_common(rows, path);
    }
    common
}

/// The largest of the numbers in common.
fn deepest(common: &Common) -> usize {
    common.iter().copied().max().unwrap_or(0).into()
}

/// The one weight of the nodes to which all edges of the node at a level lead, where there is one.
fn weight_below(plan: &Plan, common: &Common, level: usize) -> Option<u16> {
    let mut v = 0;
    for (path, &common) in plan.iter().zip(common) {
        if level < common.into() {
            let weight = path[level + 1][0];
            if weight == 0 || (v != 0 && weight != v) {
                return None;
            }
            v = weight;
        }
    }
    (v != 0).then_some(v)
}

fn join_path(path: &mut Path, level: usize) {
    let [[weight, edge], [child_weight, child_edge]] = [path[level], path[level + 1]];
    path.copy_within(level + 2.., level + 1);
    path[ROWS - 1] = [0, 0];
    path[level] = [weight * child_weight, edge + weight * child_edge];
}

fn join_node(plan: &mut Plan, common: &Common, level: usize) {
    for (path, &common) in plan.iter_mut().zip(common) {
        if level < common.into() {
            join_path(path, level);
        }
    }
}

/// The nodes on a path are joined, each as long as it can be, from the deepest one that a line goes through up to the root.
/// Under the node at the last level there are lines alone.
pub fn join_up(plan: &mut Plan, rows: &[Row]) {
    let common = common_of_lines(plan, rows);
    for level in (0..deepest(&common).min(ROWS - 1)).rev() {
        while weight_below(plan, &common, level).is_some() {
            join_node(plan, &common, level);
        }
    }
}
