//! A second way to close a line, over the shown paths alone (Closing a line, 1 and 2, and document
//! 02, Ask 8, 2 and 3). Only for tests.

use crate::ask::{show, Path, Row, ROWS};
use crate::record::Record;
use crate::tree::Plan;
use std::collections::{BTreeMap, BTreeSet};

/// Of each open line the rows in use. A plan has no other nodes than those that they name.
pub(crate) type Paths = BTreeMap<u8, Vec<Row>>;

/// Those that show answers.
pub(crate) fn paths(plan: &Plan) -> Paths {
    let shown = |line: u8| Some((line, show(plan, line.into()).ok()?.path));
    let used = |path: [Row; ROWS]| path.into_iter().take_while(|row| row.weight > 0).collect();
    let all = (0..64).filter_map(shown);
    all.map(|(line, path)| (line, used(path))).collect()
}

/// The plan that has these paths, as a record of them is read (`record.rs`).
pub(crate) fn plan_of(paths: &Paths) -> Plan {
    let path = |(&line, rows): (&u8, &Vec<Row>)| Path {
        line,
        rows: rows.clone(),
    };
    let record = Record::of_paths(&Vec::from_iter(paths.iter().map(path)));
    record.tree().expect("the paths are those of a tree")
}

/// A close and what it joins.
pub(crate) struct Closed {
    /// The rows of the line that goes, one for each node above it.
    pub(crate) way: Vec<Row>,
    /// The other paths before anything is joined: a node without edges is on none of them.
    pub(crate) between: Paths,
    pub(crate) after: Paths,
    /// How often the node above the line is joined, by level.
    pub(crate) joins: Vec<usize>,
}

/// From the deepest node above the line to the root (Ask 8, 2).
pub(crate) fn close(plan: &Plan, line: u8) -> Closed {
    let mut between = paths(plan);
    let way = between.remove(&line).expect("the line is open");
    let mut after = between.clone();
    let mut joins = vec![0; way.len()];
    for level in (0..way.len()).rev() {
        while join_once(&mut after, &way[..level]) {
            joins[level] += 1;
        }
    }
    Closed {
        way,
        between,
        after,
        joins,
    }
}

/// Joins the node under these rows, if all paths through it have one row more than its own, of one
/// weight (Ask 8, 3).
fn join_once(paths: &mut Paths, above: &[Row]) -> bool {
    let level = above.len();
    let through = paths.values_mut().filter(|path| path.starts_with(above));
    let through: Vec<&mut Vec<Row>> = through.collect();
    let weights_below = through.iter().map(|path| Some(path.get(level + 1)?.weight));
    let weights_below: BTreeSet<Option<u16>> = weights_below.collect();
    if weights_below.len() != 1 || weights_below.contains(&None) {
        return false;
    }
    for path in through {
        let (own, below) = (path[level], path.remove(level + 1));
        path[level] = Row {
            weight: own.weight * below.weight,
            edge: own.edge + own.weight * below.edge,
        };
    }
    true
}

impl Closed {
    /// Of the deepest node above the line that remains when the line has gone.
    pub(crate) fn deepest_level(&self) -> Option<usize> {
        let remains = |&level: &usize| {
            let mut others = self.between.values();
            others.any(|path| path.starts_with(&self.way[..level]))
        };
        (0..self.way.len()).rfind(remains)
    }
}
