//! The check that a record is a tree, and where two paths meet.

use super::{Path, Plan, LINES, ROWS};

pub fn is_closed(path: &Path) -> bool {
    path[0][0] == 0
}

pub fn length(path: &Path) -> usize {
    path.iter().position(|row| row[0] == 0).unwrap_or(ROWS)
}

/// Two paths go through the same nodes, up to one that they leave by different edges.
fn parts(a: &Path, b: &Path) -> bool {
    for ([weight, edge], [other_weight, other_edge]) in a.iter().zip(b) {
        if *weight == 0 || weight != other_weight {
            return false;
        }
        if edge != other_edge {
            return true;
        }
    }
    false
}

/// Two paths go through the same node at a level. What most often differs is looked at first, as in the library.
pub fn same_node(a: &Path, b: &Path, level: usize) -> bool {
    if b[level][0] == 0 || a[level][0] == 0 {
        return false;
    }
    let mut above = a[..level].iter().zip(&b[..level]);
    above.all(|(a, b)| a[1] == b[1] && a[0] != 0 && b[0] != 0)
}

/// The number of a path's rows where they are in range.
fn check_rows(path: &Path) -> Option<usize> {
    let mut product = 1;
    for (k, &[weight, edge]) in path.iter().enumerate() {
        if weight == 0 {
            return Some(k);
        }
        if weight < 2 || weight <= edge {
            return None;
        }
        product *= u32::from(weight);
        if 4095 < product {
            return None;
        }
    }
    Some(ROWS)
}

/// The same, or the path is that of a line with a root of weight 1 to itself.
fn check_path(path: &Path) -> Option<usize> {
    if path[0][0] != 1 {
        return check_rows(path);
    }
    (path[0][1] == 0 && path[1][0] == 0).then_some(1)
}

fn rest_unused(path: &Path, count: usize) -> bool {
    path[count..].iter().all(|row| *row == [0, 0])
}

/// The rows of a closed line, summed up before the one test as the library does.
fn closed_unused(path: &Path) -> bool {
    let sum: u32 = path.as_flattened().iter().copied().map(u32::from).sum();
    sum == 0
}

/// Lines in chains, one for each of 128 buckets. An entry is 0, or 1 + a line: a chain goes from its head's entry by links
/// to smaller and smaller lines.
struct Chains {
    head: [u8; 128],
    link: [u8; LINES],
}

impl Chains {
    fn first(&self, bucket: usize) -> usize {
        self.head[bucket].into()
    }

    fn next(&self, line: usize) -> usize {
        self.link[line].into()
    }

    fn enter(&mut self, bucket: usize, line: usize) {
        self.link[line] = self.head[bucket];
        self.head[bucket] = line as u8 + 1;
    }
}

/// The lines passed: the weight of the root, 0 while no open line was passed, and the open lines in chains by the edges
/// that they take there, modulo 128.
struct Passed {
    root: u16,
    chains: Chains,
}

fn parts_from_bucket(plan: &Plan, chains: &Chains, line: usize, bucket: usize) -> bool {
    let mut entry = chains.first(bucket);
    while entry != 0 {
        let other = entry - 1;
        if !parts(&plan[other], &plan[line]) {
            return false;
        }
        entry = chains.next(other);
    }
    true
}

/// An open line goes together with the lines passed; then it is one of them.
fn joins_passed(plan: &Plan, line: usize, passed: &mut Passed) -> bool {
    let [root, edge] = plan[line][0];
    if passed.root != 0 && passed.root != root {
        return false;
    }
    let bucket = usize::from(edge) % 128;
    if !parts_from_bucket(plan, &passed.chains, line, bucket) {
        return false;
    }
    passed.root = root;
    passed.chains.enter(bucket, line);
    true
}

fn line_legal(plan: &Plan, line: usize, passed: &mut Passed) -> bool {
    let path = &plan[line];
    if is_closed(path) {
        return closed_unused(path);
    }
    check_path(path).is_some_and(|count| rest_unused(path, count))
        && joins_passed(plan, line, passed)
}

/// The record is a tree.
pub fn legal(plan: &Plan) -> bool {
    let mut passed = Passed {
        root: 0,
        chains: Chains {
            head: [0; 128],
            link: [0; LINES],
        },
    };
    (0..LINES).all(|line| line_legal(plan, line, &mut passed))
}
