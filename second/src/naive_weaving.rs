//! Two more ways to tell what weaving gives: over the paths of the two plans, and by the owners of
//! rounds, from which each line's period and start can be read (document 02, Ask 10). Only for
//! tests.

use crate::ask::{owner_at, Row};
use crate::naive_joining::Paths;
use crate::tree::Plan;
use std::collections::BTreeMap;

/// The paths of the woven plan, or the number of the refusal (Ask 10, 3, 4 and 6).
pub(crate) fn by_paths(a: &Paths, b: &Paths) -> Result<Paths, u8> {
    if a.keys().any(|line| b.contains_key(line)) {
        return Err(15);
    }
    let mut woven = Paths::new();
    for (edge, side) in [(0, a), (1, b)] {
        for (&line, rows) in side {
            let above = Row { weight: 2, edge };
            let is_alone = rows.len() == 1 && rows[0].weight == 1;
            let below = if is_alone { &[] } else { rows.as_slice() };
            woven.insert(line, [&[above], below].concat());
        }
    }
    let period =
        |rows: &Vec<Row>| -> u64 { rows.iter().map(|row| u64::from(row.weight)).product() };
    if woven.values().any(|rows| period(rows) > 4_095) {
        return Err(16);
    }
    Ok(woven)
}

/// Period and start of each open line.
pub(crate) type Turns = BTreeMap<u8, (u64, u64)>;

/// Told by the rounds that the walk gives a line: its start is the first, and its period lies
/// between the first two. Both are below 8,190.
pub(crate) fn turns_walked(plan: &Plan) -> Turns {
    let mut rounds: BTreeMap<u8, Vec<u64>> = BTreeMap::new();
    for round in 0..2 * 4_095 {
        if let Some(line) = owner_at(plan, round.into()) {
            rounds.entry(line).or_default().push(round);
        }
    }
    let of_line = |(line, rounds): (u8, Vec<u64>)| (line, (rounds[1] - rounds[0], rounds[0]));
    rounds.into_iter().map(of_line).collect()
}

/// The turns of the woven plan, or the number of the refusal (Ask 10, 4 and 6).
pub(crate) fn by_rounds(a: &Turns, b: &Turns) -> Result<Turns, u8> {
    let doubled = |side: &Turns, odd: u64| -> Turns {
        let all = side.iter();
        all.map(|(&line, &(period, start))| (line, (2 * period, 2 * start + odd)))
            .collect()
    };
    let woven: Turns = doubled(a, 0).into_iter().chain(doubled(b, 1)).collect();
    if woven.len() < a.len() + b.len() {
        return Err(15);
    }
    if woven.values().any(|&(period, _)| period > 4_095) {
        return Err(16);
    }
    Ok(woven)
}
