//! The record of a plan as the steps of a script write to it: for each line 11 rows of
//! weight and edge from the root on, unused rows 0 and 0, the lines in rising sequence.
//! Whether its numbers are a tree is decided here from document 01 alone, by putting one
//! line after the other under the nodes that its rows name.

use crate::ask::{show, Path, Row, ROWS};
use crate::image;
use crate::orders::{answers_length, run, ANSWER_BYTES};
use crate::random::Random;
use crate::refusal::Refusal;
use crate::tree::{Node, Plan, Start, Under, LAST_LINE, LAST_PERIOD};
use crate::weave::weave;
use std::collections::BTreeMap;

/// Numbers of one line.
pub(crate) const LINE_NUMBERS: usize = 2 * ROWS;

/// Numbers in a record.
pub const RECORD_NUMBERS: usize = LINE_NUMBERS * (LAST_LINE as usize + 1);

/// Bytes of a record, two of each number.
pub(crate) const RECORD_BYTES: usize = 2 * RECORD_NUMBERS;

#[derive(Clone, Debug, PartialEq, Eq)]
pub struct Record {
    numbers: Vec<u16>,
}

impl Record {
    /// The record of a plan that its calls made.
    pub fn of(plan: &Plan) -> Record {
        let path = |line| show(plan, line).map_or([Row::default(); ROWS], |shown| shown.path);
        let rows = (0..=LAST_LINE).flat_map(path);
        Record {
            numbers: rows.flat_map(|row| [row.weight, row.edge]).collect(),
        }
    }

    /// The record of a plan that may not be a tree: of each line the rows that it has here.
    pub(crate) fn of_paths(paths: &[Path]) -> Record {
        let mut record = Record::of(&Plan::empty());
        for Path { line, rows } in paths {
            let numbers = rows.iter().flat_map(|row| [row.weight, row.edge]);
            for (place, number) in (LINE_NUMBERS * usize::from(*line)..).zip(numbers) {
                record.write(place, number);
            }
        }
        record
    }

    /// Of each number its most significant byte first.
    pub(crate) fn of_bytes(bytes: &[u8; RECORD_BYTES]) -> Record {
        let (pairs, _) = bytes.as_chunks();
        Record {
            numbers: pairs.iter().map(|&pair| u16::from_be_bytes(pair)).collect(),
        }
    }

    /// See `of_bytes`.
    pub(crate) fn bytes(&self) -> Vec<u8> {
        let numbers = self.numbers.iter();
        numbers.flat_map(|number| number.to_be_bytes()).collect()
    }

    /// Writes a number over another.
    pub fn write(&mut self, place: usize, number: u16) {
        self.numbers[place] = number;
    }

    pub fn number(&self, place: usize) -> u16 {
        self.numbers[place]
    }

    /// The lines whose first row is in use.
    pub fn lines_with_rows(&self) -> Vec<u64> {
        let first_weights = self.numbers.iter().step_by(LINE_NUMBERS);
        (0..)
            .zip(first_weights)
            .filter_map(|(line, &weight)| (weight != 0).then_some(line))
            .collect()
    }

    /// The plan that the numbers are; one that is no tree counts as empty (The tree, 16).
    pub fn plan(&self) -> Plan {
        self.tree().unwrap_or_default()
    }

    /// None where the numbers are no tree.
    pub fn tree(&self) -> Option<Plan> {
        let lines = (0..).zip(self.numbers.chunks_exact(LINE_NUMBERS));
        let paths = lines.map(|(line, numbers)| {
            let rows = rows_in_use(numbers)?;
            Some(Path { line, rows })
        });
        let mut paths: Vec<Path> = paths.collect::<Option<_>>()?;
        paths.retain(|path| !path.rows.is_empty());
        tree_of(&paths)
    }
}

/// What a script works on: a record, and the plan that it is. A call that is not refused
/// leaves the record of its plan, a refused one leaves the record as found.
#[derive(Clone)]
pub struct Held {
    pub record: Record,
    pub plan: Plan,
}

impl Held {
    pub fn empty() -> Held {
        Held {
            record: Record::of(&Plan::empty()),
            plan: Plan::empty(),
        }
    }

    pub fn open(&mut self, line: u64, period: u64) -> Result<Start, Refusal> {
        let start = self.plan.open(line, period)?;
        self.record = Record::of(&self.plan);
        Ok(start)
    }

    pub fn close(&mut self, line: u64) -> Result<(), Refusal> {
        self.plan.close(line)?;
        self.record = Record::of(&self.plan);
        Ok(())
    }

    /// Runs a list. The record is as found where no order was carried out.
    pub fn run(&mut self, list: &[u8], answers: &mut [u8]) -> Result<(), Refusal> {
        let before = self.plan.clone();
        run(&mut self.plan, list, answers)?;
        let count = answers_length(list.len());
        let carried = answers[..count].chunks(ANSWER_BYTES).any(carried_out);
        assert!(
            carried || self.plan == before,
            "a refused order changed the plan"
        );
        if carried {
            self.record = Record::of(&self.plan);
        }
        Ok(())
    }

    /// The record is that of the image's tree, or as found.
    pub fn read_image(&mut self, bytes: &[u8]) -> Result<(), Refusal> {
        image::read(&mut self.plan, bytes)?;
        self.record = Record::of(&self.plan);
        Ok(())
    }

    /// Weaves the plan with that of another record (document 02, Ask 10): it is side A before an
    /// even number and side B before an odd one. The record is that of the woven plan, or as found.
    pub(crate) fn weave(&mut self, side: u64, other: &Record) -> Result<(), Refusal> {
        let other = other.plan();
        self.plan = if side.is_multiple_of(2) {
            weave(&self.plan, &other)?
        } else {
            weave(&other, &self.plan)?
        };
        self.record = Record::of(&self.plan);
        Ok(())
    }

    pub fn write(&mut self, place: u64, number: u16) {
        self.record.write(place as usize, number);
        self.plan = self.record.plan();
    }
}

/// Result 0, in the first 4 bits (Orders, 4).
fn carried_out(answer: &[u8]) -> bool {
    answer[0] >> 4 == 0
}

/// A place of a record and a number to be written there: a number that no tree has, one in
/// range anywhere, or another weight or edge in a row that is in use.
pub fn drawn_write(record: &Record, random: &mut Random) -> (u64, u16) {
    let used: Vec<usize> = (0..RECORD_NUMBERS)
        .step_by(2)
        .filter(|&place| record.number(place) != 0)
        .collect();
    let anywhere = random.below(RECORD_NUMBERS as u64);
    let kind = random.below(5);
    if kind == 0 {
        return (anywhere, random.pick(&[4_096, 65_535]));
    }
    if kind == 1 || used.is_empty() {
        return (anywhere, random.below(LAST_PERIOD + 1) as u16);
    }
    let place = random.pick(&used);
    let weight = record.number(place);
    if kind == 2 {
        return (place as u64, random.below(2 * u64::from(weight)) as u16);
    }
    (place as u64 + 1, random.below(u64::from(weight)) as u16)
}

fn node(row: Row) -> Node {
    Node {
        weight: row.weight,
        edges: BTreeMap::new(),
    }
}

/// None where a row after them is not 0 and 0.
fn rows_in_use(numbers: &[u16]) -> Option<Vec<Row>> {
    let row = |pair: &[u16]| Row {
        weight: pair[0],
        edge: pair[1],
    };
    let mut rows: Vec<Row> = numbers.chunks_exact(2).map(row).collect();
    let used = rows.iter().take_while(|row| row.weight != 0).count();
    let rest = rows.split_off(used);
    rest.iter()
        .all(|row| *row == Row::default())
        .then_some(rows)
}

/// The plan in which the lines, each another one, have these paths. None where that is no tree
/// (The tree, 15 and 16).
pub(crate) fn tree_of(paths: &[Path]) -> Option<Plan> {
    let mut root = None;
    for Path { line, rows } in paths {
        let (first, below) = rows.split_first().filter(|_| is_in_range(rows))?;
        put(
            root.get_or_insert_with(|| node(*first)),
            *first,
            below,
            *line,
        )?;
    }
    Some(Plan { root })
}

/// Weights, edges and the period (The tree, 2 and 15).
fn is_in_range(rows: &[Row]) -> bool {
    let period: u64 = rows.iter().fold(1, |period, row| {
        (period * u64::from(row.weight)).min(LAST_PERIOD + 1)
    });
    let alone = rows.len() == 1;
    let in_range = |row: &Row| row.edge < row.weight && (row.weight > 1 || alone);
    rows.iter().all(in_range) && period <= LAST_PERIOD
}

/// Puts a line under an edge of the node, or under nodes below it. None where another
/// weight or another line stands there already.
fn put(above: &mut Node, row: Row, rest: &[Row], line: u8) -> Option<()> {
    if above.weight != row.weight {
        return None;
    }
    let Some((next, below)) = rest.split_first() else {
        return match above.edges.insert(row.edge, Under::Line(line)) {
            None => Some(()),
            Some(_) => None,
        };
    };
    let under = above
        .edges
        .entry(row.edge)
        .or_insert_with(|| Under::Node(node(*next)));
    match under {
        Under::Node(deeper) => put(deeper, *next, below, line),
        Under::Line(_) => None,
    }
}

#[cfg(test)]
mod tests {
    use super::*;

    /// Periods 4, 6 and 8 of case A, at lines 1 to 3.
    fn case_a() -> Plan {
        let mut plan = Plan::empty();
        for (line, period) in [(1, 4), (2, 6), (3, 8)] {
            plan.open(line, period).unwrap();
        }
        plan
    }

    fn written(writes: &[(usize, u16)]) -> Option<Plan> {
        let mut record = Record::of(&case_a());
        for &(place, number) in writes {
            record.write(place, number);
        }
        record.tree()
    }

    #[test]
    fn a_plan_is_read_back_from_its_record() {
        assert_eq!(written(&[]), Some(case_a()));
        assert_eq!(Record::of(&Plan::empty()).tree(), Some(Plan::empty()));
        let mut every_round = Plan::empty();
        every_round.open(9, 1).unwrap();
        assert_eq!(Record::of(&every_round).tree(), Some(every_round));
    }

    /// Line 1 has the rows (2, 0), (2, 0): its numbers stand from 22 on.
    #[test]
    fn what_is_no_tree_is_told() {
        assert_eq!(Record::of(&case_a()).numbers[22..27], [2, 0, 2, 0, 0]);
        for writes in [
            vec![(22, 1)],        // a weight of 1 above another row
            vec![(22, 3)],        // a weight that the other lines' root has not
            vec![(23, 2)],        // an edge that is not below its weight
            vec![(27, 5)],        // a number in a row that is not used
            vec![(22, 0)],        // a row that is not used before one that is
            vec![(24, 4_095)],    // a period above 4,095
            vec![(0, 4_096)],     // a weight out of range
            vec![(0, 2)],         // a line where nodes stand
            vec![(0, 2), (2, 2)], // a line where another stands
            vec![(0, 1)],         // a root of weight 1 beside another
        ] {
            assert_eq!(written(&writes), None, "{writes:?}");
        }
    }

    /// Line 3 of period 8 stands under edge 1 of a node of weight 2 and moves to a free edge.
    #[test]
    fn another_tree_is_told() {
        let record = Record::of(&case_a());
        let edges: Vec<usize> = (67..88).step_by(2).collect();
        let moved = edges.iter().any(|&place| {
            let mut other = record.clone();
            other.write(place, 1 - record.number(place).min(1));
            other.tree().is_some_and(|plan| plan != case_a())
        });
        assert!(moved);
    }
}
