//! What is measured: plans and lists of orders with so many open lines.

use crate::numbers::{order, Numbers};
use crate::{plain, Record, IMAGE, RECORD, SEED};

const PERIODS: [u16; 8] = [480, 360, 240, 720, 960, 1440, 600, 1200];

/// The most orders that a list may have.
pub const ORDERS: usize = 21_845;

/// A plan of the lines from `first` on with these periods.
fn plan_with_from(first: u64, periods: impl Iterator<Item = u64>) -> Record {
    let mut rows = [0; RECORD];
    for (line, period) in (first..).zip(periods) {
        let answer = plain::open(&mut rows, line, period);
        assert!(0 <= answer, "line {line} is booked");
    }
    rows
}

/// A plan of the lines 0, 1, 2 .. with these periods.
fn plan_with(periods: impl Iterator<Item = u64>) -> Record {
    plan_with_from(0, periods)
}

/// So many of the periods above, in turn.
fn periods(lines: u64) -> impl Iterator<Item = u64> {
    let in_turn = PERIODS.into_iter().cycle().map(u64::from);
    in_turn.take(lines as usize)
}

/// A plan of so many lines. Two and more stand side by side: the root has weight 120, which is room for all, and below it
/// each line has a node of its own, so that every path has two rows.
pub fn plan_of(lines: u64) -> Record {
    plan_with(periods(lines))
}

/// A plan of so many lines, two and more, with nodes below nodes: lines of the periods 2 and 30 leave the others one node
/// of weight 15. With 16 lines it is full and the others' paths have three rows, with 64 lines four to six.
pub fn deep_plan_of(lines: u64) -> Record {
    plan_with([2, 30].into_iter().chain(periods(lines - 2)))
}

/// Two plans of so many lines each, as above: the second has the lines after those of the first.
pub fn pair_of(lines: u64) -> [Record; 2] {
    [plan_of(lines), plan_with_from(lines, periods(lines))]
}

/// The same, but that the last line of the first is the first one of the second.
pub fn pair_with_line_in_both(lines: u64) -> [Record; 2] {
    [plan_of(lines), plan_with_from(lines - 1, periods(lines))]
}

/// The plan of a line that has a root of weight 1 to itself.
pub fn plan_of_line_alone(line: u64) -> Record {
    plan_with_from(line, [1].into_iter())
}

/// Case F: the lines 0, 1, 2 .. have the periods 2, 4, 8 .. The last one, of period 2,048, has 11 nodes above it.
pub fn plan_of_powers() -> Record {
    plan_with((1..=11).map(|level| 1 << level))
}

/// Rounds that the last line of case F owns: 1,023 is its start.
pub fn rounds_under_11_nodes(count: usize) -> Vec<u64> {
    (0..count as u64).map(|at| 1_023 + 2_048 * at).collect()
}

/// The image of a plan.
pub fn image_of(rows: &Record) -> Vec<u8> {
    let mut image = vec![0; IMAGE];
    let length = plain::write_image(rows, &mut image);
    image.truncate(length as usize);
    image
}

/// The first rounds that are owned, or else idle.
pub fn rounds_where(rows: &Record, owned: bool, count: usize) -> Vec<u64> {
    let is_owned = |round: u64| plain::owner(rows, round) < 64;
    let rounds = (0..).filter(|&round| is_owned(round) == owned);
    rounds.take(count).collect()
}

/// The lines that are open, or else closed.
pub fn lines_where(rows: &Record, open: bool) -> Vec<u8> {
    let is_open = |line: u8| rows[22 * usize::from(line)] != 0;
    (0..64).filter(|&line| is_open(line) == open).collect()
}

/// One of these lines, where there is one.
pub fn one_of(lines: &[u8], numbers: &mut Numbers) -> Option<u8> {
    match lines.len() {
        0 => None,
        count => Some(lines[numbers.below(count as u64) as usize]),
    }
}

/// An order that is refused with 2, 3, 4, 5 or 6: period 7 has no candidate beside the periods above.
fn refused_order(rows: &Record, numbers: &mut Numbers) -> [u8; 3] {
    let open = one_of(&lines_where(rows, true), numbers);
    let closed = one_of(&lines_where(rows, false), numbers);
    match (numbers.below(5), open, closed) {
        (0, _, Some(line)) => order(0, line, 0),
        (1, Some(line), _) => order(0, line, PERIODS[0]),
        (2, _, Some(line)) => order(1, line, 0),
        (3, Some(_), Some(line)) => order(0, line, 7),
        _ => order(3, 0, 0),
    }
}

/// An open where fewer lines than so many are open, else a close.
fn next_order(rows: &Record, lines: usize, numbers: &mut Numbers) -> [u8; 3] {
    let open = lines_where(rows, true);
    if open.len() < lines {
        let line = one_of(&lines_where(rows, false), numbers).expect("a closed line");
        return order(0, line, PERIODS[numbers.below(8) as usize]);
    }
    order(1, one_of(&open, numbers).expect("an open line"), 0)
}

/// A list of orders, with the numbers of lines and of answers that it comes to.
pub struct List {
    pub bytes: Vec<u8>,
    pub mean_lines: f64,
    pub answers: [usize; 7],
}

/// A list that opens lines until so many are open, and from then on closes one and opens one in turn.
/// Every eighth order is one that is refused.
pub fn list_of(lines: usize) -> List {
    let mut numbers = Numbers(SEED);
    let mut rows = [0; RECORD];
    let mut list = List {
        bytes: Vec::new(),
        mean_lines: 0.0,
        answers: [0; 7],
    };
    for at in 0..ORDERS {
        let order = match at % 8 {
            7 => refused_order(&rows, &mut numbers),
            _ => next_order(&rows, lines, &mut numbers),
        };
        let mut answer = [0; 2];
        plain::run_list(&mut rows, &order, &mut answer);
        list.bytes.extend(order);
        list.answers[usize::from(answer[0] >> 4)] += 1;
        list.mean_lines += lines_where(&rows, true).len() as f64 / ORDERS as f64;
    }
    list
}
