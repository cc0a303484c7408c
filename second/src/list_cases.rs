//! `second list-script cases`: lists and lent bytes of every shape, damaged records, every
//! refusal that a list can give, malformed orders, the named cases, closes that join nodes or just
//! do not, and the longest list, as a script (`list_script.rs`).

use crate::ask::{show, ROWS};
use crate::border_joins::{self, ClosedPlan};
use crate::list_script::{owners, Step, MOST_ROOM};
use crate::long_list::{self, MOST_ORDERS};
use crate::orders::{answers_length, pack, LONGEST_LIST, ORDER_BYTES};
use crate::record::{Held, LINE_NUMBERS};
use crate::script;
use crate::shapes::Shape;
use crate::tree::Plan;
use std::collections::BTreeSet;

/// The whole script.
pub fn cases() -> Vec<Step> {
    [
        bad_lengths(),
        rooms(),
        empty_lists(),
        lists_in_turn(),
        damaged_records(),
        refusals(),
        malformed_orders(),
        named_cases(),
        closes_that_join(),
        longest_list(),
    ]
    .concat()
}

type OrderBytes = [u8; ORDER_BYTES];

fn open(line: u64, period: u64) -> OrderBytes {
    pack(0, line, period).expect("line and period are within their fields")
}

fn close(line: u64) -> OrderBytes {
    pack(1, line, 0).expect("the line is within its field")
}

/// Gives the orders and runs them, with so many bytes lent beyond the answers.
fn run_all(orders: &[OrderBytes], beyond: usize) -> [Step; 2] {
    let length = orders.len() * ORDER_BYTES;
    let room = answers_length(length) + beyond;
    [Step::Give(orders.concat()), Step::List { length, room }]
}

/// Lengths that are refused with 7, on a plan that each of the list's orders would change,
/// with too little room (8 comes later) and with enough.
fn bad_lengths() -> Vec<Step> {
    let mut steps = vec![Step::Begin];
    steps.extend(run_all(&[open(1, 6), open(2, 2)], 2));
    steps.push(Step::Give([open(3, 6), close(1)].concat()));
    for length in [
        1, 2, 4, 5, 65_534, 65_536, 65_537, 65_538, 65_539, 99_999, 100_000,
    ] {
        let enough = answers_length(length);
        for room in BTreeSet::from([0, enough / 2, enough, enough + 6]) {
            steps.push(Step::List { length, room });
        }
    }
    steps.extend(owners(0..6));
    steps
}

/// Room that is too little by one byte and more (8), exact, and more than enough.
fn rooms() -> Vec<Step> {
    let mut steps = vec![Step::Begin];
    let orders = [open(1, 4), open(2, 6), open(3, 8), open(4, 2), open(5, 12)];
    for count in [1, 2, 5] {
        steps.push(Step::Give(orders[..count].concat()));
        let length = count * ORDER_BYTES;
        let enough = answers_length(length);
        for room in BTreeSet::from([0, 1, enough - 1]) {
            steps.push(Step::List { length, room });
        }
        steps.extend(owners(0..4));
        for beyond in [0, 1, 2, 5, 6, 7, 1_000, MOST_ROOM - enough] {
            let room = enough + beyond;
            steps.extend([Step::List { length, room }, Step::Begin]);
        }
    }
    steps
}

/// On the empty plan, on a plan with a line, and on a damaged record, with and without
/// lent bytes. The plan stays as found (Orders, 6).
fn empty_lists() -> Vec<Step> {
    let empty = |room: usize| Step::List { length: 0, room };
    let mut steps = vec![Step::Begin, empty(0), empty(9), Step::Owner { round: 0 }];
    steps.extend(run_all(&[open(9, 3)], 0));
    steps.extend([empty(0), empty(1), empty(MOST_ROOM)]);
    steps.extend(owners(0..4));
    let (place, number) = (198, 65_535);
    steps.extend([Step::Write { place, number }, empty(0), empty(4)]);
    steps.push(Step::Number { place });
    steps.extend(owners(0..4));
    steps
}

/// Each list on the plan that the one before it left: opens only, a close only, refused
/// orders only, closes of all lines, and the same opens again.
fn lists_in_turn() -> Vec<Step> {
    let opens = [open(1, 6), open(2, 2), open(3, 12)];
    let refused = [open(1, 5), close(2), open(4, 5), [0x83, 0x00, 0x00]];
    let lists: [&[OrderBytes]; 5] = [&opens, &[close(2)], &refused, &[close(3), close(1)], &opens];
    let mut steps = vec![Step::Begin];
    for orders in lists {
        steps.extend(run_all(orders, 1));
        steps.extend(owners(0..12));
    }
    steps
}

/// Lists on records that are no tree, the damage at several places. While every order is
/// refused, or the list itself, the record stays as found; an order that is carried out
/// makes it the plan of such orders alone.
fn damaged_records() -> Vec<Step> {
    let refused = [
        close(1),
        open(1, 0),
        [0x81, 0x00, 0x60],
        [0xc1, 0x00, 0x60],
        [0x01, 0x00, 0x61],
        [0x41, 0x00, 0x60],
    ];
    let mut steps = Vec::new();
    for (place, number) in [
        (0, 4_096),
        (1, 4_097),
        (22, 65_535),
        (43, 5_000),
        (704, 32_768),
        (1_406, 61_441),
        (1_407, 65_535),
    ] {
        steps.push(Step::Begin);
        steps.extend(run_all(&[open(1, 4), open(2, 6)], 0));
        steps.extend([Step::Write { place, number }, Step::Number { place }]);
        steps.extend(run_all(&refused, 3));
        steps.extend([Step::Number { place }, Step::Owner { round: 0 }]);
        let (length, room) = (18, 11);
        steps.extend([Step::List { length, room }, Step::Number { place }]);
        let (length, room) = (17, 12);
        steps.extend([Step::List { length, room }, Step::Number { place }]);
        steps.extend(run_all(&[close(2), open(1, 6), open(2, 4)], 0));
        steps.push(Step::Number { place });
        steps.extend(owners(0..8));
    }
    steps.extend(damaged_and_emptied());
    steps
}

/// Two numbers in one record; then a list that opens a line and closes it again, which
/// leaves the empty plan (Closing a line, 2).
fn damaged_and_emptied() -> Vec<Step> {
    let numbers = [(5, 9_999), (700, 4_096)];
    let asked = numbers.map(|(place, _)| Step::Number { place });
    let mut steps = vec![Step::Begin];
    steps.extend(numbers.map(|(place, number)| Step::Write { place, number }));
    steps.extend(run_all(&[close(63)], 1));
    steps.extend(asked.clone());
    steps.extend(run_all(&[open(63, 4_095), close(63), open(63, 0)], 1));
    steps.extend(asked);
    steps.extend(owners([0, 4_095]));
    steps.extend(run_all(&[open(62, 1), open(62, 1), open(0, 1)], 1));
    steps.extend(owners([0, u64::MAX]));
    steps
}

/// 2, 3, 4, 5 and 6 as answers, with starts that need both bytes; each refused order is
/// followed by others, and the next list finds the plan that this one left.
fn refusals() -> Vec<Step> {
    let powers: Vec<OrderBytes> = (1..=11).map(|power| open(power, 1 << power)).collect();
    let refused = [
        open(0, 0),
        open(1, 2),
        close(63),
        open(0, 1),
        [0x8b, 0x00, 0x00],
        close(11),
        close(11),
        open(11, 2_048),
    ];
    let mut steps = vec![Step::Begin];
    steps.extend(run_all(&powers, 2));
    steps.extend(run_all(&refused, 2));
    steps.extend(run_all(&powers, 0));
    steps.extend(owners([
        0,
        1,
        1_023,
        2_047,
        1 << 32,
        u64::MAX - 1,
        u64::MAX,
    ]));
    steps
}

/// Kinds 2 and 3, each bit of the last four, and a close with a period, for the lines 0
/// and 63, which are open first and closed last.
fn malformed_orders() -> Vec<Step> {
    let mut orders = vec![open(0, 2), open(63, 4_094)];
    for first in [0x00, 0x3f] {
        orders.extend([0x80, 0xc0].map(|kind| [kind | first, 0x00, 0x00]));
        orders.extend([0x80, 0xc0].map(|kind| [kind | first, 0xff, 0xff]));
        for filler in [1, 2, 4, 8, 15] {
            orders.extend([[first, 0x00, filler], [first, 0x01, filler]]);
            orders.push([0x40 | first, 0x00, filler]);
        }
        orders.extend([0x001, 0x00f, 0x010, 0x800, 0xfff].map(|period: u16| {
            let [high, low] = (period << 4).to_be_bytes();
            [0x40 | first, high, low]
        }));
    }
    orders.extend([close(0), close(63), close(0)]);
    let mut steps = vec![Step::Begin];
    steps.extend(run_all(&orders, 4));
    steps.extend(owners(0..4));
    steps
}

/// (Marked cases, A to I) and `earliest_start`, as far as orders can hold them.
fn named_cases() -> Vec<Step> {
    let mut steps = Vec::new();
    for case in script::named_cases() {
        steps.push(Step::Begin);
        steps.extend(run_all(&orders_of(&case), 2));
        steps.extend(owners([0, 1, 7, 9, 10, 1 << 32, u64::MAX]));
    }
    steps
}

/// The opens and closes that orders can hold.
fn orders_of(calls: &[script::Step]) -> Vec<OrderBytes> {
    let order = |call: &script::Step| match *call {
        script::Step::Open(line, period) => pack(0, line, period).ok(),
        script::Step::Close(line) => pack(1, line, 0).ok(),
        _ => None,
    };
    calls.iter().filter_map(order).collect()
}

/// The plans of `border_joins.rs` (document 02, Ask 8). The first close is made in the list that
/// opens the lines, each other in a list of its own.
fn closes_that_join() -> Vec<Step> {
    let plans = border_joins::plans().into_iter();
    plans.flat_map(|it| closed(&it)).collect()
}

/// After each close the numbers of every line are asked.
fn closed(plan: &ClosedPlan) -> Vec<Step> {
    let mut held = Held::empty();
    let mut steps = vec![Step::Begin];
    for &call in &plan.calls {
        script::change(&mut held, call);
        if let script::Step::Write(place, number) = call {
            steps.push(Step::Write { place, number });
        }
    }
    let mut orders = orders_of(&plan.calls);
    for &line in &plan.closes {
        script::change(&mut held, script::Step::Close(line));
        orders.push(close(line));
        steps.extend(run_all(&orders, 1));
        orders.clear();
        let lines = plan.lines().into_iter();
        steps.extend(lines.flat_map(|line| numbers_of(line, &held.plan)));
    }
    steps
}

/// Those of the rows that a line has in the plan, and of the row after them.
fn numbers_of(line: u64, plan: &Plan) -> Vec<Step> {
    let path = show(plan, line).map(|shown| shown.path);
    let used = path.map_or(0, |path| path.iter().filter(|row| row.weight > 0).count());
    let first = line * LINE_NUMBERS as u64;
    let count = 2 * (used + 1).min(ROWS) as u64;
    let places = first..first + count;
    places.map(|place| Step::Number { place }).collect()
}

/// 21,845 orders: refused with one byte too little, run with a few bytes more, and refused
/// with one order more.
fn longest_list() -> Vec<Step> {
    let list = long_list::generate(1, MOST_ORDERS, Shape::Full);
    let length = LONGEST_LIST;
    let room = answers_length(length) - 1;
    let mut steps = vec![Step::Begin, Step::Give(list), Step::List { length, room }];
    steps.extend(owners(0..4));
    let room = answers_length(length) + 3;
    steps.push(Step::List { length, room });
    let length = LONGEST_LIST + ORDER_BYTES;
    steps.push(Step::List { length, room });
    steps.extend(owners(0..16));
    steps.extend(owners((1 << 32) - 8..(1 << 32) + 8));
    steps.extend(owners(u64::MAX - 15..=u64::MAX));
    steps
}

#[cfg(test)]
mod tests {
    use super::*;
    use crate::list_script::{print_answers, write};

    fn printed(steps: &[Step]) -> String {
        let (mut script, mut text) = (Vec::new(), Vec::new());
        write(steps, &mut script).unwrap();
        print_answers(&script, &mut text).unwrap();
        String::from_utf8(text).unwrap()
    }

    /// (Marked cases, I), the fifth answer as in Ask 8, and the owners after it: 6@0 and 3@1 are
    /// open, and 2^32 and 2^64 leave 1 when divided by 3.
    #[test]
    fn case_i_prints_its_answers() {
        let text = printed(&named_cases());
        let expected = "plan\nlist 18 14 0\n0000 0001 5000 0000 0001 4000\nbeyond 2 ee ee\n\
            owner 0 1\nowner 1 3\nowner 7 3\nowner 9 idle 1\nowner 10 3\n\
            owner 4294967296 3\nowner 18446744073709551615 idle 1\n";
        assert!(text.contains(expected), "{text}");
    }

    /// Case C and `earliest_start`, and the owners after that: 4@0, 8@1, 8@2, 8@3, 8@5 and 8@6.
    #[test]
    fn earliest_starts_are_answered() {
        let text = printed(&named_cases());
        let case_c = "plan\nlist 9 8 0\n0000 0001 0002\nbeyond 2 ee ee\n";
        assert!(text.contains(case_c), "{text}");
        let earliest_start = "plan\nlist 30 22 0\n\
            0000 0001 0002 0003 0005 0000 0000 0001 0003 0006\nbeyond 2 ee ee\n\
            owner 0 0\nowner 1 5\nowner 7 idle 1\nowner 9 5\nowner 10 2\n\
            owner 4294967296 0\nowner 18446744073709551615 idle 1\n";
        assert!(text.ends_with(earliest_start), "{text}");
    }

    /// `number PLACE NUMBER` of every number that is asked of a line.
    fn numbers(line: u64, numbers: &[u16]) -> String {
        let places = (line * LINE_NUMBERS as u64..).zip(numbers);
        let lines = places.map(|(place, number)| format!("number {place} {number}\n"));
        lines.collect()
    }

    /// As found by hand in `border_joins.rs`: of the numbers of a line that is closed the first two
    /// are asked, of the others those of one row more than there are.
    #[test]
    fn records_after_closes_that_join() {
        let text = printed(&closes_that_join());
        let no_node_goes = [
            "plan\nlist 9 7 0\n0000 0001 0000\nbeyond 1 ee\n".to_string(),
            numbers(1, &[6, 0, 0, 0]),
            numbers(2, &[0, 0]),
        ];
        assert!(text.contains(&no_node_goes.concat()), "{text}");
        let deepest_first = [
            "plan\nlist 15 11 0\n0000 0001 0002 0004 0000\nbeyond 1 ee\n".to_string(),
            numbers(1, &[0, 0]),
            numbers(2, &[3, 1, 2, 0, 2, 0, 0, 0]),
            numbers(3, &[3, 2, 4, 0, 0, 0]),
            numbers(4, &[3, 1, 2, 1, 0, 0]),
            "list 3 3 0\n0000\nbeyond 1 ee\n".to_string(),
            numbers(1, &[0, 0]),
            numbers(2, &[12, 1, 0, 0]),
            numbers(3, &[12, 2, 0, 0]),
            numbers(4, &[0, 0]),
        ];
        assert!(text.contains(&deepest_first.concat()), "{text}");
        let ten_times = [
            "list 3 3 0\n0000\nbeyond 1 ee\n".to_string(),
            numbers(1, &[2_048, 2_047, 0, 0]),
            numbers(2, &[0, 0]),
        ];
        assert!(text.ends_with(&ten_times.concat()), "{text}");
    }

    /// 7 comes before 8, and a refused list changes neither the plan nor a lent byte.
    #[test]
    fn bad_lengths_and_rooms_are_refused() {
        let text = printed(&bad_lengths());
        let lines: Vec<&str> = text.lines().collect();
        let (results, owners) = lines[4..].split_at(2 * 40);
        for result in results.chunks(2) {
            let words: Vec<&str> = result[0].split(' ').collect();
            assert_eq!((words.len(), words[3]), (4, "7"), "{result:?}");
            let all = format!("beyond {}", words[2]);
            assert!(result[1].starts_with(&all), "{result:?}");
        }
        assert_eq!(owners[..2], ["owner 0 1", "owner 1 2"]);
        let text = printed(&rooms());
        assert!(text.contains("list 15 9 8\nbeyond 9 ee ee ee ee ee ee\nowner 0 idle 0\n"));
        assert!(text.contains("list 15 10 0\n0000 0001 0002 5000 0003\nbeyond 0\n"));
        assert!(text.contains("list 15 11 0\n0000 0001 0002 5000 0003\nbeyond 1 ee\n"));
    }

    #[test]
    fn lists_carry_on_from_the_plan_that_was_left() {
        let text = printed(&lists_in_turn());
        let parts: Vec<&str> = text.split("list ").skip(1).collect();
        assert!(parts[0].starts_with("9 7 0\n0000 0001 0002\nbeyond 1 ee\nowner 0 1\nowner 1 2\n"));
        assert!(parts[1].starts_with("3 3 0\n0000\nbeyond 1 ee\nowner 0 1\nowner 1 idle 1\n"));
        assert!(parts[2].starts_with("12 9 0\n3000 4000 5000 6000\nbeyond 1 ee\nowner 0 1\n"));
        assert!(parts[3].starts_with("6 5 0\n0000 0000\nbeyond 1 ee\nowner 0 idle 0\n"));
        assert_eq!(parts[4], parts[0]);
    }

    #[test]
    fn numbers_stay_until_an_order_is_carried_out() {
        let text = printed(&damaged_records());
        let parts: Vec<&str> = text.split("plan\n").skip(1).collect();
        assert_eq!(parts.len(), 8);
        let refused = "number 0 4096\nlist 18 15 0\n4000 2000 6000 6000 6000 6000\n\
            beyond 3 ee ee ee\nnumber 0 4096\nowner 0 idle 0\n\
            list 18 11 8\nbeyond 11 ee ee ee ee ee ee\nnumber 0 4096\n\
            list 17 12 7\nbeyond 12 ee ee ee ee ee ee\nnumber 0 4096\n\
            list 9 6 0\n4000 0000 0001\nbeyond 0\nnumber 0 0\n\
            owner 0 1\nowner 1 2\nowner 2 idle 3\n";
        assert!(parts[0].contains(refused), "{}", parts[0]);
        let emptied = "number 5 9999\nnumber 700 4096\nlist 9 7 0\n0000 0000 2000\n\
            beyond 1 ee\nnumber 5 0\nnumber 700 0\nowner 0 idle 0\n";
        assert!(parts[7].contains(emptied), "{}", parts[7]);
        let text = printed(&empty_lists());
        assert!(text.ends_with(
            "number 198 65535\nowner 0 idle 0\nowner 1 idle 0\nowner 2 idle 0\nowner 3 idle 0\n"
        ));
    }

    #[test]
    fn refusals_and_malformed_orders_are_answered() {
        let text = printed(&refusals());
        let expected = "00ff 01ff 03ff\nbeyond 2 ee ee\n\
            list 24 18 0\n2000 3000 4000 5000 6000 0000 4000 03ff\nbeyond 2 ee ee\n";
        assert!(text.contains(expected), "{text}");
        let text = printed(&malformed_orders());
        assert_eq!(text.matches("6000").count(), 2 * (4 + 15 + 5));
        assert!(
            text.contains(" 0000 0000 4000\nbeyond 4 ee ee ee ee\n"),
            "{text}"
        );
    }

    #[test]
    fn longest_list_is_run_and_one_order_more_is_refused() {
        let text = printed(&longest_list());
        assert!(text.starts_with("plan\nlist 65535 43689 8\nbeyond 43689 ee"));
        assert!(text.contains("\nowner 3 idle 0\nlist 65535 43693 0\n"));
        assert!(text.contains("\nbeyond 3 ee ee ee\nlist 65538 43693 7\nbeyond 43693 ee"));
        let answers = text.lines().filter(|line| line.len() == 79);
        assert_eq!(answers.count(), MOST_ORDERS / 16);
        assert!(text.contains("\nowner 18446744073709551615 "));
    }
}
