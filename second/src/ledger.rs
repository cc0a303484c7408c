//! Generated lists measured against a ledger kept apart from the tree. Only for tests.

use crate::ask::{owner, owner_at, show, turns};
use crate::drawn_pairs::drawn_pair;
use crate::drawn_trees::drawn_tree;
use crate::image::{image, read};
use crate::lists::generate;
use crate::naive::{expected_owner, expected_sheet, expected_start, is_tree, Time};
use crate::naive_image::{reading, Reading};
use crate::orders::{run_order, ORDER_BYTES};
use crate::random::Random;
use crate::refusal::Refusal;
use crate::shapes::Shape;
use crate::sheet::sheet;
use crate::tree::{Plan, Start};
use crate::weave::weave;

/// Period and start of each line, None while closed (The lists of demand 3, 8).
struct Ledger {
    lines: [Option<(u16, u16)>; 64],
}

impl Ledger {
    fn new() -> Ledger {
        Ledger { lines: [None; 64] }
    }

    /// That of a list which begins at a plan that was read: the lines of the image, with the
    /// periods and starts that its own paths give (document 02, Ask 9, 6).
    fn of_image(image: &[u8]) -> Ledger {
        let Reading::Taken(paths) = reading(image) else {
            panic!("{image:x?} is no image");
        };
        let mut ledger = Ledger::new();
        for (line, rows) in paths {
            let (mut period, mut start) = (1, 0);
            for row in rows {
                start += row.edge * period;
                period *= row.weight;
            }
            ledger.lines[usize::from(line)] = Some((period, start));
        }
        ledger
    }

    /// That of a list which begins at a woven plan: the lines of both sides, with doubled periods,
    /// and with doubled starts or one more (document 02, Ask 10, 4 and 5).
    fn of_sides(sides: [&Ledger; 2]) -> Ledger {
        let mut ledger = Ledger::new();
        for (odd, side) in (0..).zip(sides) {
            for (line, period, start) in side.open() {
                let times = (2 * period, 2 * start + odd);
                let before = ledger.lines[usize::from(line)].replace(times);
                assert_eq!(before, None, "{line}");
            }
        }
        ledger
    }

    /// Takes nothing from the plan (The lists of demand 3, 7 and 9 to 11).
    fn enter(&mut self, order: [u8; 3], answer: Result<Option<Start>, Refusal>) {
        let line = usize::from(order[0] % 64);
        match answer {
            Ok(Some(start)) => self.lines[line] = Some((period_of(order), start.0)),
            Ok(None) => self.lines[line] = None,
            Err(_) => {}
        }
    }

    /// Open lines with period and start (The lists of demand 3, 12).
    fn open(&self) -> Vec<(u8, u16, u16)> {
        let lines = (0..64).zip(self.lines);
        lines
            .filter_map(|(line, it)| it.map(|(period, start)| (line, period, start)))
            .collect()
    }

    fn times(&self) -> Vec<Time> {
        let open = self.open().into_iter();
        open.map(|(line, period, start)| Time {
            line,
            period,
            start,
        })
        .collect()
    }

    /// What an order must answer on the plan before it (Refusals, sequence).
    fn expected(&self, plan: &Plan, order: [u8; 3]) -> Result<Option<Start>, Refusal> {
        let (kind, period) = (order[0] / 64, period_of(order));
        let open = self.lines[usize::from(order[0] % 64)].is_some();
        let some_open = self.lines.iter().any(Option::is_some);
        match (kind, order[2] % 16) {
            (0, 0) if period == 0 => Err(Refusal::Period),
            (0, 0) if open => Err(Refusal::LineOpen),
            (0, 0) if !some_open => Ok(Some(Start(0))),
            (0, 0) => match expected_start(plan, period) {
                Some(start) => Ok(Some(Start(start))),
                None => Err(Refusal::NoCandidate),
            },
            (1, 0) if period != 0 => Err(Refusal::Order),
            (1, 0) if open => Ok(None),
            (1, 0) => Err(Refusal::LineNotOpen),
            _ => Err(Refusal::Order),
        }
    }
}

fn period_of(order: [u8; 3]) -> u16 {
    u16::from(order[1]) * 16 + u16::from(order[2]) / 16
}

fn gcd(a: i32, b: i32) -> i32 {
    (1..=a).rev().find(|it| a % it == 0 && b % it == 0).unwrap()
}

/// Two lines fit one round, however far on, exactly when the greatest common divisor
/// of their periods divides the difference of their starts.
fn assert_no_round_fits_two(ledger: &Ledger) {
    let open = ledger.open();
    for (at, &(one, p, s)) in open.iter().enumerate() {
        for &(two, q, u) in &open[..at] {
            let apart = i32::from(s) - i32::from(u);
            assert_ne!(apart % gcd(p.into(), q.into()), 0, "{one} and {two}");
        }
    }
}

/// The tree has its form, and shows every line of the ledger and no other.
fn assert_plan_agrees(plan: &Plan, ledger: &Ledger) {
    assert!(is_tree(plan));
    for (line, entry) in (0..).zip(ledger.lines) {
        let shown = show(plan, line).map(|it| (it.period.0, it.start.0));
        assert_eq!(shown, entry.ok_or(Refusal::LineNotOpen), "{line}");
    }
}

/// The empty plan, and the ledger of a list that begins there.
fn empty() -> (Plan, Ledger) {
    (Plan::empty(), Ledger::new())
}

/// Reads the image of a plan onto another one.
fn read_back(plan: &Plan) -> (Plan, Ledger) {
    let image = image(plan);
    let mut plan = Plan::empty();
    plan.open(1, 1).unwrap();
    read(&mut plan, &image).unwrap();
    let ledger = Ledger::of_image(&image);
    assert_plan_agrees(&plan, &ledger);
    (plan, ledger)
}

/// Weaves the sides, whose ledgers are those of their images. None where that is refused.
fn woven(sides: &[Plan; 2]) -> Option<(Plan, Ledger)> {
    let [a, b] = sides;
    let plan = weave(a, b).ok()?;
    let [of_a, of_b] = [a, b].map(|side| Ledger::of_image(&image(side)));
    let ledger = Ledger::of_sides([&of_a, &of_b]);
    assert_plan_agrees(&plan, &ledger);
    Some((plan, ledger))
}

/// Runs one list order by order; every answer, every start and the form are checked
/// after each order, so that no split and no joining moves a start.
fn run_checked(list: &[u8], (mut plan, mut ledger): (Plan, Ledger)) -> (Plan, Ledger) {
    for order in list.chunks_exact(ORDER_BYTES) {
        let order = [order[0], order[1], order[2]];
        let (found, expected) = (plan.clone(), ledger.expected(&plan, order));
        let answer = run_order(&mut plan, order);
        assert_eq!(answer, expected, "{order:x?}");
        if answer.is_err() {
            assert_eq!(plan, found);
        }
        ledger.enter(order, answer);
        assert_plan_agrees(&plan, &ledger);
    }
    (plan, ledger)
}

/// The owner, without a rest, against the lines that the round fits (The lists of demand 3, 18
/// and 19).
fn assert_owners_agree(plan: &Plan, ledger: &Ledger, rounds: impl Iterator<Item = u64>) {
    let open = ledger.open();
    for round in rounds {
        let fits = |&(_, p, s): &(u8, u16, u16)| round % u64::from(p) == u64::from(s);
        let mut fitting = open.iter().filter(|it| fits(it)).map(|it| it.0);
        assert_eq!(owner_at(plan, round.into()), fitting.next(), "{round}");
        assert_eq!(fitting.next(), None, "{round}");
    }
}

/// The whole answer of owner (document 02, Ask 4), of fewer rounds, since each rest is searched.
fn assert_rests_agree(plan: &Plan, ledger: &Ledger, rounds: impl Iterator<Item = u64>) {
    let times = ledger.times();
    for round in rounds {
        assert_eq!(owner(plan, round), expected_owner(&times, round), "{round}");
    }
}

/// Turns against every round counted that fits the line, past 2^64 too (document 02, Ask 1).
fn assert_turns_agree(plan: &Plan, ledger: &Ledger, first: u64, rounds: u32) {
    for (line, entry) in (0..).zip(ledger.lines) {
        let fitting = entry.map(|(period, start)| {
            let fits = |round: &u128| round % u128::from(period) == u128::from(start);
            let counted = (first.into()..).take(rounds as usize).filter(fits);
            counted.count() as u64
        });
        let expected = fitting.ok_or(Refusal::LineNotOpen);
        assert_eq!(turns(plan, line, first, rounds), expected, "{line} {first}");
    }
}

/// The sheet against the rounds that fit each line and those that fit none (document 02, Ask 5).
fn assert_sheet_agrees(plan: &Plan, ledger: &Ledger, first: u64, rounds: u16) {
    let expected = expected_sheet(&ledger.times(), first, rounds);
    assert_eq!(sheet(plan, first, rounds), expected, "{first} {rounds}");
}

/// The plan that a list leaves, against all that its ledger says.
fn check_list(list: &[u8], first: (Plan, Ledger), random: &mut Random) {
    let (plan, ledger) = run_checked(list, first);
    assert_no_round_fits_two(&ledger);
    assert_owners_agree(&plan, &ledger, 0..5_000);
    assert_owners_agree(&plan, &ledger, (1 << 32) - 500..(1 << 32) + 500);
    assert_owners_agree(&plan, &ledger, u64::MAX - 500..=u64::MAX);
    let far: Vec<u64> = (0..500).map(|_| random.draw()).collect();
    for last in [20, 1 << 32, u64::MAX, far[0]] {
        let first = last.saturating_sub(random.below(20));
        let rounds = random.below(1_000) as u16;
        assert_turns_agree(&plan, &ledger, first, rounds.into());
        assert_sheet_agrees(&plan, &ledger, first, rounds);
    }
    assert_rests_agree(&plan, &ledger, 0..30);
    assert_rests_agree(&plan, &ledger, (1 << 32) - 15..(1 << 32) + 15);
    assert_rests_agree(&plan, &ledger, u64::MAX - 30..=u64::MAX);
    assert_rests_agree(&plan, &ledger, far[..30].iter().copied());
    assert_owners_agree(&plan, &ledger, far.into_iter());
}

fn check_lists(shape: Shape, seed: u64, count: usize) {
    let mut random = Random::new(seed);
    for _ in 0..count {
        let list = generate(shape, &mut random);
        check_list(&list, empty(), &mut random);
    }
}

#[test]
fn sparse_lists_agree_with_the_ledger() {
    check_lists(Shape::Sparse, 21, 200);
}

#[test]
fn full_lists_agree_with_the_ledger() {
    check_lists(Shape::Full, 22, 60);
}

#[test]
fn deep_lists_agree_with_the_ledger() {
    check_lists(Shape::Deep, 23, 120);
}

#[test]
fn prime_lists_agree_with_the_ledger() {
    check_lists(Shape::Primes, 24, 120);
}

#[test]
fn joining_lists_agree_with_the_ledger() {
    check_lists(Shape::Joining, 26, 120);
}

/// Lists that begin at a plan that was read: at what a list of the same shape left, and at a drawn
/// tree (document 02, Ask 9, 6).
#[test]
fn lists_from_plans_that_were_read_agree_with_the_ledger() {
    let mut random = Random::new(27);
    for shape in Shape::ALL.repeat(20) {
        let (left, _) = run_checked(&generate(shape, &mut random), empty());
        for first in [left, drawn_tree(&mut random)] {
            let list = generate(shape, &mut random);
            check_list(&list, read_back(&first), &mut random);
        }
    }
}

/// Lists that begin at a woven plan, whose sides are what lists of the same shape left, or drawn
/// trees, mostly with some lines closed (document 02, Ask 10, 5).
#[test]
fn lists_from_woven_plans_agree_with_the_ledger() {
    let mut random = Random::new(28);
    let mut count = 0;
    for shape in Shape::ALL.repeat(30) {
        let sides = drawn_pair(shape, &mut random);
        let Some(first) = woven(&sides) else {
            continue;
        };
        let list = generate(shape, &mut random);
        check_list(&list, first, &mut random);
        count += 1;
    }
    assert!(count > 80, "{count}");
}

/// Closes every line that is still open after a list (Closing a line, 2).
#[test]
fn emptied_plans_are_fresh() {
    let mut random = Random::new(25);
    for shape in Shape::ALL.repeat(50) {
        let begun = [empty(), read_back(&drawn_tree(&mut random))];
        let woven = woven(&drawn_pair(shape, &mut random));
        for first in begun.into_iter().chain(woven) {
            let (mut plan, ledger) = run_checked(&generate(shape, &mut random), first);
            for (line, _, start) in ledger.open() {
                assert_eq!(plan.close(line.into()), Ok(()));
                assert_eq!(owner_at(&plan, start.into()), None);
            }
            assert_eq!(plan, Plan::empty());
        }
    }
}
