//! Scripts of calls, and what each call answers: the input and the expected output of the
//! test program that puts the public calls to one plan after another.
//!
//! A script is a sequence of steps of 33 bytes: a kind, then four numbers of 64 bits, most
//! significant byte first, those that are not named here 0. Kinds: 0 opens (line, period),
//! 1 closes (line), 2 begins again with the empty plan, 3 writes a number into the record
//! (place, number), 4 asks for an owner (round), 5 shows (line), 6 asks for turns (line,
//! first, rounds), 7 walks (next, owned), 8 makes a trial (line, period), 9 asks for a sheet
//! (first, rounds), 10 asks for a reason (period, level, offset, class).
//!
//! Each step prints one line, a walk two:
//! `open LINE PERIOD RESULT START`, with `-` for the start of a refused open;
//! `close LINE RESULT`; `plan`; `write PLACE NUMBER`; `owner ROUND LINE`, or
//! `owner ROUND idle REST`; `show LINE 0 PERIOD START` and the 11 rows, each weight and edge,
//! or `show LINE RESULT`; `turns LINE FIRST ROUNDS RESULT TURNS`, with `-` where refused;
//! `walk NEXT OWNED ANSWER NEXT OWNED`, the answer a line, `idle REST` or `refused 9`, from
//! the walker by value, then `lent` and the same from the walker on a lent place;
//! `trial LINE PERIOD 0 START ADDED SPLIT`, with the number of nodes added and `split` or
//! `whole`, or `trial LINE PERIOD RESULT - - -`;
//! `sheet FIRST ROUNDS`, the turns of the lines 0 to 63, and the idle rounds;
//! `reason PERIOD LEVEL OFFSET CLASS 0` and then `line LINE`, or `step` where the step does not
//! divide the period, or `reason PERIOD LEVEL OFFSET CLASS RESULT -`.
//!
//! A number that is written may leave the record a tree, the same or another, or make it
//! none, which counts as the empty plan: `record.rs` says which.

use crate::ask::{owner, show, turns, Owner, Shown};
use crate::border_joins::border_joins;
use crate::border_owners::border_owners;
use crate::border_reasons::border_reasons;
use crate::border_rests::border_rests;
use crate::border_sheets::border_sheets;
use crate::border_trials::border_trials;
use crate::border_turns::border_turns;
use crate::drawn_reasons::with_reasons;
use crate::drawn_sheets::with_sheets;
use crate::drawn_shows::with_shows;
use crate::drawn_trials::with_trials;
use crate::head::{self, HEAD_BYTES};
use crate::lists;
use crate::orders::{read, Order, ORDER_BYTES};
use crate::random::Random;
use crate::reason::{reason, Asked, Reason};
use crate::record::{drawn_write, Held, RECORD_NUMBERS};
use crate::refusal::Refusal;
use crate::shapes::Shape;
use crate::sheet::{sheet, Sheet};
use crate::tree::{Plan, Start};
use crate::trial::{trial, Trial};
use crate::walker::{walk, walk_lent, Answer, Place};
use std::io::{self, Write};

#[derive(Clone, Copy, Debug, PartialEq, Eq)]
pub enum Step {
    Open(u64, u64),
    Close(u64),
    Begin,
    Write(u64, u16),
    Owner(u64),
    Show(u64),
    Turns { line: u64, first: u64, rounds: u32 },
    Walk(Place),
    Trial(u64, u64),
    Sheet { first: u64, rounds: u16 },
    Reason(Asked),
}

impl Step {
    pub fn bytes(self) -> [u8; HEAD_BYTES] {
        let (kind, numbers) = match self {
            Step::Open(line, period) => (0, [line, period, 0, 0]),
            Step::Close(line) => (1, [line, 0, 0, 0]),
            Step::Begin => (2, [0, 0, 0, 0]),
            Step::Write(place, number) => (3, [place, number.into(), 0, 0]),
            Step::Owner(round) => (4, [round, 0, 0, 0]),
            Step::Show(line) => (5, [line, 0, 0, 0]),
            Step::Turns {
                line,
                first,
                rounds,
            } => (6, [line, first, rounds.into(), 0]),
            Step::Walk(Place { next, owned }) => (7, [next, owned, 0, 0]),
            Step::Trial(line, period) => (8, [line, period, 0, 0]),
            Step::Sheet { first, rounds } => (9, [first, rounds.into(), 0, 0]),
            Step::Reason(asked) => (10, [asked.period, asked.level, asked.offset, asked.class]),
        };
        head::write(kind, numbers)
    }

    pub fn of(bytes: [u8; HEAD_BYTES]) -> Option<Step> {
        let (kind, [first, second, third, fourth]) = head::read(&bytes);
        match kind {
            0 => Some(Step::Open(first, second)),
            1 => Some(Step::Close(first)),
            2 => Some(Step::Begin),
            3 => Some(Step::Write(first, u16::try_from(second).ok()?)),
            4 => Some(Step::Owner(first)),
            5 => Some(Step::Show(first)),
            6 => Some(Step::Turns {
                line: first,
                first: second,
                rounds: u32::try_from(third).ok()?,
            }),
            7 => Some(Step::Walk(Place {
                next: first,
                owned: second,
            })),
            8 => Some(Step::Trial(first, second)),
            9 => Some(Step::Sheet {
                first,
                rounds: u16::try_from(second).ok()?,
            }),
            10 => Some(Step::Reason(Asked {
                period: first,
                level: second,
                offset: third,
                class: fourth,
            })),
            _ => None,
        }
    }
}

/// The named cases, then walks at the borders of a place's numbers, turns at those of a first
/// round, owners and rests at those of a round, trials at those of a line and a period, sheets at
/// those of a first round and a number of rounds, reasons at those of a period, a level, an offset
/// and a class, and closes that join nodes or just do not.
pub fn cases() -> Vec<Step> {
    let named = named_cases().into_iter();
    let begun = named.flat_map(|case| [vec![Step::Begin], case].concat());
    let borders = [
        border_walks(),
        border_turns(),
        border_owners(),
        border_rests(),
        border_trials(),
        border_sheets(),
        border_reasons(),
        border_joins(),
    ];
    begun.chain(borders.concat()).collect()
}

/// Opens the periods as lines 1, 2, 3 ..
pub(crate) fn opens_in_turn(periods: &[u64]) -> Vec<Step> {
    (1..)
        .zip(periods)
        .map(|(line, &period)| Step::Open(line, period))
        .collect()
}

/// A plan with these lines open: the steps that open them on an empty plan, and what they leave.
pub(crate) fn opened_in_turn(periods: &[u64]) -> (Vec<Step>, Held) {
    let mut held = Held::empty();
    let steps = [vec![Step::Begin], opens_in_turn(periods)].concat();
    steps.iter().for_each(|&step| change(&mut held, step));
    (steps, held)
}

/// The marked cases, and after them `earliest_start`.
pub(crate) fn named_cases() -> Vec<Vec<Step>> {
    [marked_cases(), vec![earliest_start()]].concat()
}

/// (Marked cases, A to I), the calls of each that change a plan; the lines are numbered
/// from 1 where the case names none.
fn marked_cases() -> Vec<Vec<Step>> {
    let powers: Vec<u64> = (1..=11).map(|power| 1 << power).collect();
    vec![
        opens_in_turn(&[4, 6, 8, 2, 12]),
        opens_in_turn(&[4, 4, 2]),
        opens_in_turn(&[6, 12, 12]),
        opens_in_turn(&[1, 1, 4_095]),
        opens_in_turn(&[2, 3]),
        opens_in_turn(&powers),
        opens_in_turn(&[4_095, 4_096, 0]),
        vec![Step::Open(63, 1), Step::Open(64, 1)],
        [
            opens_in_turn(&[6, 2, 3]),
            vec![Step::Close(2), Step::Open(3, 3), Step::Close(2)],
        ]
        .concat(),
    ]
}

/// A case of our own (Ask 6, 2): starts offered by deeper nodes alone, by a deeper node before
/// the root, by the root before a deeper node, and by a deeper node alone.
fn earliest_start() -> Vec<Step> {
    use Step::{Close, Open};
    vec![
        Open(0, 4),
        Open(1, 8),
        Open(2, 8),
        Open(3, 8),
        Open(4, 8),
        Close(1),
        Close(3),
        Open(5, 8),
        Open(6, 8),
        Open(7, 8),
    ]
}

/// Walks with either number at each border, in a plan where every round is owned and in one
/// where every second is, and then on the damaged record of each.
fn border_walks() -> Vec<Step> {
    let borders = [0, 1, (1 << 32) - 1, 1 << 32, u64::MAX - 1, u64::MAX];
    let walks = borders.map(|next| borders.map(|owned| Step::Walk(Place { next, owned })));
    let walks = walks.concat();
    [(1, 0, 4_096), (2, RECORD_NUMBERS as u64 - 1, 65_535)]
        .into_iter()
        .flat_map(|(period, place, number)| {
            let begins = vec![Step::Begin, Step::Open(7, period)];
            let damages = vec![Step::Write(place, number)];
            [begins, walks.clone(), damages, walks.clone()].concat()
        })
        .collect()
}

/// Calls on generated lists' plans, and trials, sheets, reasons and shows among them.
pub fn generated(seed: u64, count: u64, shape: Shape) -> Vec<Step> {
    let calls = generated_calls(seed, count, shape);
    let with_sheets = with_sheets(&with_trials(&calls, seed), seed);
    with_shows(&with_reasons(&with_sheets, seed))
}

/// Opens and closes of generated lists (`lists`), every eighth with a line or a period that
/// no order can hold. Each list's plan is then asked and, three times over, has a number
/// written over, is asked again, and is given calls that change it and one that is refused.
pub(crate) fn generated_calls(seed: u64, count: u64, shape: Shape) -> Vec<Step> {
    let mut random = Random::new(seed);
    let mut steps = Vec::new();
    for _ in 0..count {
        let mut held = Held::empty();
        steps.push(Step::Begin);
        for order in lists::generate(shape, &mut random).chunks_exact(ORDER_BYTES) {
            let step = step_of([order[0], order[1], order[2]], &mut random);
            if let Some(step) = step {
                change(&mut held, step);
                steps.push(step);
            }
        }
        steps.extend(questions(18, &held, &mut random));
        for _ in 0..3 {
            let write = written(drawn_write(&held.record, &mut random));
            let changes = [
                write,
                drawn_close(write, &held, &mut random),
                Step::Open(random.below(64), 0),
                Step::Open(random.below(64), 1 + random.below(4_095)),
            ];
            for step in changes {
                change(&mut held, step);
                steps.push(step);
                steps.extend(questions(1, &held, &mut random));
            }
        }
    }
    steps
}

/// Half the time of a line that has rows in the record that the write leaves, if one has, else of
/// any line.
fn drawn_close(write: Step, held: &Held, random: &mut Random) -> Step {
    let mut held = held.clone();
    change(&mut held, write);
    let lines = held.record.lines_with_rows();
    if lines.is_empty() || random.below(2) == 0 {
        return Step::Close(random.below(64));
    }
    Step::Close(random.pick(&lines))
}

/// Owner, show, turns and walks, at rounds near 0, 2^32 and 2^64.
fn questions(count: u64, held: &Held, random: &mut Random) -> Vec<Step> {
    let mut steps = Vec::new();
    for _ in 0..count {
        steps.push(Step::Owner(near(random)));
        steps.push(Step::Owner(random.draw()));
        steps.push(Step::Show(random.below(66)));
        steps.push(drawn_turns(random));
        steps.extend(turns_in_record(held, random));
        let next = near(random);
        let owned = near(random);
        steps.push(Step::Walk(Place { next, owned }));
    }
    steps
}

/// A round near 0, 2^32 or 2^64.
fn near(random: &mut Random) -> u64 {
    let center = random.pick(&[0, 1 << 32, u64::MAX]);
    let away = random.below(6);
    let (above, below) = (center.checked_add(away), center.checked_sub(away));
    let either = [above.or(below), below.or(above)];
    random.pick(&either).unwrap_or(center)
}

/// Turns of any line, over any number of rounds.
fn drawn_turns(random: &mut Random) -> Step {
    let firsts = [near(random), random.draw()];
    let counts = [near(random), random.below(10_000), random.draw()];
    Step::Turns {
        line: random.below(66),
        first: random.pick(&firsts),
        rounds: random.pick(&counts) as u32,
    }
}

/// Turns of a line that has rows in the record, some over about its period, some from a round
/// that it owns, or from the next one. It is not open where the record is no tree.
fn turns_in_record(held: &Held, random: &mut Random) -> Option<Step> {
    let lines = held.record.lines_with_rows();
    if lines.is_empty() {
        return None;
    }
    let line = random.pick(&lines);
    let period = show(&held.plan, line).map_or(1, |shown| shown.period.0.into());
    let owned = lists::round_that_fits(&held.plan, line, random.draw()).unwrap_or(0);
    let firsts = [near(random), near(random), random.draw(), owned, owned + 1];
    let any = random.draw() as u32;
    let counts = [0, 1, period - 1, period, period + 1, u32::MAX, any];
    Some(Step::Turns {
        line,
        first: random.pick(&firsts),
        rounds: random.pick(&counts),
    })
}

/// The opens and closes of a list. Of a malformed order there is none.
pub(crate) fn calls_of(list: &[u8]) -> Vec<Step> {
    let orders = list.chunks_exact(ORDER_BYTES);
    orders
        .filter_map(|order| call_of([order[0], order[1], order[2]]))
        .collect()
}

fn call_of(order: [u8; ORDER_BYTES]) -> Option<Step> {
    Some(match read(order).ok()? {
        Order::Open { line, period } => Step::Open(line.into(), period.into()),
        Order::Close { line } => Step::Close(line.into()),
    })
}

fn step_of(order: [u8; ORDER_BYTES], random: &mut Random) -> Option<Step> {
    let drawn = call_of(order)?;
    Some(match (random.below(8), drawn) {
        (0, Step::Open(line, _)) => Step::Open(line, 4_096 + random.below(61_440)),
        (1, Step::Open(_, period)) => Step::Open(64 + random.draw() / 2, period),
        (1, Step::Close(_)) => Step::Close(64 + random.draw() / 2),
        _ => drawn,
    })
}

/// Writes the steps as a script.
pub fn write(steps: &[Step], out: &mut impl Write) -> io::Result<()> {
    steps
        .iter()
        .try_for_each(|step| out.write_all(&step.bytes()))
}

/// Carries a script out, step by step. A step of an unknown kind, and bytes after the last
/// whole step, end it.
pub fn print_answers(script: &[u8], out: &mut impl Write) -> io::Result<()> {
    let mut held = Held::empty();
    for bytes in script.chunks_exact(HEAD_BYTES) {
        let Some(step) = bytes.try_into().ok().and_then(Step::of) else {
            break;
        };
        print_step(&mut held, step, out)?;
    }
    Ok(())
}

/// A step that changes the plan, without its answer.
pub(crate) fn change(held: &mut Held, step: Step) {
    match step {
        Step::Begin => *held = Held::empty(),
        Step::Open(line, period) => drop(held.open(line, period)),
        Step::Close(line) => drop(held.close(line)),
        Step::Write(place, number) => held.write(place, number),
        _ => {}
    }
}

fn written((place, number): (u64, u16)) -> Step {
    Step::Write(place, number)
}

pub(crate) fn print_step(held: &mut Held, step: Step, out: &mut impl Write) -> io::Result<()> {
    match step {
        Step::Open(line, period) => {
            let answer = opened(held.open(line, period));
            writeln!(out, "open {line} {period} {answer}")
        }
        Step::Close(line) => {
            let result = number(held.close(line));
            writeln!(out, "close {line} {result}")
        }
        Step::Begin => {
            *held = Held::empty();
            writeln!(out, "plan")
        }
        Step::Write(place, number) => {
            held.write(place, number);
            writeln!(out, "write {place} {number}")
        }
        question => print_question(&held.plan, question, out),
    }
}

/// A step that asks the plan; the others print nothing.
fn print_question(plan: &Plan, step: Step, out: &mut impl Write) -> io::Result<()> {
    match step {
        Step::Owner(round) => writeln!(out, "owner {round} {}", owned(owner(plan, round))),
        Step::Show(line) => writeln!(out, "show {line} {}", shown(show(plan, line))),
        Step::Turns {
            line,
            first,
            rounds,
        } => {
            let answer = turned(turns(plan, line, first, rounds));
            writeln!(out, "turns {line} {first} {rounds} {answer}")
        }
        Step::Walk(place) => print_walks(plan, place, out),
        Step::Trial(line, period) => {
            let answer = tried(trial(plan, line, period));
            writeln!(out, "trial {line} {period} {answer}")
        }
        Step::Sheet { first, rounds } => {
            let columns = listed(&sheet(plan, first, rounds));
            writeln!(out, "sheet {first} {rounds} {columns}")
        }
        Step::Reason(asked) => print_reason(plan, asked, out),
        _ => Ok(()),
    }
}

/// A line, or `idle REST`.
pub(crate) fn owned(answer: Owner) -> String {
    match answer {
        Owner::Line(line) => line.to_string(),
        Owner::Idle { rest } => format!("idle {rest}"),
    }
}

fn shown(answer: Result<Shown, Refusal>) -> String {
    match answer {
        Ok(shown) => {
            let rows = shown
                .path
                .map(|row| format!(" {} {}", row.weight, row.edge));
            format!("0 {} {}{}", shown.period.0, shown.start.0, rows.concat())
        }
        Err(refusal) => refusal.number().to_string(),
    }
}

fn turned(answer: Result<u64, Refusal>) -> String {
    match answer {
        Ok(turns) => format!("0 {turns}"),
        Err(refusal) => format!("{} -", refusal.number()),
    }
}

fn print_walks(plan: &Plan, place: Place, out: &mut impl Write) -> io::Result<()> {
    let (answer, after) = walk(plan, place);
    writeln!(out, "walk {}", walked(place, answer, after))?;
    let mut lent = place;
    let answer = walk_lent(plan, &mut lent);
    writeln!(out, "lent {}", walked(place, answer, lent))
}

fn walked(before: Place, answer: Answer, after: Place) -> String {
    let answer = match answer {
        Ok(answer) => owned(answer),
        Err(refusal) => format!("refused {}", refusal.number()),
    };
    format!(
        "{} {} {answer} {} {}",
        before.next, before.owned, after.next, after.owned
    )
}

fn tried(answer: Result<Trial, Refusal>) -> String {
    match answer {
        Ok(Trial {
            start,
            added,
            split,
        }) => {
            let split = if split { "split" } else { "whole" };
            format!("0 {} {added} {split}", start.0)
        }
        Err(refusal) => format!("{} - - -", refusal.number()),
    }
}

fn listed(sheet: &Sheet) -> String {
    let turns = sheet.turns.map(|turns| format!("{turns} "));
    format!("{}{}", turns.concat(), sheet.idle)
}

fn print_reason(plan: &Plan, asked: Asked, out: &mut impl Write) -> io::Result<()> {
    let Asked {
        period,
        level,
        offset,
        class,
    } = asked;
    let answer = explained(reason(plan, asked));
    writeln!(out, "reason {period} {level} {offset} {class} {answer}")
}

fn explained(answer: Result<Reason, Refusal>) -> String {
    match answer {
        Ok(Reason::Step) => "0 step".to_string(),
        Ok(Reason::Line(line)) => format!("0 line {line}"),
        Err(refusal) => format!("{} -", refusal.number()),
    }
}

fn opened(answer: Result<Start, Refusal>) -> String {
    match answer {
        Ok(start) => format!("0 {}", start.0),
        Err(refusal) => format!("{} -", refusal.number()),
    }
}

fn number(answer: Result<(), Refusal>) -> u8 {
    answer.map_or_else(Refusal::number, |()| 0)
}

#[cfg(test)]
pub(crate) mod tests {
    use super::*;
    use crate::naive::{expected_owner, expected_reason, expected_sheet, times};

    /// Of each write whether it leaves another tree than there was; none where it leaves none.
    pub(crate) fn trees_left_by_writes(steps: &[Step]) -> Vec<Option<bool>> {
        let mut held = Held::empty();
        let mut left = Vec::new();
        for &step in steps {
            let before = held.plan.clone();
            change(&mut held, step);
            if matches!(step, Step::Write(..)) {
                left.push(held.record.tree().map(|plan| plan != before));
            }
        }
        left
    }

    #[test]
    fn steps_are_read_back_from_their_bytes() {
        let next = u64::MAX;
        for step in [
            Step::Open(64, 4_096),
            Step::Close(u64::MAX),
            Step::Begin,
            Step::Write(1_407, 65_535),
            Step::Owner(u64::MAX),
            Step::Show(64),
            Step::Turns {
                line: 3,
                first: next,
                rounds: u32::MAX,
            },
            Step::Walk(Place { next, owned: 5 }),
            Step::Trial(64, u64::MAX),
            Step::Sheet {
                first: next,
                rounds: 65_535,
            },
            Step::Reason(Asked {
                period: 1 << 32 | 12,
                level: 256,
                offset: next - 1,
                class: next,
            }),
        ] {
            assert_eq!(Step::of(step.bytes()), Some(step));
        }
        for bytes in [
            [11; HEAD_BYTES],
            head::write(3, [0, 1 << 16, 0, 0]),
            head::write(6, [3, 0, 1 << 32, 0]),
            head::write(9, [0, 1 << 16, 0, 0]),
        ] {
            assert_eq!(Step::of(bytes), None);
        }
    }

    pub(crate) fn answers(steps: &[Step]) -> String {
        let mut script = Vec::new();
        write(steps, &mut script).unwrap();
        let mut text = Vec::new();
        print_answers(&script, &mut text).unwrap();
        String::from_utf8(text).unwrap()
    }

    #[test]
    fn marked_cases_print_their_answers() {
        let text = answers(&cases());
        let marked: usize = marked_cases().iter().map(|case| case.len() + 1).sum();
        let lines: Vec<&str> = text.lines().take(marked).collect();
        assert_eq!(lines[5], "open 5 12 0 3");
        let case_c = ["open 1 6 0 0", "open 2 12 0 1", "open 3 12 0 2"];
        assert_eq!(lines[11..14], case_c);
        assert!(lines.contains(&"open 11 2048 0 1023"));
        assert!(lines.contains(&"open 64 1 1 -"));
        assert_eq!(lines.last(), Some(&"close 2 4"));
    }

    /// Right after the marked cases.
    #[test]
    fn earliest_start_prints_its_answers() {
        let text = answers(&cases());
        let expected = "close 2 4\nplan\n\
            open 0 4 0 0\nopen 1 8 0 1\nopen 2 8 0 2\nopen 3 8 0 3\nopen 4 8 0 5\n\
            close 1 0\nclose 3 0\nopen 5 8 0 1\nopen 6 8 0 3\nopen 7 8 0 6\nplan\n";
        assert!(text.contains(expected));
    }

    #[test]
    fn border_walks_print_both_forms() {
        let text = answers(&border_walks());
        for form in ["walk", "lent"] {
            for walk in [
                // every round is owned
                "0 0 7 1 1",
                "4294967295 4294967295 7 4294967296 4294967296",
                "18446744073709551614 18446744073709551614 7 18446744073709551615 18446744073709551615",
                // every second one is
                "1 4294967296 idle 1 2 4294967296",
                "4294967296 18446744073709551614 7 4294967297 18446744073709551615",
                // a damaged record
                "0 0 idle 0 1 0",
                "18446744073709551614 1 idle 0 18446744073709551615 1",
                "18446744073709551615 1 refused 9 18446744073709551615 1",
                "1 18446744073709551615 refused 9 1 18446744073709551615",
            ] {
                let line = format!("{form} {walk}");
                assert!(text.lines().any(|printed| printed == line), "{line}");
            }
        }
        let form = |word| text.lines().filter_map(move |line| line.strip_prefix(word));
        assert!(form("walk").eq(form("lent")));
        assert_eq!(form("lent").count(), 4 * 36);
    }

    #[test]
    fn generated_scripts_bring_every_answer() {
        let text: String = Shape::ALL
            .map(|shape| answers(&generated(1, 40, shape)))
            .concat();
        for answer in ["1 -", "2 -", "3 -", "5 -"] {
            assert!(text
                .lines()
                .any(|line| line.starts_with("open") && line.ends_with(answer)));
        }
        for start in [
            "show 64 1",
            "walk 18446744073709551615 ",
            "walk 4294967297 ",
            "lent 18446744073709551615 ",
            "lent 4294967297 ",
        ] {
            assert!(text.lines().any(|line| line.starts_with(start)), "{start}");
        }
        for answer in [" 1 -", " 4 -", " 0 0", " 0 1", " 0 2", " 0 4294967295"] {
            assert!(text
                .lines()
                .any(|line| line.starts_with("turns") && line.ends_with(answer)));
        }
        for part in [" refused 9 ", "owner 0 idle 0\n", "owner 0 idle 1\n"] {
            assert!(text.contains(part), "{part}");
        }
        for answer in [" 0", " 1", " 4"] {
            assert!(text
                .lines()
                .any(|line| line.starts_with("close") && line.ends_with(answer)));
        }
    }

    /// The generated part of the script that `.ci/run` composes.
    fn stored_lists() -> Vec<Step> {
        Shape::ALL.map(|shape| generated(1, 10, shape)).concat()
    }

    /// How many of the rounds fit the line (The lists of demand 3, 18): counted one by one
    /// where they are few, else those below the end without those below the first.
    fn fitting(shown: &Shown, first: u64, rounds: u32) -> u128 {
        let (period, start) = (u128::from(shown.period.0), u128::from(shown.start.0));
        let (first, end) = (first.into(), u128::from(first) + u128::from(rounds));
        if rounds < 5_000 {
            let fits = |round: &u128| round % period == start;
            return (first..end).filter(fits).count() as u128;
        }
        let below = |round: u128| (round + period - 1 - start) / period;
        below(end) - below(first)
    }

    /// After writes too, which no ledger has.
    #[test]
    fn turns_are_the_rounds_that_fit() {
        let mut held = Held::empty();
        for step in [cases(), stored_lists()].concat() {
            change(&mut held, step);
            let Step::Turns {
                line,
                first,
                rounds,
            } = step
            else {
                continue;
            };
            let fitting = show(&held.plan, line).map(|shown| fitting(&shown, first, rounds));
            let answer = turns(&held.plan, line, first, rounds).map(u128::from);
            assert_eq!(answer, fitting, "{line} {first} {rounds}");
        }
    }

    /// After writes too, which no ledger has.
    #[test]
    fn rests_are_the_rounds_up_to_one_that_fits() {
        let mut held = Held::empty();
        let mut idle = [0; 2];
        for step in [cases(), stored_lists()].concat() {
            change(&mut held, step);
            let (round, answer) = match step {
                Step::Owner(round) => (round, owner(&held.plan, round)),
                Step::Walk(place) => match walk(&held.plan, place) {
                    (Ok(answer), _) => (place.next, answer),
                    (Err(_), _) => continue,
                },
                _ => continue,
            };
            let expected = expected_owner(&times(&held.plan), round);
            assert_eq!(answer, expected, "{round}");
            if let Owner::Idle { rest } = answer {
                idle[usize::from(rest > 0)] += 1;
            }
        }
        assert!(idle.iter().all(|&count| count > 100), "{idle:?}");
    }

    /// Case A (`sheet.rs` counts its turns): the lines 1, 2, 3 and 5.
    #[test]
    fn a_sheet_prints_every_line() {
        let opens = opens_in_turn(&[4, 6, 8, 2, 12]);
        let asks = [24, 0].map(|rounds| Step::Sheet { first: 0, rounds });
        let text = answers(&[opens.as_slice(), &asks].concat());
        let lines: Vec<&str> = text.lines().skip(opens.len()).collect();
        let closed = " 0".repeat(58);
        assert_eq!(lines[0], format!("sheet 0 24 0 6 4 3 0 2{closed} 9"));
        assert_eq!(lines[1], format!("sheet 0 0{} 0", " 0".repeat(64)));
    }

    #[test]
    fn sheets_of_the_empty_plan_and_of_a_damaged_record() {
        let first = u64::MAX;
        let asks = Step::Sheet {
            first,
            rounds: 65_535,
        };
        let damages = [Step::Open(63, 7), Step::Write(0, 4_096)];
        let text = answers(&[[asks].as_slice(), &damages, &[asks]].concat());
        let sheets: Vec<&str> = text.lines().filter(|it| it.starts_with("sheet")).collect();
        let idle = format!("sheet {first} 65535{} 65535", " 0".repeat(64));
        assert_eq!(sheets, [&idle, &idle]);
    }

    /// After writes too, which no ledger has; the columns make N (Ask 5, 3).
    #[test]
    fn sheets_list_the_rounds_that_fit() {
        let mut held = Held::empty();
        let mut count = 0;
        for step in [cases(), stored_lists()].concat() {
            change(&mut held, step);
            let Step::Sheet { first, rounds } = step else {
                continue;
            };
            let made = sheet(&held.plan, first, rounds);
            let expected = expected_sheet(&times(&held.plan), first, rounds);
            assert_eq!(made, expected, "{first} {rounds}");
            let turns: u64 = made.turns.iter().sum();
            assert_eq!(turns + made.idle, rounds.into(), "{first} {rounds}");
            count += 1;
        }
        assert!(count > 400, "{count}");
    }

    /// `line`, `step`, and the refusals 2, 10, 11 and 12.
    fn outcome(answer: Result<Reason, Refusal>) -> usize {
        match answer {
            Ok(Reason::Line(_)) => 0,
            Ok(Reason::Step) => 1,
            Err(Refusal::Period) => 2,
            Err(Refusal::NoNode) => 3,
            Err(Refusal::NoClass) => 4,
            Err(_) => 5,
        }
    }

    /// How often each outcome of a reason is among the steps; each is as paths and starts say,
    /// after writes too.
    fn reasons_in(steps: &[Step]) -> [usize; 6] {
        let mut held = Held::empty();
        let mut counts = [0; 6];
        for &step in steps {
            change(&mut held, step);
            if let Step::Reason(asked) = step {
                let answer = reason(&held.plan, asked);
                assert_eq!(answer, expected_reason(&held.plan, asked), "{asked:?}");
                counts[outcome(answer)] += 1;
            }
        }
        counts
    }

    fn assert_often(steps: &[Step], least: [usize; 6]) {
        let counts = reasons_in(steps);
        let is_often = counts
            .iter()
            .zip(least)
            .all(|(&count, least)| count >= least);
        assert!(is_often, "{counts:?} {least:?}");
    }

    /// At the borders, in each shape of generated lists, and in all of these.
    #[test]
    fn reasons_have_every_outcome_often() {
        assert_often(&cases(), [150, 30, 300, 1_000, 250, 50]);
        for shape in Shape::ALL {
            assert_often(&generated(1, 10, shape), [250, 15, 15, 100, 100, 120]);
        }
        assert_often(&stored_lists(), [3_900, 1_000, 140, 400, 1_800, 2_000]);
    }

    /// After a number is written the record is no tree, the same tree, or another one.
    #[test]
    fn generated_writes_leave_every_kind_of_record() {
        let mut seen = [0; 3];
        let mut held = Held::empty();
        for step in stored_lists() {
            let before = held.plan.clone();
            change(&mut held, step);
            if matches!(step, Step::Write(..)) {
                let kind = match held.record.tree() {
                    None => 0,
                    Some(plan) if plan == before => 1,
                    Some(_) => 2,
                };
                seen[kind] += 1;
            }
        }
        assert!(seen.iter().all(|&count| count > 0), "{seen:?}");
    }
}
