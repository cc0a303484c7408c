//! Scripts of weaves, and what each call answers: the input and the expected output of the test
//! program that weaves one plan after another with others.
//!
//! A script is a sequence of steps. A step is a kind, then four numbers of 64 bits, most
//! significant byte first, those that are not named here 0: 33 bytes, as in `script.rs`. The kinds
//! 0 to 5 are those of `script.rs`: 0 opens (line, period), 1 closes (line), 2 begins again with
//! the empty plan, 3 writes a number into the record (place, number), 4 asks for an owner (round),
//! 5 shows (line). One kind more: 14 weaves (side). The 1,408 numbers of another record follow such
//! a step, each two bytes, the most significant first. Where the side is an even number, the plan
//! is side A and the other record is side B; where it is odd, the other is A and the plan B.
//!
//! The kinds 0 to 5 print what they print in `script.rs`. A weave prints four lines, one for each
//! form of the call: `weave SIDE RESULT` with two plans, `lent RESULT SAME` with two lent records,
//! `lent-a RESULT SAME` with A lent and B a plan, `lent-b RESULT SAME` with A a plan and B lent.
//! SAME is `equal` where the numbers answered are those of the first call, and `-` where refused.
//! Where it is not refused, the record of the woven plan follows: `rows LINE` and weight and edge
//! of each row in use, for each line that has one. It is the plan of the next step; a refused call
//! leaves the plan as it was.
//!
//! Whether the numbers of a record are a tree is decided in `record.rs`.

use crate::ask::paths;
use crate::drawn_pairs::{close, drawn_side, lines_in_both, too_long_lines};
use crate::head::{self, HEAD_BYTES};
use crate::lists;
use crate::random::Random;
use crate::record::{drawn_write, Held, Record, RECORD_BYTES};
use crate::refusal::Refusal;
use crate::script::{self, Step as Call};
use crate::shapes::Shape;
use crate::tree::Plan;
use std::io::{self, Write};

const LAST_CALL: u8 = 5;
const WEAVE: u8 = 14;

#[derive(Clone, Debug, PartialEq, Eq)]
pub enum Step {
    /// One of the kinds 0 to 5.
    Call(Call),
    Weave {
        side: u64,
        other: Record,
    },
}

impl Step {
    fn write(&self, out: &mut impl Write) -> io::Result<()> {
        match self {
            Step::Call(call) => out.write_all(&call.bytes()),
            Step::Weave { side, other } => {
                out.write_all(&head::write(WEAVE, [*side, 0, 0, 0]))?;
                out.write_all(&other.bytes())
            }
        }
    }

    /// The first step of a script, and the script after it.
    fn read(script: &[u8]) -> Option<(Step, &[u8])> {
        let (bytes, rest) = script.split_first_chunk::<HEAD_BYTES>()?;
        match head::read(bytes) {
            (0..=LAST_CALL, _) => Some((Step::Call(Call::of(*bytes)?), rest)),
            (WEAVE, [side, ..]) => {
                let (numbers, rest) = rest.split_first_chunk::<RECORD_BYTES>()?;
                let other = Record::of_bytes(numbers);
                Some((Step::Weave { side, other }, rest))
            }
            _ => None,
        }
    }
}

/// Writes the steps as a script.
pub fn write(steps: &[Step], out: &mut impl Write) -> io::Result<()> {
    steps.iter().try_for_each(|step| step.write(out))
}

/// Carries a script out. A step of an unknown kind, or one that is cut off, ends it.
pub fn print_answers(script: &[u8], out: &mut impl Write) -> io::Result<()> {
    let mut held = Held::empty();
    let mut rest = script;
    while let Some((step, after)) = Step::read(rest) {
        match step {
            Step::Call(call) => script::print_step(&mut held, call, out)?,
            Step::Weave { side, other } => print_woven(&mut held, side, &other, out)?,
        }
        rest = after;
    }
    Ok(())
}

/// A step without its answer.
pub(crate) fn change(held: &mut Held, step: &Step) {
    match step {
        Step::Call(call) => script::change(held, *call),
        Step::Weave { side, other } => {
            // Where it is refused, the plan is as found.
            let _ = held.weave(*side, other);
        }
    }
}

fn print_woven(held: &mut Held, side: u64, other: &Record, out: &mut impl Write) -> io::Result<()> {
    let woven = held.weave(side, other);
    let result = woven.map_or_else(Refusal::number, |()| 0);
    let same = if woven.is_ok() { "equal" } else { "-" };
    writeln!(out, "weave {side} {result}")?;
    for form in ["lent", "lent-a", "lent-b"] {
        writeln!(out, "{form} {result} {same}")?;
    }
    if woven.is_ok() {
        print_rows(&held.plan, out)?;
    }
    Ok(())
}

fn print_rows(plan: &Plan, out: &mut impl Write) -> io::Result<()> {
    for path in paths(plan) {
        write!(out, "rows {}", path.line)?;
        for row in path.rows {
            write!(out, " {} {}", row.weight, row.edge)?;
        }
        writeln!(out)?;
    }
    Ok(())
}

/// Lines that are shown after a weave or a list, if so many are open.
const LINES_SHOWN: usize = 5;

/// The plan of one list after another is woven with drawn plans: as they are, which is mostly
/// refused, with the lines of both closed in one of them, and with the lines closed whose period
/// can not be doubled. Bookings go on from the woven plan, and it is woven again. At the end the
/// other record, the plan's own or both have numbers written over.
pub fn generated(seed: u64, count: u64, shape: Shape) -> Vec<Step> {
    let mut random = Random::new(seed);
    let mut composed = Composed {
        steps: Vec::new(),
        held: Held::empty(),
    };
    for _ in 0..count {
        composed.push(Step::Call(Call::Begin));
        composed.book(shape, &mut random);
        for _ in 0..2 {
            composed.weave(shape, &mut random);
            composed.book(shape, &mut random);
            composed.ask(&mut random);
        }
        composed.weave_damaged(shape, &mut random);
        composed.ask(&mut random);
    }
    composed.steps
}

/// A script, and what its steps leave.
struct Composed {
    steps: Vec<Step>,
    held: Held,
}

impl Composed {
    fn push(&mut self, step: Step) {
        change(&mut self.held, &step);
        self.steps.push(step);
    }

    /// The opens and closes of a generated list.
    fn book(&mut self, shape: Shape, random: &mut Random) {
        for call in script::calls_of(&lists::generate(shape, random)) {
            self.push(Step::Call(call));
        }
    }

    fn close(&mut self, line: u64) {
        self.push(Step::Call(Call::Close(line)));
    }

    fn weave(&mut self, shape: Shape, random: &mut Random) {
        let mut other = drawn_side(shape, random);
        self.push_weave(&other, random);
        self.part(&mut other, random);
        self.push_weave(&other, random);
        self.part(&mut other, random);
        self.shorten(&mut other);
        self.push_weave(&other, random);
        self.ask(random);
    }

    fn push_weave(&mut self, other: &Plan, random: &mut Random) {
        let (side, other) = (random.below(2), Record::of(other));
        self.push(Step::Weave { side, other });
    }

    /// Closes each line that is open in both, in one of the two.
    fn part(&mut self, other: &mut Plan, random: &mut Random) {
        for line in lines_in_both(&self.held.plan, other) {
            if random.below(2) == 0 {
                self.close(line);
            } else {
                close(other, line);
            }
        }
    }

    /// Closes the lines, in both, whose period can not be doubled.
    fn shorten(&mut self, other: &mut Plan) {
        for line in too_long_lines(&self.held.plan) {
            self.close(line);
        }
        for line in too_long_lines(other) {
            close(other, line);
        }
    }

    /// The other record has numbers written over, then the plan's own too, then only that.
    fn weave_damaged(&mut self, shape: Shape, random: &mut Random) {
        let mut plan = drawn_side(shape, random);
        if random.below(2) == 0 {
            self.shorten(&mut plan);
        }
        let mut other = Record::of(&plan);
        for _ in 0..1 + random.below(3) {
            let (place, number) = drawn_write(&other, random);
            other.write(place as usize, number);
        }
        for other in [other.clone(), other, Record::of(&plan)] {
            let side = random.below(2);
            self.push(Step::Weave { side, other });
            let (place, number) = drawn_write(&self.held.record, random);
            self.push(Step::Call(Call::Write(place, number)));
        }
    }

    /// Some of the open lines, a line that is mostly not open, and some of the rounds asked after a
    /// list.
    fn ask(&mut self, random: &mut Random) {
        let mut lines: Vec<u64> = paths(&self.held.plan)
            .iter()
            .map(|path| path.line.into())
            .collect();
        random.shuffle(&mut lines);
        lines.truncate(LINES_SHOWN);
        lines.push(random.below(66));
        for line in lines {
            self.push(Step::Call(Call::Show(line)));
        }
        for round in lists::rounds(&self.held.plan, random)
            .into_iter()
            .step_by(4)
        {
            self.push(Step::Call(Call::Owner(round)));
        }
    }
}

#[cfg(test)]
pub(crate) mod tests {
    use super::*;
    use crate::head::scripts::{read_back, written};
    use crate::naive_joining::{paths, plan_of, Paths};
    use crate::naive_weaving::by_paths;
    use crate::weave_cases::cases;
    use std::collections::BTreeMap;

    fn script(steps: &[Step]) -> Vec<u8> {
        written(|script| write(steps, script))
    }

    pub(crate) fn printed(steps: &[Step]) -> String {
        String::from_utf8(written(|text| print_answers(&script(steps), text))).unwrap()
    }

    fn opened(lines: &[(u64, u64)]) -> Record {
        let mut plan = Plan::empty();
        for &(line, period) in lines {
            plan.open(line, period).unwrap();
        }
        Record::of(&plan)
    }

    #[test]
    fn steps_are_read_back_from_their_bytes() {
        for steps in [cases(), generated(1, 2, Shape::Sparse)] {
            assert_eq!(read_back(&script(&steps), Step::read), steps);
        }
        let begin = Step::Call(Call::Begin);
        let (side, other) = (1, opened(&[(63, 6)]));
        let whole = script(&[begin.clone(), Step::Weave { side, other }]);
        for length in HEAD_BYTES..whole.len() {
            assert_eq!(
                read_back(&whole[..length], Step::read),
                std::slice::from_ref(&begin)
            );
        }
    }

    /// The numbers of line 63 are the last 22, of which two are used here.
    #[test]
    fn numbers_follow_the_head_of_a_weave() {
        let (side, mut other) = (1, opened(&[(63, 1_025)]));
        other.write(0, 0x1234);
        let bytes = script(&[Step::Weave { side, other }]);
        assert_eq!(bytes.len(), 33 + 2_816);
        assert_eq!(bytes[..10], [14, 0, 0, 0, 0, 0, 0, 0, 1, 0]);
        assert_eq!(bytes[33..36], [0x12, 0x34, 0]);
        assert_eq!(bytes[33 + 2_816 - 44..][..4], [0x04, 0x01, 0, 0]);
    }

    #[test]
    fn steps_of_other_kinds_are_not_read() {
        for kind in [6, 11, 12, 13, 15, 255] {
            let head = head::write(kind, [0; 4]);
            let script = [head.to_vec(), vec![0; 2_816]].concat();
            assert_eq!(Step::read(&script), None, "{kind}");
        }
    }

    #[test]
    fn every_form_is_printed() {
        let weave = |side: u64, lines: &[(u64, u64)]| {
            let other = opened(lines);
            Step::Weave { side, other }
        };
        let steps = [
            weave(0, &[]),
            Step::Call(Call::Open(5, 6)),
            weave(0, &[(9, 1)]),
            weave(1, &[(5, 3)]),
            weave(3, &[(7, 2), (8, 4)]),
            Step::Call(Call::Owner(2)),
            weave(0, &[(6, 4_095)]),
            Step::Call(Call::Open(5, 1)),
        ];
        let woven =
            |side: u64| format!("weave {side} 0\nlent 0 equal\nlent-a 0 equal\nlent-b 0 equal\n");
        let refused = |side: u64, number: u8| {
            let forms = ["lent", "lent-a", "lent-b"].map(|form| format!("{form} {number} -\n"));
            format!("weave {side} {number}\n{}", forms.concat())
        };
        let expected = [
            &woven(0),
            "open 5 6 0 0\n",
            &woven(0),
            "rows 5 2 0 6 0\nrows 9 2 1\n",
            &refused(1, 15),
            &woven(3),
            "rows 5 2 1 2 0 6 0\nrows 7 2 0 2 0\nrows 8 2 0 2 1 2 0\nrows 9 2 1 2 1\n",
            "owner 2 8\n",
            &refused(0, 16),
            "open 5 1 3 -\n",
        ];
        assert_eq!(printed(&steps), expected.concat());
    }

    /// How many weaves have each result, and how many of each are of which kind.
    type Counts = BTreeMap<(u8, &'static str), usize>;

    /// A kind of weave, and whether one is of it.
    type Kind = (&'static str, bool);

    /// By the record that it is on, and the other one.
    fn kinds_of_records(own: &Record, other: &Record) -> [Kind; 4] {
        let (own, other) = (own.tree(), other.tree());
        let empty = Some(Plan::empty());
        [
            ("on no tree", own.is_none()),
            ("with no tree", other.is_none()),
            ("on no tree with no tree", own.is_none() && other.is_none()),
            ("on the empty plan with it", own == empty && other == empty),
        ]
    }

    /// By the paths of the sides A and B: a line of every round stands under a root of weight 1.
    fn kinds_of_sides([a, b]: &[Paths; 2]) -> [Kind; 3] {
        let has_weight_1 = |side: &Paths| side.values().any(|rows| rows[0].weight == 1);
        let (a_has, b_has) = (has_weight_1(a), has_weight_1(b));
        [
            ("only A of weight 1", a_has && !b_has),
            ("only B of weight 1", b_has && !a_has),
            ("both of weight 1", a_has && b_has),
        ]
    }

    /// By the paths that it leaves, unless it is refused.
    fn kinds_of_woven(woven: &Result<Paths, u8>) -> [Kind; 2] {
        let lines = woven.iter().flat_map(Paths::values);
        let most = lines.map(Vec::len).max();
        [("all", true), ("with 11 rows", most == Some(11))]
    }

    fn count(counts: &mut Counts, number: u8, kinds: &[Kind]) {
        for (kind, is_of_it) in kinds {
            if *is_of_it {
                *counts.entry((number, kind)).or_insert(0) += 1;
            }
        }
    }

    /// Each weave told over paths too, and what it leaves: after one that is refused the record has
    /// the numbers that it had.
    fn weaves(steps: &[Step]) -> Counts {
        let mut held = Held::empty();
        let mut counts = BTreeMap::new();
        for step in steps {
            let before = held.clone();
            change(&mut held, step);
            if let Step::Weave { side, other } = step {
                let mut sides = [paths(&before.plan), paths(&other.plan())];
                sides.rotate_left((side % 2) as usize);
                let woven = by_paths(&sides[0], &sides[1]);
                match &woven {
                    Ok(paths) => assert_eq!(held.plan, plan_of(paths)),
                    Err(_) => assert_eq!(held.record, before.record),
                }
                let kinds = [
                    kinds_of_records(&before.record, other).as_slice(),
                    &kinds_of_sides(&sides),
                    &kinds_of_woven(&woven),
                ]
                .concat();
                count(&mut counts, woven.err().unwrap_or(0), &kinds);
            }
        }
        counts
    }

    /// The generated part of the script that `.ci/run` composes.
    fn stored() -> Vec<Step> {
        let seeds = [1, 2].into_iter();
        let scripts = seeds.map(|seed| Shape::ALL.map(|shape| generated(seed, 2, shape)));
        scripts.flatten().flatten().collect()
    }

    /// A record that is no tree has no line in common with another.
    #[test]
    fn weaves_have_every_outcome_often() {
        for (steps, least) in [(cases(), 15), (stored(), 3)] {
            let counts = weaves(&steps);
            let all = |number: u8| counts.get(&(number, "all")).copied().unwrap_or(0);
            assert!(all(0) > 80 && all(15) > 20 && all(16) > 30, "{counts:?}");
            for (number, what, is_possible) in [
                (0, "with no tree", true),
                (0, "on no tree", true),
                (15, "with no tree", false),
                (15, "on no tree", false),
                (16, "on no tree", true),
            ] {
                let count = counts.get(&(number, what)).copied().unwrap_or(0);
                let is_expected = if is_possible {
                    count >= least
                } else {
                    count == 0
                };
                assert!(is_expected, "{number} {what} {counts:?}");
            }
        }
    }

    #[test]
    fn cases_weave_sides_of_every_kind() {
        let counts = weaves(&cases());
        for kind in [
            "on no tree with no tree",
            "on the empty plan with it",
            "only A of weight 1",
            "only B of weight 1",
            "both of weight 1",
            "with 11 rows",
        ] {
            assert!(counts.contains_key(&(0, kind)), "{kind} {counts:?}");
        }
    }

    #[test]
    fn generated_scripts_bring_every_answer() {
        for shape in Shape::ALL {
            let steps = generated(3, 6, shape);
            let text = printed(&steps);
            for result in ["0", "15", "16"] {
                let is_result = |line: &&str| {
                    line.starts_with("weave ") && line.split(' ').nth(2) == Some(result)
                };
                let count = text.lines().filter(is_result).count();
                assert!(count >= 2, "{shape:?} {result} {count}");
            }
            assert!(generated(3, 7, shape).starts_with(&steps));
            assert_ne!(generated(4, 6, shape), steps);
        }
    }
}
