//! The plan, and the calls on it.

use crate::answers::answers_length;
use crate::raw;
use crate::refusal::outcome;
use crate::{
    Answered, Answers, Class, Line, Node, Owner, Period, Reason, Refusal, Round, Sheet, Start,
};
use std::{array, fmt};

/// A plan of rounds. [`Plan::new`] is the empty one.
///
/// Two plans whose records are trees are equal exactly where the trees are. Calls on different plans may run in
/// different threads, since the library keeps nothing between calls.
#[derive(Clone, PartialEq, Eq)]
pub struct Plan {
    rows: [u16; raw::PLAN_NUMBERS],
}

/// One row of a path: a node's weight, and the edge taken there.
#[derive(Clone, Copy, Debug, Default, PartialEq, Eq, Hash)]
pub struct Row {
    /// How many edges the node can have.
    pub weight: u16,
    /// The number of the edge.
    pub edge: u16,
}

/// What an open would do.
#[derive(Clone, Copy, Debug, PartialEq, Eq, Hash)]
pub struct Trial {
    /// The start that it would answer.
    pub start: Start,
    /// How many more nodes the plan would have.
    pub added: u16,
    /// Whether it would split a node.
    pub split: bool,
}

/// What show gives of a line.
#[derive(Clone, Copy, Debug, PartialEq, Eq, Hash)]
pub struct Shown {
    /// Its period.
    pub period: Period,
    /// Its start.
    pub start: Start,
    /// Its path from the root on; unused rows are 0 and 0.
    pub rows: [Row; 11],
}

/// An open line of a plan.
#[derive(Clone, Copy, Debug, PartialEq, Eq, Hash)]
pub struct OpenLine {
    /// Its number.
    pub line: Line,
    /// Its period.
    pub period: Period,
    /// Its start.
    pub start: Start,
}

impl Plan {
    /// The empty plan.
    pub const fn new() -> Plan {
        Plan {
            rows: [0; raw::PLAN_NUMBERS],
        }
    }

    /// The plan with this record, whatever it holds: one that is no tree ([`Plan::is_tree`]) is treated by every call
    /// as the empty plan.
    pub const fn from_record(rows: [u16; raw::PLAN_NUMBERS]) -> Plan {
        Plan { rows }
    }

    /// The plan's record, to be stored or sent: for each line 11 rows of weight and edge. [`Plan::to_image`] gives
    /// bytes.
    pub const fn record(&self) -> &[u16; raw::PLAN_NUMBERS] {
        &self.rows
    }

    /// Whether the record is a tree. The empty plan is one, and so is every plan that the calls made of one.
    pub fn is_tree(&self) -> bool {
        raw::is_tree(&self.rows) == 1
    }

    /// Opens a line, and gives its start: the smallest that a candidate offers, and 0 in an empty plan.
    ///
    /// # Errors
    ///
    /// [`Refusal::LineAbove63`], [`Refusal::PeriodOutOfRange`], [`Refusal::LineOpen`] and [`Refusal::NoCandidate`], in
    /// this sequence of checks. The plan is then as found.
    pub fn open(&mut self, line: Line, period: Period) -> Result<Start, Refusal> {
        outcome(raw::open(&mut self.rows, line.0, period.0)).map(Start)
    }

    /// Tries a line: tells what [`Plan::open`] with the same line and period would do. The plan is only read.
    ///
    /// ```
    /// use gaplinte::{Line, Period, Plan, Refusal, Start, Trial};
    ///
    /// let mut plan = Plan::new();
    /// plan.open(Line(1), Period(4))?;
    /// // The root's weight would become 2, with a node under each of its two edges.
    /// let expected = Trial { start: Start(1), added: 2, split: true };
    /// assert_eq!(plan.trial(Line(2), Period(6)), Ok(expected));
    /// assert_eq!(plan.trial(Line(2), Period(3)), Err(Refusal::NoCandidate));
    /// # Ok::<(), Refusal>(())
    /// ```
    ///
    /// # Errors
    ///
    /// As [`Plan::open`], in the same sequence of checks.
    pub fn trial(&self, line: Line, period: Period) -> Result<Trial, Refusal> {
        let mut tried = [0; 3];
        outcome(raw::trial(&self.rows, line.0, period.0, &mut tried))?;
        let [start, added, split] = tried;
        Ok(Trial {
            start: Start(start.into()),
            added,
            split: split == 1,
        })
    }

    /// The reason behind a [`Refusal::NoCandidate`]: what keeps a period from a class of a node. It is the open line of
    /// lowest number that stands, at any depth, under an edge of the class. Where the node's step does not divide the
    /// period, that is the reason, and the class is not looked at.
    ///
    /// On a plan with an open line, an open that is not refused for its line or its period is refused with
    /// [`Refusal::NoCandidate`] if and only if this call, asked of every node and class, is never refused with
    /// [`Refusal::NoLineInClass`].
    ///
    /// ```
    /// use gaplinte::{Class, Line, Node, Period, Plan, Reason, Refusal};
    ///
    /// let mut plan = Plan::new();
    /// plan.open(Line(1), Period(4))?;
    /// plan.open(Line(2), Period(6))?;
    /// assert_eq!(plan.open(Line(3), Period(2)), Err(Refusal::NoCandidate));
    /// // The root has weight 2. Line 1 stands under its edge 0, in a node of step 2, and line 2 under edge 1.
    /// let node = Node { level: 1, offset: 0 };
    /// assert_eq!(plan.reason(Period(2), Node::ROOT, Class(1)), Ok(Reason::Line(Line(2))));
    /// assert_eq!(plan.reason(Period(3), node, Class(0)), Ok(Reason::StepDoesNotDivide));
    /// plan.close(Line(2))?;
    /// assert_eq!(plan.reason(Period(2), Node::ROOT, Class(1)), Err(Refusal::NoLineInClass));
    /// # Ok::<(), Refusal>(())
    /// ```
    ///
    /// # Errors
    ///
    /// [`Refusal::PeriodOutOfRange`], [`Refusal::NoNode`] and, where the node's step divides the period,
    /// [`Refusal::NoClass`] and [`Refusal::NoLineInClass`], in this sequence of checks.
    pub fn reason(&self, period: Period, node: Node, class: Class) -> Result<Reason, Refusal> {
        let value = raw::reason(&self.rows, period.0, node.level, node.offset, class.0);
        outcome(value).map(Reason::told)
    }

    /// Closes a line. The nodes left above it are joined where they can be: other lines can have shorter paths then,
    /// and keep their periods and starts.
    ///
    /// ```
    /// use gaplinte::{Line, Period, Plan, Refusal};
    ///
    /// let mut plan = Plan::new();
    /// plan.open(Line(1), Period(6))?;
    /// plan.open(Line(2), Period(2))?;
    /// assert_eq!(plan.open(Line(3), Period(3)), Err(Refusal::NoCandidate));
    /// plan.close(Line(2))?; // joins the nodes of weights 2 and 3 above line 1
    /// assert!(plan.open(Line(3), Period(3)).is_ok());
    /// # Ok::<(), Refusal>(())
    /// ```
    ///
    /// # Errors
    ///
    /// [`Refusal::LineAbove63`] and [`Refusal::LineNotOpen`]. The plan is then as found.
    pub fn close(&mut self, line: Line) -> Result<(), Refusal> {
        outcome(raw::close(&mut self.rows, line.0)).map(drop)
    }

    /// The owner of a round: its line or, where it is idle, the rest.
    pub fn owner(&self, round: Round) -> Owner {
        let value = outcome(raw::owner(&self.rows, round.0));
        Owner::told(value.expect("owner has no refusal"))
    }

    /// Shows a line.
    ///
    /// # Errors
    ///
    /// [`Refusal::LineAbove63`] and [`Refusal::LineNotOpen`].
    pub fn show(&self, line: Line) -> Result<Shown, Refusal> {
        let mut shown = [0; raw::SHOWN_NUMBERS];
        outcome(raw::show(&self.rows, line.0, &mut shown))?;
        let [period, start, rows @ ..] = shown;
        Ok(Shown {
            period: Period(period.into()),
            start: Start(start.into()),
            rows: array::from_fn(|row| Row {
                weight: rows[2 * row],
                edge: rows[2 * row + 1],
            }),
        })
    }

    /// The open lines, in rising number.
    pub fn lines(&self) -> impl Iterator<Item = OpenLine> + '_ {
        (0..64).map(Line).filter_map(|line| {
            let Shown { period, start, .. } = self.show(line).ok()?;
            Some(OpenLine {
                line,
                period,
                start,
            })
        })
    }

    /// Turns of a line: exactly how many rounds it owns among so many that begin with `first`. Rounds are whole
    /// numbers: those from 2^64 on count too, though no [`Round`] holds them. 0 rounds give 0.
    ///
    /// # Errors
    ///
    /// [`Refusal::LineAbove63`] and [`Refusal::LineNotOpen`].
    pub fn turns(&self, line: Line, first: Round, rounds: u32) -> Result<u64, Refusal> {
        outcome(raw::turns(&self.rows, line.0, first.0, rounds))
    }

    /// The sheet of so many rounds that begin with `first`: the turns of each line, 0 for a closed one, and the idle
    /// rounds. They add up to `rounds`. Rounds are whole numbers: those from 2^64 on count too, though no [`Round`]
    /// holds them.
    ///
    /// ```
    /// use gaplinte::{Line, Period, Plan, Refusal, Round};
    ///
    /// let mut plan = Plan::new();
    /// plan.open(Line(1), Period(4))?;
    /// plan.open(Line(2), Period(6))?;
    /// // Rounds 4, 8 and 12 are line 1's, and round 7 is line 2's.
    /// let sheet = plan.sheet(Round(4), 9);
    /// assert_eq!(sheet.turns_of(Line(1)), Some(3));
    /// assert_eq!(sheet.turns_of(Line(2)), Some(1));
    /// assert_eq!((sheet.idle, sheet.total()), (5, 9));
    /// # Ok::<(), Refusal>(())
    /// ```
    pub fn sheet(&self, first: Round, rounds: u16) -> Sheet {
        let mut figures = [0; raw::SHEET_NUMBERS];
        let value = outcome(raw::sheet(&self.rows, first.0, rounds, &mut figures));
        value.expect("sheet has no refusal");
        let [turns @ .., idle] = figures;
        Sheet { turns, idle }
    }

    /// Runs a list of orders, three bytes each, and gives what each order is answered with.
    ///
    /// ```
    /// use gaplinte::{Answered, Call, Line, Period, Plan, Refusal, Start};
    ///
    /// let calls = [Call::Open(Line(1), Period(6)), Call::Close(Line(1)), Call::Close(Line(1))];
    /// let orders = calls.map(|call| call.pack().unwrap());
    /// let answers = Plan::new().run_list(orders.as_flattened())?;
    /// let expected = [Ok(Answered::Booked(Start(0))), Ok(Answered::Closed), Err(Refusal::LineNotOpen)];
    /// assert_eq!(answers, expected);
    /// # Ok::<(), Refusal>(())
    /// ```
    ///
    /// # Errors
    ///
    /// [`Refusal::ListLength`]. The plan is then as found. An order that is refused does not end the list.
    pub fn run_list(&mut self, orders: &[u8]) -> Result<Vec<Result<Answered, Refusal>>, Refusal> {
        let mut answers = vec![0; answers_length(orders.len())];
        Ok(self.run_list_into(orders, &mut answers)?.collect())
    }

    /// Runs a list of orders as [`Plan::run_list`] does, with a lent buffer for the answers. Each has two bytes: 4 bits
    /// of result, 0 or the number of the refusal, and 12 bits of start, 0 unless a line was opened. Later bytes of the
    /// buffer are left alone.
    ///
    /// # Errors
    ///
    /// [`Refusal::ListLength`] and [`Refusal::BufferTooShort`]. Plan and buffer are then as found.
    pub fn run_list_into<'list>(
        &mut self,
        orders: &'list [u8],
        answers: &'list mut [u8],
    ) -> Result<Answers<'list>, Refusal> {
        outcome(raw::run_list(&mut self.rows, orders, answers))?;
        let written = &answers[..answers_length(orders.len())];
        Ok(Answers::written(orders, written))
    }

    /// The image of the plan: its paths as bits, to be read on any machine. 7 bits say how many lines are open. Then
    /// come the open lines, the lowest first, with 6 bits for the line, 4 for how many rows its path has, and 24 for
    /// each row, half of them for the weight and half for the edge. Each number begins with its highest bit, and what
    /// is left of the last byte is 0. Two plans have the same image if and only if they have the same tree.
    ///
    /// ```
    /// use gaplinte::{Line, Period, Plan, Refusal};
    ///
    /// let mut plan = Plan::new();
    /// plan.open(Line(5), Period(6))?;
    /// let image = plan.to_image();
    /// assert_eq!(image, [0x02, 0x28, 0x80, 0x30, 0x00, 0x00]);
    /// assert_eq!(Plan::from_image(&image), Ok(plan));
    /// assert_eq!(Plan::from_image(&image[..5]), Err(Refusal::ImageLength));
    /// # Ok::<(), Refusal>(())
    /// ```
    pub fn to_image(&self) -> Vec<u8> {
        let mut image = [0; raw::IMAGE_BYTES];
        let length = self.write_image(&mut image).expect("no image is longer");
        image[..length].to_vec()
    }

    /// The plan with an image's tree.
    ///
    /// # Errors
    ///
    /// As [`Plan::read_image`], in the same sequence of checks.
    pub fn from_image(image: &[u8]) -> Result<Plan, Refusal> {
        let mut plan = Plan::new();
        plan.read_image(image)?;
        Ok(plan)
    }

    /// Writes the image that [`Plan::to_image`] gives into a lent buffer, and gives its length. Later bytes of the
    /// buffer are left alone. One of [`raw::IMAGE_BYTES`] is never too short.
    ///
    /// # Errors
    ///
    /// [`Refusal::BufferTooShort`]. The buffer is then as found.
    pub fn write_image(&self, buffer: &mut [u8]) -> Result<usize, Refusal> {
        outcome(raw::write_image(&self.rows, buffer)).map(|length| length as usize)
    }

    /// Reads an image: the plan, whatever it was, gets the image's tree.
    ///
    /// # Errors
    ///
    /// The first number of the image that cannot be read: [`Refusal::ImageLength`] where the bytes end inside it, and
    /// [`Refusal::ImageField`] where it says 65 lines or more, no rows or 12 and more, or the weight 0. Where all can
    /// be read, [`Refusal::ImageLength`] if another byte comes behind them, else [`Refusal::ImageField`] if what is
    /// left of the last byte is not 0, else [`Refusal::ImageField`] for any of these: a line number that is not above
    /// the one before it, an edge that is not below its weight, a period above 4,095, a weight of 1 beside other rows,
    /// two weights at one place, a line at another's place or on the way to it. The plan is then as found.
    pub fn read_image(&mut self, image: &[u8]) -> Result<(), Refusal> {
        outcome(raw::read_image(&mut self.rows, image)).map(drop)
    }

    /// Weaves this plan and another into a third, for a recorder of twice the rate. Where t is even, the owner of round
    /// t is then that of round t / 2 in this plan, and where t is odd, that of round (t - 1) / 2 in the other. Each
    /// period is doubled, and a start s becomes 2 s for a line of this plan and 2 s + 1 for a line of the other. The
    /// root has weight 2, with this plan's tree under edge 0 and the other's under edge 1. The edge of a plan without
    /// lines is absent; where both have none, the woven plan is the empty one. Where a root has weight 1, its line
    /// alone stands under the edge.
    ///
    /// ```
    /// use gaplinte::{Line, Owner, Period, Plan, Refusal, Round, Start};
    ///
    /// let (mut one, mut other) = (Plan::new(), Plan::new());
    /// one.open(Line(1), Period(4))?;
    /// other.open(Line(2), Period(3))?;
    /// let mut woven = one.weave(&other)?;
    /// assert_eq!(woven.to_string(), "line 1: period 8, start 0\nline 2: period 6, start 1");
    /// // Round 13 is the other plan's round 6.
    /// assert_eq!(woven.owner(Round(13)), Owner::Line(Line(2)));
    /// assert_eq!(woven.open(Line(3), Period(6)), Ok(Start(3)));
    /// assert_eq!(woven.weave(&one), Err(Refusal::OpenInBoth));
    /// # Ok::<(), Refusal>(())
    /// ```
    ///
    /// # Errors
    ///
    /// [`Refusal::OpenInBoth`] and [`Refusal::DoubledPeriodOutOfRange`], in this sequence of checks.
    pub fn weave(&self, other: &Plan) -> Result<Plan, Refusal> {
        let mut woven = Plan::new();
        outcome(raw::weave(&self.rows, &other.rows, &mut woven.rows))?;
        Ok(woven)
    }
}

/// The empty plan.
impl Default for Plan {
    fn default() -> Plan {
        Plan::new()
    }
}

/// The open lines, one below the other.
impl fmt::Display for Plan {
    fn fmt(&self, f: &mut fmt::Formatter<'_>) -> fmt::Result {
        let lines: Vec<String> = self.lines().map(|line| line.to_string()).collect();
        match (lines.is_empty(), self.is_tree()) {
            (false, _) => f.write_str(&lines.join("\n")),
            (true, true) => f.write_str("no open lines"),
            (true, false) => f.write_str("no open lines: the record is no tree"),
        }
    }
}

/// Such as "line 4: period 12, start 3".
impl fmt::Display for OpenLine {
    fn fmt(&self, f: &mut fmt::Formatter<'_>) -> fmt::Result {
        let (line, period, start) = (self.line, self.period, self.start);
        write!(f, "line {line}: period {period}, start {start}")
    }
}

/// The open lines, as `line: period@start`.
impl fmt::Debug for Plan {
    fn fmt(&self, f: &mut fmt::Formatter<'_>) -> fmt::Result {
        let lines = self.lines();
        f.debug_map()
            .entries(lines.map(|it| (it.line.0, format!("{}@{}", it.period, it.start))))
            .finish()
    }
}
