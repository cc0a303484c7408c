//! The owner of a round, and an answer of the library about it taken apart.

use crate::{raw, Line};
use std::fmt;

/// The line that owns a round or, where none does, how long the recorder rests.
///
/// ```
/// use gaplinte::{Line, Owner, Period, Plan, Refusal, Round};
///
/// let mut plan = Plan::new();
/// assert_eq!(plan.owner(Round(25)), Owner::Idle { rest: 0 });
/// plan.open(Line(1), Period(12))?;
/// assert_eq!(plan.owner(Round(24)), Owner::Line(Line(1)));
/// // The next owned round is 36.
/// assert_eq!(plan.owner(Round(25)), Owner::Idle { rest: 11 });
/// # Ok::<(), Refusal>(())
/// ```
#[derive(Clone, Copy, Debug, PartialEq, Eq, Hash)]
pub enum Owner {
    /// The round belongs to this line.
    Line(Line),
    /// The round belongs to no line.
    Idle {
        /// How many rounds lie from this one to the next owned one: 1 to 4,094, and 0 for an empty plan only. Rounds
        /// are whole numbers: the next owned one can be past 2^64 - 1, and then no [`Round`](crate::Round) holds it.
        rest: u64,
    },
}

impl Owner {
    /// The line, `None` where the round is idle.
    pub fn line(self) -> Option<Line> {
        match self {
            Owner::Line(line) => Some(line),
            Owner::Idle { .. } => None,
        }
    }

    /// What a value of owner or of the walker tells.
    pub(crate) fn told(value: u64) -> Owner {
        match value.checked_sub(raw::IDLE_FROM as u64) {
            None => Owner::Line(Line(value)),
            Some(rest) => Owner::Idle { rest },
        }
    }
}

/// Such as "line 4", "idle, the next owned round is 3 later" or, for an empty plan, "idle, no line is open".
impl fmt::Display for Owner {
    fn fmt(&self, f: &mut fmt::Formatter<'_>) -> fmt::Result {
        match self {
            Owner::Line(line) => write!(f, "line {line}"),
            Owner::Idle { rest: 0 } => f.write_str("idle, no line is open"),
            Owner::Idle { rest } => write!(f, "idle, the next owned round is {rest} later"),
        }
    }
}
