//! What stands in the way of a period, and an answer of the library about it taken apart.

use crate::{raw, Line};
use std::fmt;

/// A node, by its level and its offset. They are numbers of 64 bits, so that none is cut.
///
/// The node of row k of a path ([`Shown::rows`](crate::Shown::rows)) has level k, so that the root has level 0. Its
/// step is the product of the weights above it, 1 for the root. Its offset is the sum of the edges above it, each times
/// the step of the node that it belongs to.
#[derive(Clone, Copy, Debug, PartialEq, Eq, PartialOrd, Ord, Hash)]
pub struct Node {
    /// How many nodes stand above it.
    pub level: u64,
    /// The rounds that come to it leave this number when they are divided by its step.
    pub offset: u64,
}

impl Node {
    /// The root.
    pub const ROOT: Node = Node {
        level: 0,
        offset: 0,
    };
}

/// What keeps a period from a class of a node: see [`Plan::reason`](crate::Plan::reason).
#[derive(Clone, Copy, Debug, PartialEq, Eq, Hash)]
pub enum Reason {
    /// The node's step does not divide the period.
    StepDoesNotDivide,
    /// The open line of lowest number that stands, at any depth, under an edge of the class.
    Line(Line),
}

impl Reason {
    /// The line, `None` where the step does not divide the period.
    pub fn line(self) -> Option<Line> {
        match self {
            Reason::StepDoesNotDivide => None,
            Reason::Line(line) => Some(line),
        }
    }

    /// What a value of reason tells.
    pub(crate) fn told(value: u64) -> Reason {
        if value == raw::STEP_DOES_NOT_DIVIDE as u64 {
            return Reason::StepDoesNotDivide;
        }
        Reason::Line(Line(value))
    }
}

/// Such as "level 1, offset 0".
impl fmt::Display for Node {
    fn fmt(&self, f: &mut fmt::Formatter<'_>) -> fmt::Result {
        write!(f, "level {}, offset {}", self.level, self.offset)
    }
}

/// Such as "line 4 stands in the class" or "the node's step does not divide the period".
impl fmt::Display for Reason {
    fn fmt(&self, f: &mut fmt::Formatter<'_>) -> fmt::Result {
        match self {
            Reason::StepDoesNotDivide => f.write_str("the node's step does not divide the period"),
            Reason::Line(line) => write!(f, "line {line} stands in the class"),
        }
    }
}
