//! Lines, periods, starts, rounds and classes are all whole numbers, and none may be taken for another. Each is 64 bits
//! wide, so that a number out of range is refused and never cut.

use std::fmt;

/// The number of a line, 0 to 63.
#[derive(Clone, Copy, Debug, PartialEq, Eq, PartialOrd, Ord, Hash)]
pub struct Line(pub u64);

/// A period of 1 to 4,095 rounds.
#[derive(Clone, Copy, Debug, PartialEq, Eq, PartialOrd, Ord, Hash)]
pub struct Period(pub u64);

/// The first round of a line, below its period.
#[derive(Clone, Copy, Debug, PartialEq, Eq, PartialOrd, Ord, Hash)]
pub struct Start(pub u64);

/// A round, from 0 on.
#[derive(Clone, Copy, Debug, Default, PartialEq, Eq, PartialOrd, Ord, Hash)]
pub struct Round(pub u64);

/// A class of a node's edges, for a period that the node's step divides. With d, the greatest common divisor of the
/// node's weight and the period divided by the step, the classes are 0 to d - 1, and an edge is of the class that it
/// leaves when it is divided by d.
#[derive(Clone, Copy, Debug, PartialEq, Eq, PartialOrd, Ord, Hash)]
pub struct Class(pub u64);

/// Each is displayed as the number alone, with the width and the fill that are asked for.
macro_rules! display_the_number {
    ($($number:ident)*) => {
        $(impl fmt::Display for $number {
            fn fmt(&self, f: &mut fmt::Formatter<'_>) -> fmt::Result {
                self.0.fmt(f)
            }
        })*
    };
}

display_the_number! { Line Period Start Round Class }
