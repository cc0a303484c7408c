//! A sheet: the turns of each line, and the idle rounds.

use crate::Line;
use std::fmt;

/// What [`Plan::sheet`](crate::Plan::sheet) gives of some rounds. Its figures add up to the number of rounds.
#[derive(Clone, Copy, Debug, PartialEq, Eq, Hash)]
pub struct Sheet {
    /// The turns of each of the lines 0 to 63, 0 for a closed one.
    pub turns: [u16; 64],
    /// The idle rounds.
    pub idle: u16,
}

impl Sheet {
    /// The turns of a line, 0 for a closed one, and `None` for a line above 63.
    pub fn turns_of(&self, line: Line) -> Option<u16> {
        let line = usize::try_from(line.0).ok()?;
        self.turns.get(line).copied()
    }

    /// The turns of all lines and the idle rounds, added up: the number of rounds.
    pub fn total(&self) -> u32 {
        let turns: u32 = self.turns.into_iter().map(u32::from).sum();
        turns + u32::from(self.idle)
    }
}

/// The lines that have turns, the idle rounds and the total, one below the other, such as "line 4: 8", "idle: 37" and
/// "total: 100".
impl fmt::Display for Sheet {
    fn fmt(&self, f: &mut fmt::Formatter<'_>) -> fmt::Result {
        for (line, turns) in self.turns.into_iter().enumerate() {
            if turns > 0 {
                writeln!(f, "line {line}: {turns}")?;
            }
        }
        write!(f, "idle: {}\ntotal: {}", self.idle, self.total())
    }
}
