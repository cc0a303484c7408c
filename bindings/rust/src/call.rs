//! What an order asks for: packed into three bytes, and read from three bytes.

use crate::raw;
use crate::refusal::outcome;
use crate::{Line, Period, Refusal};

/// What an order asks for.
#[derive(Clone, Copy, Debug, PartialEq, Eq, Hash)]
pub enum Call {
    /// To open a line with a period.
    Open(Line, Period),
    /// To close a line.
    Close(Line),
}

impl Call {
    /// The order that asks for this call. One of period 0 is packed: it is the open itself that is refused.
    ///
    /// # Errors
    ///
    /// [`Refusal::LineAbove63`] and [`Refusal::PeriodOutOfRange`].
    pub fn pack(self) -> Result<[u8; 3], Refusal> {
        let mut order = [0; 3];
        let answer = match self {
            Call::Open(line, period) => raw::pack(0, line.0, period.0, &mut order),
            Call::Close(line) => raw::pack(1, line.0, 0, &mut order),
        };
        outcome(answer)?;
        Ok(order)
    }

    /// The call that an order asks for.
    ///
    /// # Errors
    ///
    /// [`Refusal::NoOrder`].
    pub fn read(order: [u8; 3]) -> Result<Call, Refusal> {
        let mut call = [0; 3];
        outcome(raw::read(&order, &mut call))?;
        let [kind, line, period] = call.map(u64::from);
        Ok(match kind {
            0 => Call::Open(Line(line), Period(period)),
            _ => Call::Close(Line(line)),
        })
    }
}
