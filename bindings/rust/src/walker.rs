//! The walker: the owners of successive rounds, one for each call.

use crate::raw;
use crate::refusal::outcome;
use crate::{Owner, Plan, Refusal, Round};

/// A walker's place. `Walker::default()` starts at round 0.
#[derive(Clone, Copy, Debug, Default, PartialEq, Eq, Hash)]
pub struct Walker {
    /// The next round.
    pub next: Round,
    /// How many of the rounds seen were owned.
    pub owned: u64,
}

impl Walker {
    /// The owner of the next round, as [`Plan::owner`] gives it. The place moves on by one round.
    ///
    /// # Errors
    ///
    /// [`Refusal::WalkerAtEnd`]. The place is then as found.
    pub fn walk(&mut self, plan: &Plan) -> Result<Owner, Refusal> {
        let mut place = [self.next.0, self.owned];
        let answer = raw::walk(plan.record(), &mut place);
        self.next = Round(place[0]);
        self.owned = place[1];
        outcome(answer).map(Owner::told)
    }
}
