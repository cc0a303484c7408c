//! Document 01, section The walker.

use crate::ask::{owner, Owner};
use crate::refusal::Refusal;
use crate::tree::Plan;

/// The caller's record (The walker, 1).
#[derive(Clone, Copy, Debug, PartialEq, Eq)]
pub struct Place {
    pub next: u64,
    pub owned: u64,
}

/// The owner of the round, with the rest of an idle one (Ask 4, 4).
pub type Answer = Result<Owner, Refusal>;

/// The walker by value: the answer, and the place after the call (The walker, 2), as found
/// where it is refused (Refusals, first sentence).
pub fn walk(plan: &Plan, place: Place) -> (Answer, Place) {
    if place.next == u64::MAX || place.owned == u64::MAX {
        return (Err(Refusal::Place), place);
    }
    let answer = owner(plan, place.next);
    let after = Place {
        next: place.next + 1,
        owned: place.owned + u64::from(answer.line().is_some()),
    };
    (Ok(answer), after)
}

/// The walker on a place that is lent: the call moves it on itself, and leaves it where it
/// is refused.
pub fn walk_lent(plan: &Plan, place: &mut Place) -> Answer {
    let next = place.next.checked_add(1).ok_or(Refusal::Place)?;
    let one_more = place.owned.checked_add(1).ok_or(Refusal::Place)?;
    let answer = owner(plan, place.next);
    place.next = next;
    if let Owner::Line(_) = answer {
        place.owned = one_more;
    }
    Ok(answer)
}

#[cfg(test)]
mod tests {
    use super::*;

    /// (Marked cases, E): one round of two is owned, the other is right before it.
    #[test]
    fn counts_owned_rounds_only() {
        let mut plan = Plan::empty();
        plan.open(7, 2).unwrap();
        let mut place = Place { next: 0, owned: 0 };
        let mut lent = place;
        let idle = Owner::Idle { rest: 1 };
        for answer in [Owner::Line(7), idle, Owner::Line(7), idle] {
            let (by_value, after) = walk(&plan, place);
            assert_eq!(by_value, Ok(answer));
            assert_eq!(walk_lent(&plan, &mut lent), Ok(answer));
            place = after;
        }
        assert_eq!(place, Place { next: 4, owned: 2 });
        assert_eq!(lent, place);
    }

    #[test]
    fn counts_up_to_the_largest_number() {
        let mut plan = Plan::empty();
        plan.open(7, 1).unwrap();
        let most = u64::MAX;
        let mut lent = Place {
            next: most - 1,
            owned: most - 1,
        };
        let last = Place {
            next: most,
            owned: most,
        };
        assert_eq!(walk(&plan, lent), (Ok(Owner::Line(7)), last));
        assert_eq!(walk_lent(&plan, &mut lent), Ok(Owner::Line(7)));
        assert_eq!(lent, last);
    }

    /// 2^64 − 2 leaves 14 when divided by 4,095, so that the next owned round is past 2^64.
    #[test]
    fn both_forms_hand_the_rest_on() {
        let mut longest = Plan::empty();
        longest.open(7, 4_095).unwrap();
        for (plan, next, rest) in [
            (&longest, 1, 4_094),
            (&longest, 4_094, 1),
            (&longest, u64::MAX - 1, 4_081),
            (&Plan::empty(), 0, 0),
            (&Plan::empty(), u64::MAX - 1, 0),
        ] {
            let mut lent = Place { next, owned: 9 };
            let (by_value, after) = walk(plan, lent);
            assert_eq!(by_value, Ok(Owner::Idle { rest }));
            assert_eq!(walk_lent(plan, &mut lent), by_value);
            let next = next + 1;
            assert_eq!([after, lent], [Place { next, owned: 9 }; 2]);
        }
    }

    #[test]
    fn refuses_where_either_number_is_the_largest() {
        for (next, owned) in [(u64::MAX, 0), (0, u64::MAX), (u64::MAX, u64::MAX)] {
            let place = Place { next, owned };
            let mut lent = place;
            assert_eq!(walk(&Plan::empty(), place), (Err(Refusal::Place), place));
            assert_eq!(walk_lent(&Plan::empty(), &mut lent), Err(Refusal::Place));
            assert_eq!(lent, place);
        }
    }
}
