//! The refusal numbers of document 01, section Who brings a refusal about, and those that
//! document 02 adds to them, from 10 on.

/// All that a refused call answers (Refusals, first sentence).
#[derive(Clone, Copy, Debug, PartialEq, Eq)]
pub enum Refusal {
    /// No such line (Refusals, 1).
    Line = 1,
    /// Period out of range; packing lets 0 pass (Refusals, 2). Given by reason too (Ask 7, 4).
    Period = 2,
    /// Given by open and trial only (Refusals, 3).
    LineOpen = 3,
    /// The call needs an open line (Refusals, 4).
    LineNotOpen = 4,
    /// Never on the empty plan (Refusals, 5).
    NoCandidate = 5,
    /// Malformed order (Refusals, 6).
    Order = 6,
    /// List cut off inside an order, or too long (Refusals, 7).
    ListLength = 7,
    /// The answers do not fit (Refusals, 8), or an image does not (Ask 9, 10).
    AnswerBuffer = 8,
    /// The walker cannot move on (Refusals, 9).
    Place = 9,
    /// No node has that level and offset (Ask 7, 4).
    NoNode = 10,
    /// The node has fewer classes (Ask 7, 4).
    NoClass = 11,
    /// No line stands in the class (Ask 7, 4).
    NoLine = 12,
    /// An image has too few bits or too many bytes (Ask 9, 7).
    ImageLength = 13,
    /// A number that its field of an image cannot have, a fill bit that is 1, or a tree that is not
    /// legal (Ask 9, 7).
    ImageField = 14,
    /// Two plans that are to be woven have a line in common (Ask 10, 6).
    OpenInBoth = 15,
    /// A period is too long to be doubled (Ask 10, 6).
    DoubledPeriod = 16,
}

impl Refusal {
    pub fn number(self) -> u8 {
        self as u8
    }
}

#[cfg(test)]
mod tests {
    use super::Refusal::*;

    #[test]
    fn numbers_are_those_of_the_documents() {
        let all = [
            Line,
            Period,
            LineOpen,
            LineNotOpen,
            NoCandidate,
            Order,
            ListLength,
            AnswerBuffer,
            Place,
            NoNode,
            NoClass,
            NoLine,
            ImageLength,
            ImageField,
            OpenInBoth,
            DoubledPeriod,
        ];
        let numbers: Vec<u8> = all.iter().map(|refusal| refusal.number()).collect();
        assert_eq!(numbers, Vec::from_iter(1..=16));
    }
}
