//! The refusals, and an answer of the library taken apart.

use std::fmt;

/// Why a call was refused. The numbers are those of documents 01 and 02.
#[derive(Clone, Copy, Debug, PartialEq, Eq, Hash)]
#[repr(u8)]
pub enum Refusal {
    /// Line above 63.
    LineAbove63 = 1,
    /// Period above 4,095 or, in open, trial and reason, 0.
    PeriodOutOfRange = 2,
    /// Open or trial of a line that is open.
    LineOpen = 3,
    /// Close, show or turns of a line that is not open.
    LineNotOpen = 4,
    /// The plan is not empty and no node is a candidate.
    NoCandidate = 5,
    /// Kind above 1, a set bit among the last 4, or a close whose period is not 0.
    NoOrder = 6,
    /// List length not a multiple of 3, or above 65,535.
    ListLength = 7,
    /// Answer buffer shorter than 2 bytes per order, or buffer shorter than the image.
    BufferTooShort = 8,
    /// Walker with either number at 2^64 - 1.
    WalkerAtEnd = 9,
    /// No node has this level and offset.
    NoNode = 10,
    /// The node's step divides the period, and the class is not below d.
    NoClass = 11,
    /// No line stands under an edge of the class.
    NoLineInClass = 12,
    /// Image of which bits are missing, or with bytes after the last one.
    ImageLength = 13,
    /// Image with a field out of range, a 1 among the bits that fill its last byte, or a tree that is not legal.
    ImageField = 14,
    /// Weaving of two plans in which the same line is open.
    OpenInBoth = 15,
    /// Weaving of a plan with a line whose doubled period is above 4,095.
    DoubledPeriodOutOfRange = 16,
}

impl Refusal {
    /// Every refusal, in rising number.
    pub const ALL: [Refusal; 16] = [
        Refusal::LineAbove63,
        Refusal::PeriodOutOfRange,
        Refusal::LineOpen,
        Refusal::LineNotOpen,
        Refusal::NoCandidate,
        Refusal::NoOrder,
        Refusal::ListLength,
        Refusal::BufferTooShort,
        Refusal::WalkerAtEnd,
        Refusal::NoNode,
        Refusal::NoClass,
        Refusal::NoLineInClass,
        Refusal::ImageLength,
        Refusal::ImageField,
        Refusal::OpenInBoth,
        Refusal::DoubledPeriodOutOfRange,
    ];

    /// The refusal with this number, 1 to 16.
    pub fn numbered(number: u8) -> Option<Refusal> {
        Refusal::ALL
            .into_iter()
            .find(|refusal| refusal.number() == number)
    }

    /// The number that it has in document 01 or 02.
    pub fn number(self) -> u8 {
        self as u8
    }

    /// What it means, in the words of `include/gaplinte.h`.
    pub fn text(self) -> &'static str {
        match self {
            Refusal::LineAbove63 => "the line is above 63",
            Refusal::PeriodOutOfRange => "the period is not 1 to 4095",
            Refusal::LineOpen => "the line is open already",
            Refusal::LineNotOpen => "the line is not open",
            Refusal::NoCandidate => "no node of the plan is a candidate for the period",
            Refusal::NoOrder => {
                "no order: the kind is above 1, a close has a period, or one of the last four bits is 1"
            }
            Refusal::ListLength => "the list is longer than 65535 bytes or ends inside an order",
            Refusal::BufferTooShort => "the buffer is too short for the answers or the image",
            Refusal::WalkerAtEnd => "the walker's next round or count is 2^64 - 1",
            Refusal::NoNode => "no node has this level and offset",
            Refusal::NoClass => "the node has no such class for the period",
            Refusal::NoLineInClass => "no line stands in the class",
            Refusal::ImageLength => "bits of the image are missing, or bytes follow its last one",
            Refusal::ImageField => {
                "no image: a field is out of range, a bit that fills the last byte is 1, or the tree is not legal"
            }
            Refusal::OpenInBoth => "a line is open in both plans",
            Refusal::DoubledPeriodOutOfRange => "a doubled period is above 4095",
        }
    }
}

/// A sentence with the number, such as "refused with 4: the line is not open".
impl fmt::Display for Refusal {
    fn fmt(&self, f: &mut fmt::Formatter<'_>) -> fmt::Result {
        write!(f, "refused with {}: {}", self.number(), self.text())
    }
}

impl std::error::Error for Refusal {}

/// What an answer of the library tells: a value, or a refusal.
pub(crate) fn outcome(answer: i64) -> Result<u64, Refusal> {
    u64::try_from(answer).map_err(|_| {
        let number = u8::try_from(answer.unsigned_abs()).ok();
        let refusal = number.and_then(Refusal::numbered);
        refusal.expect("the library refuses with no other number")
    })
}
