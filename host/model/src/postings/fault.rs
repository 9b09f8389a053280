//! Why the reader refuses: which rule of 23 is broken, so that tests can say that each was.

use crate::answer::Refusal;

/// A rule of 23 on a list.
#[derive(Clone, Copy, Debug, PartialEq, Eq, PartialOrd, Ord, Hash)]
pub enum Broken {
    /// A header is not whole in one block of the file, with a posting's room behind it.
    HeaderOutside,
    /// The first segment's total is below 0.
    NegativeTotal,
    /// A segment's count is below 0.
    NegativeCount,
    /// A segment's capacity is below 0.
    NegativeCapacity,
    /// A segment's count is past its capacity.
    PastCapacity,
    /// A posting that is counted is not in the file.
    PostingOutside,
    /// A segment comes twice in a list.
    SegmentTwice,
    /// Postings do not ascend strictly.
    NotAscending,
    /// The first segment's total is not the segments' sum.
    Total,
}

impl Broken {
    /// All of them.
    pub const ALL: [Broken; 9] = [
        Broken::HeaderOutside,
        Broken::NegativeTotal,
        Broken::NegativeCount,
        Broken::NegativeCapacity,
        Broken::PastCapacity,
        Broken::PostingOutside,
        Broken::SegmentTwice,
        Broken::NotAscending,
        Broken::Total,
    ];
}

/// Why a call on lists is refused.
#[derive(Clone, Copy, Debug, PartialEq, Eq, PartialOrd, Ord, Hash)]
pub enum Why {
    /// 23: a rule is broken.
    Broken(Broken),
    /// 17: there are more items than the output has room for.
    NoRoom,
}

impl From<Broken> for Why {
    fn from(rule: Broken) -> Why {
        Why::Broken(rule)
    }
}

impl From<Why> for Refusal {
    fn from(why: Why) -> Refusal {
        match why {
            Why::Broken(_) => Refusal::Postings,
            Why::NoRoom => Refusal::NoRoomInList,
        }
    }
}
