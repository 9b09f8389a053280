//! Why the reader refuses: which rule of 21 is broken, so that tests can say that each was.

use crate::answer::Refusal;

/// A rule of 21.
#[derive(Clone, Copy, Debug, PartialEq, Eq, PartialOrd, Ord, Hash)]
pub enum Broken {
    /// CNT has not 52 bytes.
    CntLength,
    /// IDTYPE is not the tree's own number.
    Idtype,
    /// ORDN or ORDF is not 1 to 16.
    Order,
    /// A record met is not there.
    NotThere,
    /// POS is not the record's position.
    Position,
    /// OCK is not 1 to twice the order.
    KeyCount,
    /// IT is not the tree's own number.
    Type,
    /// PUNT 0 among a node's active entries.
    ZeroPointer,
    /// More than 16 nodes on one way down.
    TooDeep,
    /// The check meets a leaf twice.
    LeafTwice,
    /// Keys do not ascend strictly in a node.
    NodeKeys,
    /// Keys do not ascend strictly along the leaves.
    LeafKeys,
    /// A pointer's key is not its target's first.
    PointerKey,
    /// A leaf's successor is not the leaf met next.
    Successor,
    /// The last leaf's successor is not 0.
    LastSuccessor,
}

impl Broken {
    /// The rules that a lookup asks, and the check as well.
    pub const OF_BOTH: [Broken; 9] = [
        Broken::CntLength,
        Broken::Idtype,
        Broken::Order,
        Broken::NotThere,
        Broken::Position,
        Broken::KeyCount,
        Broken::Type,
        Broken::ZeroPointer,
        Broken::TooDeep,
    ];

    /// The rules that only the check asks.
    pub const OF_CHECK: [Broken; 6] = [
        Broken::LeafTwice,
        Broken::NodeKeys,
        Broken::LeafKeys,
        Broken::PointerKey,
        Broken::Successor,
        Broken::LastSuccessor,
    ];
}

/// Why a call is refused.
#[derive(Clone, Copy, Debug, PartialEq, Eq, PartialOrd, Ord, Hash)]
pub enum Why {
    /// 20: the term is bad.
    BadTerm,
    /// 21: a rule is broken.
    Broken(Broken),
    /// 22: the term is below every key of a node met.
    Below,
    /// 22: the leaf does not hold the term.
    Absent,
}

impl From<Broken> for Why {
    fn from(rule: Broken) -> Why {
        Why::Broken(rule)
    }
}

impl From<Why> for Refusal {
    fn from(why: Why) -> Refusal {
        match why {
            Why::BadTerm => Refusal::Term,
            Why::Broken(_) => Refusal::Index,
            Why::Below | Why::Absent => Refusal::NoTerm,
        }
    }
}
