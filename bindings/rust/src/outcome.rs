use crate::output;
use std::fmt;

/// What came of a step.
#[derive(Clone, Copy, Debug, PartialEq, Eq, Hash)]
pub enum Outcome {
    /// Nothing was done, and no byte changed, in memory or output.
    Refused(Refusal),
    /// The step was taken: a begin, a give, a commit with a participant, a loss that aborts nothing, a change of the servers.
    Done,
    /// An object came to the client; the operation still waits.
    Fetched(Fetched),
    /// The waiting operation's answer.
    Answered(Answer),
    /// This server has prepared, and others are still due.
    Prepared(u64),
    /// The last prepare: the transaction is decided, and will be applied whatever happens.
    Decided,
    /// This server has applied, and others are still due.
    Applied(u64),
    /// The transaction has ended, decided and applied everywhere.
    Committed,
    /// The transaction has ended and changed nothing.
    Aborted(Reason),
}

/// What a work step fetched.
#[derive(Clone, Copy, Debug, PartialEq, Eq, Hash)]
pub enum Fetched {
    Metadata,
    /// The node of this name.
    Node(u64),
    /// The vector of taken flags of this server.
    Vector(u64),
}

/// An answer's two numbers; [`crate::Operation`] says what they are.
#[derive(Clone, Copy, Debug, PartialEq, Eq, Hash)]
pub struct Answer {
    pub a: u64,
    pub b: u64,
}

impl Answer {
    /// b, if a is 1.
    pub fn found(self) -> Option<u64> {
        (self.a == 1).then_some(self.b)
    }

    /// The pairs of a list's answer, from the output that was lent to the step that gave it.
    pub fn pairs(self, output: &[u8]) -> impl Iterator<Item = (u64, u64)> + '_ {
        let count = usize::try_from(self.a).unwrap_or(usize::MAX);
        output::pairs(output).take(count)
    }
}

/// Why a step is refused: the first that holds, in the order 1 to 6, 11, 7, 13 to 15, 8, 9, 12, 10.
#[derive(Clone, Copy, Debug, PartialEq, Eq, Hash)]
pub enum Refusal {
    /// 1: the lent memory is shorter than 64 bytes.
    NoHead,
    /// 2: a size, given or in the head, is outside its range.
    Sizes,
    /// 3: the memory is shorter than the sizes call for.
    TooShort,
    /// 4: the kind is above 10.
    UnknownKind,
    /// 5: the client is not in the store. A change of the servers has none.
    UnknownClient,
    /// 6: a given operation is not 1 to 7.
    UnknownOperation,
    /// 7: the server of a migrate, a prepare, an apply or a change of the servers is above 7.
    UnknownServer,
    /// 8: a migrated node's name has a server above 7 or a slot that is not there.
    UnknownNode,
    /// 9: the client's state doesn't fit; or the servers would change while a transaction is prepared at one of them, or decided and not ended.
    Unfit,
    /// 10: something stored that the step reads is out of range, or points to something that isn't there.
    Damaged,
    /// 11: the count of a given list is not 1 to 32.
    Count,
    /// 12: a list waits, and the output lent is shorter than 16 times its count.
    ShortOutput,
    /// 13: the state of the server that would change doesn't fit, or the last open one would close.
    UnfitServer,
    /// 14: the server that would be removed has a slot that is taken.
    SlotTaken,
    /// 15: the servers would change, and the metadata's version is 4,294,967,295.
    LastMetadata,
}

/// Why a transaction aborted.
#[derive(Clone, Copy, Debug, PartialEq, Eq, Hash)]
pub enum Reason {
    /// 1: a checked object differs, or a slot taken as free isn't, or the server that is asked is absent.
    Differs,
    /// 2: an object is locked against this use by another client.
    Busy,
    /// 3: what was read can't be one tree.
    NoTree,
    /// 4: object 97 would be read, or object 49 written.
    TooMany,
    /// 5: no slot is free, or a node would move to a server that isn't open.
    NoSlot,
    /// 6: given up.
    GivenUp,
    /// 7: lost, and undecided.
    Lost,
    /// 8: a written version is 4,294,967,295.
    LastVersion,
}

const REFUSALS: [Refusal; 15] = [
    Refusal::NoHead,
    Refusal::Sizes,
    Refusal::TooShort,
    Refusal::UnknownKind,
    Refusal::UnknownClient,
    Refusal::UnknownOperation,
    Refusal::UnknownServer,
    Refusal::UnknownNode,
    Refusal::Unfit,
    Refusal::Damaged,
    Refusal::Count,
    Refusal::ShortOutput,
    Refusal::UnfitServer,
    Refusal::SlotTaken,
    Refusal::LastMetadata,
];

const REASONS: [Reason; 8] = [
    Reason::Differs,
    Reason::Busy,
    Reason::NoTree,
    Reason::TooMany,
    Reason::NoSlot,
    Reason::GivenUp,
    Reason::Lost,
    Reason::LastVersion,
];

impl Refusal {
    /// The number, 1 to 15.
    pub fn number(self) -> u64 {
        self as u64 + 1
    }

    pub(crate) fn of(number: u64) -> Refusal {
        REFUSALS[number as usize - 1]
    }
}

impl Reason {
    /// The number, 1 to 8.
    pub fn number(self) -> u64 {
        self as u64 + 1
    }

    /// Whether the same transaction may pass when it is run again: what was read was old or just in use. An abort drops the old copies.
    pub fn may_pass_later(self) -> bool {
        matches!(self, Reason::Differs | Reason::Busy | Reason::NoTree)
    }

    fn of(number: u64) -> Reason {
        REASONS[number as usize - 1]
    }
}

impl Outcome {
    /// The outcome of three numbers as the library gives them.
    #[inline]
    pub(crate) fn of([outcome, a, b]: [u64; 3]) -> Outcome {
        match outcome {
            0 => Outcome::Refused(Refusal::of(a)),
            1 => Outcome::Done,
            2 => Outcome::Fetched(Fetched::of(a, b)),
            3 => Outcome::Answered(Answer { a, b }),
            4 => Outcome::Prepared(a),
            5 => Outcome::Decided,
            6 => Outcome::Applied(a),
            7 => Outcome::Committed,
            8 => Outcome::Aborted(Reason::of(a)),
            _ => unreachable!("the library has outcomes 0 to 8"),
        }
    }

    /// The three numbers: the outcome's own, a and b.
    pub fn numbers(self) -> [u64; 3] {
        match self {
            Outcome::Refused(refusal) => [0, refusal.number(), 0],
            Outcome::Done => [1, 0, 0],
            Outcome::Fetched(Fetched::Metadata) => [2, 0, 0],
            Outcome::Fetched(Fetched::Node(name)) => [2, 1, name],
            Outcome::Fetched(Fetched::Vector(server)) => [2, 2, server],
            Outcome::Answered(Answer { a, b }) => [3, a, b],
            Outcome::Prepared(server) => [4, server, 0],
            Outcome::Decided => [5, 0, 0],
            Outcome::Applied(server) => [6, server, 0],
            Outcome::Committed => [7, 0, 0],
            Outcome::Aborted(reason) => [8, reason.number(), 0],
        }
    }
}

impl Fetched {
    fn of(a: u64, b: u64) -> Fetched {
        match a {
            0 => Fetched::Metadata,
            1 => Fetched::Node(b),
            _ => Fetched::Vector(b),
        }
    }
}

impl fmt::Display for Refusal {
    fn fmt(&self, f: &mut fmt::Formatter) -> fmt::Result {
        let words = match self {
            Refusal::NoHead => "the memory is shorter than 64 bytes",
            Refusal::Sizes => "a size is outside its range",
            Refusal::TooShort => "the memory is shorter than the sizes call for",
            Refusal::UnknownKind => "the kind is above 10",
            Refusal::UnknownClient => "the client is not in the store",
            Refusal::UnknownOperation => "the operation is not 1 to 7",
            Refusal::UnknownServer => "the server is above 7",
            Refusal::UnknownNode => "the node's name is not in the store",
            Refusal::Unfit => "the state of a client's transaction doesn't fit",
            Refusal::Damaged => "something stored is out of range",
            Refusal::Count => "the count of a list is not 1 to 32",
            Refusal::ShortOutput => "the output is too short for the list that waits",
            Refusal::UnfitServer => "the server's state doesn't fit, or none would be open",
            Refusal::SlotTaken => "the server has a slot that is taken",
            Refusal::LastMetadata => "the metadata's version has come to its end",
        };
        write!(f, "refused by {}: {words}", self.number())
    }
}

impl std::error::Error for Refusal {}

impl fmt::Display for Reason {
    fn fmt(&self, f: &mut fmt::Formatter) -> fmt::Result {
        let words = match self {
            Reason::Differs => "an object read has changed, or a server is absent",
            Reason::Busy => "an object is locked by another client",
            Reason::NoTree => "what was read can't be one tree",
            Reason::TooMany => "more than 96 objects read or 48 written",
            Reason::NoSlot => "no slot is free, or the server is not open",
            Reason::GivenUp => "given up",
            Reason::Lost => "the client was lost",
            Reason::LastVersion => "a version has come to its end",
        };
        write!(f, "aborted by {}: {words}", self.number())
    }
}
