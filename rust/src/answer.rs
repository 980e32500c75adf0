//! What calls answer, whichever engine runs them.

use std::fmt;

/// Why a call turns back. The discriminant is the number of the refusal.
#[derive(Clone, Copy, Debug, PartialEq, Eq)]
#[repr(u8)]
pub enum Reason {
    TableTooLong = 1,
    Cut = 2,
    Misplaced = 3,
    OperandRange = 4,
    NamedAgain = 5,
    MoveCount = 6,
    Circle = 7,
    StateLength = 8,
    StateRange = 9,
    NoSuchBlock = 10,
    ConditionsFail = 11,
    ResultRange = 12,
    OutputShort = 13,
    MemoryShort = 14,
    ValueRange = 15,
    IdleMove = 16,
    /// A head beyond the rig's limits.
    BeyondRig = 17,
    /// A window or duration of a closure day out of order or range.
    ClosureRange = 18,
    /// The entries of a closure day have no placement.
    NoPlacement = 19,
}

impl Reason {
    pub const ALL: [Reason; 19] = [
        Reason::TableTooLong,
        Reason::Cut,
        Reason::Misplaced,
        Reason::OperandRange,
        Reason::NamedAgain,
        Reason::MoveCount,
        Reason::Circle,
        Reason::StateLength,
        Reason::StateRange,
        Reason::NoSuchBlock,
        Reason::ConditionsFail,
        Reason::ResultRange,
        Reason::OutputShort,
        Reason::MemoryShort,
        Reason::ValueRange,
        Reason::IdleMove,
        Reason::BeyondRig,
        Reason::ClosureRange,
        Reason::NoPlacement,
    ];

    pub fn number(self) -> u8 {
        self as u8
    }

    pub fn from_number(number: u8) -> Option<Reason> {
        Self::ALL.into_iter().find(|r| r.number() == number)
    }

    /// The refusal for this reason at a place.
    pub fn at(self, place: usize) -> Refusal {
        Refusal {
            reason: self,
            place: place as u64,
        }
    }
}

/// A call turned back: a number and a place.
#[derive(Clone, Copy, Debug, PartialEq, Eq)]
pub struct Refusal {
    pub reason: Reason,
    pub place: u64,
}

impl fmt::Display for Refusal {
    fn fmt(&self, f: &mut fmt::Formatter<'_>) -> fmt::Result {
        write!(f, "refusal {} place {}", self.reason.number(), self.place)
    }
}

impl std::error::Error for Refusal {}

/// What `read` answers: the head's kind byte and its three counts.
#[derive(Clone, Copy, Debug, PartialEq, Eq)]
pub struct Head {
    pub kind: u8,
    pub p: u8,
    pub v_or_n: u8,
    pub a: u8,
}

/// The answer shared by `decide` and `plan`.
#[derive(Clone, Copy, Debug, PartialEq, Eq)]
pub enum Answer {
    Layer(u64),
    NoPlan,
}

impl fmt::Display for Answer {
    fn fmt(&self, f: &mut fmt::Formatter<'_>) -> fmt::Result {
        match self {
            Answer::Layer(m) => write!(f, "plan layer {m}"),
            Answer::NoPlan => write!(f, "no plan"),
        }
    }
}

/// What `decide` answers, with the number of the last stored layer.
#[derive(Clone, Copy, Debug, PartialEq, Eq)]
pub struct Decision {
    pub answer: Answer,
    pub layers: u64,
}

impl Decision {
    /// The answer of `plan` with this decision.
    pub fn with_plan(self, records: u64, first: u64) -> Plan {
        Plan {
            answer: self.answer,
            layers: self.layers,
            records,
            first,
        }
    }
}

impl fmt::Display for Decision {
    fn fmt(&self, f: &mut fmt::Formatter<'_>) -> fmt::Result {
        write!(f, "{} layers {}", self.answer, self.layers)
    }
}

/// A set of moves with a bit for each.
pub fn bits(moves: impl IntoIterator<Item = u64>) -> u64 {
    moves.into_iter().fold(0, |set, mv| set | 1 << mv)
}

/// What `plan` answers; bit b of `first` is set if move b is helpful: usable in layer 0, and it brings
/// about something wanted at layer 1 that layer 0 does not have.
#[derive(Clone, Copy, Debug, PartialEq, Eq)]
pub struct Plan {
    pub answer: Answer,
    pub layers: u64,
    pub records: u64,
    pub first: u64,
}

impl Plan {
    /// What `decide` answers beside it.
    pub fn decision(self) -> Decision {
        Decision {
            answer: self.answer,
            layers: self.layers,
        }
    }

    /// Its helpful moves, rising.
    pub fn helpful(self) -> impl Iterator<Item = u64> {
        (0..64).filter(move |mv| self.first >> mv & 1 == 1)
    }

    /// The moves and counts of its records, from the bytes that the call wrote.
    ///
    /// # Panics
    /// If a record does not begin with 52.
    pub fn list(self, out: &[u8]) -> impl Iterator<Item = (u64, u64)> + '_ {
        let records = out.chunks_exact(10).take(self.records as usize);
        records.map(|record| {
            assert_eq!(record[0], 0x52, "a record begins with 52");
            let count = record[2..].try_into().expect("a count has eight bytes");
            (u64::from(record[1]), u64::from_be_bytes(count))
        })
    }
}

impl fmt::Display for Plan {
    fn fmt(&self, f: &mut fmt::Formatter<'_>) -> fmt::Result {
        write!(
            f,
            "{} layers {} records {} first {}",
            self.answer, self.layers, self.records, self.first
        )
    }
}

/// What `blocking` answers.
#[derive(Clone, Copy, Debug, PartialEq, Eq)]
pub enum Blocking {
    /// The offset, in the normal table, of the first 50 or 43 of the goal that the last layer does
    /// not meet.
    Blocks {
        offset: u64,
    },
    Nothing,
}

impl fmt::Display for Blocking {
    fn fmt(&self, f: &mut fmt::Formatter<'_>) -> fmt::Result {
        match self {
            Blocking::Blocks { offset } => write!(f, "blocks {offset}"),
            Blocking::Nothing => write!(f, "nothing"),
        }
    }
}

/// What `place` answers.
#[derive(Clone, Copy, Debug, PartialEq, Eq)]
pub struct Placed {
    /// The minute at which the last entry ends, 0 if there is none.
    pub end: u64,
    /// Bytes of starts written.
    pub length: usize,
}

impl fmt::Display for Placed {
    fn fmt(&self, f: &mut fmt::Formatter<'_>) -> fmt::Result {
        write!(f, "end {} length {}", self.end, self.length)
    }
}

/// Why an entry of a list cannot be made: the refusal that `step` has for it in the state before it.
#[derive(Clone, Copy, Debug, PartialEq, Eq)]
#[repr(u8)]
pub enum Fault {
    /// The table has no such move.
    Missing = 10,
    /// The move's conditions fail.
    NotAllowed = 11,
    /// A value of the state after it is beyond ±1,000,000.
    OutOfRange = 12,
}

impl Fault {
    pub const ALL: [Fault; 3] = [Fault::Missing, Fault::NotAllowed, Fault::OutOfRange];

    pub fn number(self) -> u8 {
        self as u8
    }

    pub fn from_number(number: u8) -> Option<Fault> {
        Self::ALL.into_iter().find(|f| f.number() == number)
    }
}

/// What `check` answers.
#[derive(Clone, Copy, Debug, PartialEq, Eq)]
pub enum Checked {
    /// Yes, with the length of the end state, which is written.
    Yes {
        length: usize,
    },
    /// The first entry that cannot be made, counted from 0.
    Fails {
        index: u64,
        fault: Fault,
    },
    GoalNotMet,
}

impl fmt::Display for Checked {
    /// As the outcome files say it: an index without its fault.
    fn fmt(&self, f: &mut fmt::Formatter<'_>) -> fmt::Result {
        match self {
            Checked::Yes { length } => write!(f, "yes {length}"),
            Checked::Fails { index, .. } => write!(f, "index {index}"),
            Checked::GoalNotMet => write!(f, "goal not met"),
        }
    }
}

/// What `campaign` answers: the answers of `decide` and of `plan`, or both times the refusal of
/// `normalise`.
#[derive(Clone, Copy, Debug, PartialEq, Eq)]
pub struct Campaign {
    pub decision: Result<Decision, Refusal>,
    pub plan: Result<Plan, Refusal>,
}

impl Campaign {
    pub fn refused(refusal: Refusal) -> Campaign {
        Campaign {
            decision: Err(refusal),
            plan: Err(refusal),
        }
    }
}

#[cfg(test)]
mod tests {
    use super::*;

    #[test]
    fn reasons_are_numbered_from_1_to_19() {
        let numbers: Vec<u8> = Reason::ALL.iter().map(|r| r.number()).collect();
        assert_eq!(numbers, (1..=19).collect::<Vec<u8>>());
        assert_eq!(Reason::from_number(14), Some(Reason::MemoryShort));
        assert_eq!(Reason::from_number(0), None);
        assert_eq!(Reason::from_number(20), None);
    }

    #[test]
    fn a_set_has_a_bit_for_each_move() {
        let moves = [0, 3, 31, 32, 63];
        let first = 0x8000_0001_8000_0009;
        assert_eq!(bits(moves), first);
        let decision = Decision {
            answer: Answer::Layer(1),
            layers: 1,
        };
        let helpful = decision.with_plan(1, first).helpful();
        assert_eq!(helpful.collect::<Vec<u64>>(), moves);
        assert_eq!(bits([]), 0);
    }
}
