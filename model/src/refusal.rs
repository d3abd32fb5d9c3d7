//! Every refusal of the table, and its number.

use crate::limits::Variable;

/// Why the table refused a call. A place is counted from 0 in the list of a collect or a snapshot.
#[derive(Clone, Copy, PartialEq, Eq, Debug)]
pub enum Refusal {
    NoSuchTask,
    NoSuchVariable { place: Option<usize> },
    ListLength,
    ShortBuffer,
    NotIdle,
    Idle,
    Broken,
    ReadBarred { variable: Variable, place: Option<usize> },
    WriteBarred { variable: Variable },
    CommitRefused,
}

impl Refusal {
    pub fn number(self) -> u8 {
        match self {
            Self::NoSuchTask => 1,
            Self::NoSuchVariable { .. } => 2,
            Self::ListLength => 3,
            Self::ShortBuffer => 4,
            Self::NotIdle => 10,
            Self::Idle => 11,
            Self::Broken => 12,
            Self::ReadBarred { .. } => 20,
            Self::WriteBarred { .. } => 21,
            Self::CommitRefused => 22,
        }
    }
}
