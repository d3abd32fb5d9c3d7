//! Checks a history of calls and answers against the three promises: one serial order of the
//! committed transactions, one moment for every transaction, a rival for each refusal by the policy.
//!
//! It looks at calls and answers only, and knows no policy.

mod moment;
mod order;
mod record;
mod rival;

pub use record::{Access, Outcome, Record, Touch, Transaction};

use crate::limits::VARIABLES;
use std::fmt;

/// The value of each variable.
pub type Values = [i32; VARIABLES];

#[derive(Clone, PartialEq, Eq, Debug)]
pub enum Action {
    Begin,
    Read(u8),
    Write(u8, i32),
    Collect(Vec<u8>),
    Snapshot(Vec<u8>),
    Commit,
    Abort,
}

#[derive(Clone, PartialEq, Eq, Debug)]
pub enum Answer {
    Done,
    Value(i32),
    Values(Vec<i32>),
    /// The refusal's number, and the place in the list at which a read was barred.
    Refused {
        number: u8,
        place: usize,
    },
}

/// A call and its answer. A call's number is its place in the history.
#[derive(Clone, PartialEq, Eq, Debug)]
pub struct Event {
    pub task: u8,
    pub action: Action,
    pub answer: Answer,
}

/// How a history breaks the law. A transaction is named by the number of its first call.
#[derive(Clone, Copy, PartialEq, Eq, Debug)]
pub enum Violation {
    /// An answer that no table gives, such as a value for a task without a transaction.
    Stray { call: usize },
    /// The committed transactions fit no serial order.
    NoSerialOrder,
    /// The order by construction and the trial of all orders don't agree that there is one.
    OrdersDisagree { constructed: bool },
    /// What the transaction was answered never stood together in its life.
    NoMoment { first: usize },
    /// The policy refused this call, and nobody is to blame.
    NoRival { call: usize },
}

impl fmt::Display for Violation {
    fn fmt(&self, form: &mut fmt::Formatter<'_>) -> fmt::Result {
        match self {
            Self::Stray { call } => write!(form, "no table answers call {call} so"),
            Self::NoSerialOrder => write!(form, "the committed transactions fit no serial order"),
            Self::OrdersDisagree { constructed: true } => {
                write!(form, "an order was constructed that the trial of all orders doesn't find")
            }
            Self::OrdersDisagree { constructed: false } => {
                write!(form, "there is a serial order, but not in the order of commits")
            }
            Self::NoMoment { first } => {
                write!(form, "what the transaction of call {first} saw never stood together")
            }
            Self::NoRival { call } => write!(form, "the refusal of call {call} has no rival"),
        }
    }
}

/// What was checked in a lawful history.
#[derive(Clone, Copy, PartialEq, Eq, Debug, Default)]
pub struct Tally {
    pub histories: usize,
    pub transactions: usize,
    pub committed: usize,
    pub refused: usize,
    /// Histories for which all orders were tried too.
    pub tried: usize,
}

impl Tally {
    pub fn add(&mut self, other: Self) {
        self.histories += other.histories;
        self.transactions += other.transactions;
        self.committed += other.committed;
        self.refused += other.refused;
        self.tried += other.tried;
    }
}

/// Checks a history. `shared` are the shared values at its end; where they aren't known, those
/// that the granted commits give are taken.
pub fn check(history: &[Event], shared: Option<&Values>) -> Result<Tally, Violation> {
    let record = Record::read_off(history)?;
    let end = shared.unwrap_or(record.end());
    let tried = order::check(&record, end)?;
    moment::check(&record)?;
    rival::check(&record)?;
    Ok(Tally {
        histories: 1,
        transactions: record.transactions().len(),
        committed: record.committed().count(),
        refused: record.refused().count(),
        tried: usize::from(tried),
    })
}

#[cfg(test)]
mod tests;
