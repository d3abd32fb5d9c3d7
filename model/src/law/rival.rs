//! A rival for each refusal by the policy.

use super::{Outcome, Record, Transaction, Violation};

pub fn check(record: &Record) -> Result<(), Violation> {
    match record.refused().find(|refused| !has_rival(record, refused)) {
        Some(refused) => Err(Violation::NoRival { call: refused.last }),
        None => Ok(()),
    }
}

fn has_rival(record: &Record, refused: &Transaction) -> bool {
    let mut disputed = refused.reads();
    if let Outcome::Refused(Some(asked)) = refused.outcome {
        disputed.add(asked);
    }
    record.transactions().iter().any(|other| {
        other.task != refused.task
            && other.is_open_during(refused.first, refused.last)
            && other
                .accesses
                .iter()
                .take_while(|access| access.call < refused.last)
                .any(|access| disputed.has(access.variable))
    })
}
