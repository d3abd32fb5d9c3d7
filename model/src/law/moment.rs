//! One moment: what a transaction was answered stood together at one call of its life.

use super::{Record, Violation};

pub fn check(record: &Record) -> Result<(), Violation> {
    match record.transactions().iter().find(|it| record.moment(it).is_none()) {
        Some(transaction) => Err(Violation::NoMoment { first: transaction.first }),
        None => Ok(()),
    }
}
