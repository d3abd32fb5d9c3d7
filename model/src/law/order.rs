//! One serial order of all committed transactions.

use super::{Record, Transaction, Values, Violation};
use crate::limits::VARIABLES;

/// Up to so many committed transactions all orders are tried.
const TRIED_UP_TO: usize = 7;

/// Whether there is a serial order, found by construction, and for few transactions also by
/// trying all. Answers whether all were tried.
pub fn check(record: &Record, end: &Values) -> Result<bool, Violation> {
    let committed: Vec<&Transaction> = record.committed().collect();
    let constructed = construct(record, &committed).is_some_and(|order| is_serial(&order, end));
    let tried = committed.len() <= TRIED_UP_TO;
    let exists = if tried { try_all(&committed, end) } else { constructed };
    match (constructed, exists) {
        (true, true) => Ok(tried),
        (false, false) => Err(Violation::NoSerialOrder),
        _ => Err(Violation::OrdersDisagree { constructed }),
    }
}

/// One that wrote stands at its commit, any other just behind the last commit before a moment at
/// which all that it read stood.
fn construct<'a>(record: &Record, committed: &[&'a Transaction]) -> Option<Vec<&'a Transaction>> {
    let place = |it: &Transaction| {
        if it.wrote() { Some((it.last, 0)) } else { Some((record.moment(it)?, 1)) }
    };
    let placed: Option<Vec<_>> = committed.iter().map(|&it| Some((place(it)?, it))).collect();
    let mut placed = placed?;
    placed.sort_by_key(|&(place, _)| place);
    Some(placed.into_iter().map(|(_, it)| it).collect())
}

/// Whether the order respects real time and gives every value answered and the values at the end.
fn is_serial(order: &[&Transaction], end: &Values) -> bool {
    let mut values = [0; VARIABLES];
    respects_time(order) && order.iter().all(|it| it.run_alone(&mut values)) && values == *end
}

/// Whether none stands behind one that began after its end.
fn respects_time(order: &[&Transaction]) -> bool {
    let mut earliest_end = usize::MAX;
    order.iter().rev().all(|it| {
        earliest_end = earliest_end.min(it.last);
        it.first <= earliest_end
    })
}

fn try_all(committed: &[&Transaction], end: &Values) -> bool {
    let mut left = committed.to_vec();
    try_next(&mut left, &[0; VARIABLES], end)
}

/// Tries each of those left as the next, and then all orders of the others.
fn try_next(left: &mut Vec<&Transaction>, values: &Values, end: &Values) -> bool {
    if left.is_empty() {
        return values == end;
    }
    (0..left.len()).any(|place| {
        let next = left.swap_remove(place);
        let mut values = *values;
        let fits = left.iter().all(|other| other.last >= next.first)
            && next.run_alone(&mut values)
            && try_next(left, &values, end);
        left.push(next);
        let last = left.len() - 1;
        left.swap(place, last);
        fits
    })
}
