use super::*;

fn event(task: u8, action: Action, answer: Answer) -> Event {
    Event { task, action, answer }
}

fn begin(task: u8) -> Event {
    event(task, Action::Begin, Answer::Done)
}

fn read(task: u8, variable: u8, value: i32) -> Event {
    event(task, Action::Read(variable), Answer::Value(value))
}

fn write(task: u8, variable: u8, value: i32) -> Event {
    event(task, Action::Write(variable, value), Answer::Done)
}

fn commit(task: u8) -> Event {
    event(task, Action::Commit, Answer::Done)
}

fn abort(task: u8) -> Event {
    event(task, Action::Abort, Answer::Done)
}

fn collect(task: u8, list: &[u8], values: &[i32]) -> Event {
    event(task, Action::Collect(list.to_vec()), Answer::Values(values.to_vec()))
}

fn snapshot(task: u8, list: &[u8], values: &[i32]) -> Event {
    event(task, Action::Snapshot(list.to_vec()), Answer::Values(values.to_vec()))
}

fn refused(task: u8, action: Action, number: u8) -> Event {
    refused_at(task, action, number, 0)
}

fn refused_at(task: u8, action: Action, number: u8, place: usize) -> Event {
    event(task, action, Answer::Refused { number, place })
}

fn violation(history: &[Event]) -> Option<Violation> {
    check(history, None).err()
}

fn values(pairs: &[(u8, i32)]) -> Values {
    let mut values = [0; VARIABLES];
    pairs.iter().for_each(|&(variable, value)| values[usize::from(variable)] = value);
    values
}

/// Task 0 writes 7 to variable 5 and 8 to 6, and commits.
fn written() -> Vec<Event> {
    vec![begin(0), write(0, 5, 7), write(0, 6, 8), commit(0)]
}

fn followed_by(events: &[Event]) -> Vec<Event> {
    [&written(), events].concat()
}

#[test]
fn an_empty_history_is_lawful() {
    assert_eq!(check(&[], None), Ok(Tally { histories: 1, tried: 1, ..Tally::default() }));
}

#[test]
fn a_plain_history_is_lawful() {
    let history = followed_by(&[
        begin(1),
        read(1, 5, 7),
        write(1, 5, 9),
        read(1, 5, 9),
        collect(1, &[5, 6], &[9, 8]),
        commit(1),
        snapshot(2, &[6, 5], &[8, 9]),
    ]);
    let tally = check(&history, Some(&values(&[(5, 9), (6, 8)]))).unwrap();
    assert_eq!((tally.committed, tally.refused), (3, 0));
}

#[test]
fn a_reader_behind_fits_in_between() {
    let history =
        [begin(0), read(0, 5, 0), begin(1), write(1, 5, 7), commit(1), read(0, 6, 0), commit(0)];
    assert_eq!(violation(&history), None);
}

#[test]
fn a_leaked_value_has_no_order_and_no_moment() {
    let leaked = [begin(0), write(0, 5, 7), begin(1), read(1, 5, 7), abort(0)];
    assert_eq!(violation(&leaked), Some(Violation::NoMoment { first: 2 }));
    let committed = [&leaked[..], &[commit(1)]].concat();
    assert_eq!(violation(&committed), Some(Violation::NoSerialOrder));
}

#[test]
fn a_stale_read_has_no_order() {
    let history = followed_by(&[begin(1), read(1, 5, 0), commit(1)]);
    assert_eq!(violation(&history), Some(Violation::NoSerialOrder));
}

#[test]
fn a_lost_update_has_no_order() {
    let history = [
        begin(0),
        begin(1),
        read(0, 5, 0),
        read(1, 5, 0),
        write(0, 5, 1),
        write(1, 5, 1),
        commit(0),
        commit(1),
    ];
    assert_eq!(violation(&history), Some(Violation::NoSerialOrder));
}

#[test]
fn a_write_skew_has_no_order() {
    let history = [
        begin(0),
        begin(1),
        read(0, 5, 0),
        read(1, 6, 0),
        write(0, 6, 1),
        write(1, 5, 1),
        commit(0),
        commit(1),
    ];
    assert_eq!(violation(&history), Some(Violation::NoSerialOrder));
}

#[test]
fn a_commit_that_shares_nothing_has_no_order() {
    let zeros = [0; VARIABLES];
    assert_eq!(check(&written(), Some(&zeros)), Err(Violation::NoSerialOrder));
    let half = values(&[(5, 7)]);
    assert_eq!(check(&written(), Some(&half)), Err(Violation::NoSerialOrder));
}

#[test]
fn an_inversion_of_real_time_has_no_order() {
    // Without real time, the reader could stand before the writer.
    let late_reader = followed_by(&[begin(1), read(1, 5, 0), read(1, 6, 0), commit(1)]);
    assert_eq!(violation(&late_reader), Some(Violation::NoSerialOrder));
    // Task 1 would have to stand behind task 2, which began after the end of task 1.
    let early_reader = [begin(1), read(1, 5, 7), commit(1), begin(2), write(2, 5, 7), commit(2)];
    assert_eq!(violation(&early_reader), Some(Violation::NoSerialOrder));
}

#[test]
fn an_own_write_that_is_not_read_back_has_no_order() {
    let history = [begin(0), write(0, 5, 7), read(0, 5, 0), commit(0)];
    assert_eq!(violation(&history), Some(Violation::NoSerialOrder));
}

#[test]
fn an_order_that_the_construction_misses_is_told() {
    // A writer that commits behind what it read: an order exists, but no policy may grant it.
    let history =
        [begin(0), read(0, 5, 0), write(0, 6, 1), begin(1), write(1, 5, 1), commit(1), commit(0)];
    assert_eq!(violation(&history), Some(Violation::OrdersDisagree { constructed: false }));
}

#[test]
fn a_torn_read_has_no_moment() {
    let torn = [
        begin(1),
        read(1, 5, 0),
        begin(0),
        write(0, 5, 7),
        write(0, 6, 8),
        commit(0),
        read(1, 6, 8),
    ];
    assert_eq!(violation(&torn), Some(Violation::NoMoment { first: 0 }));
    let aborted = [&torn[..], &[abort(1)]].concat();
    assert_eq!(violation(&aborted), Some(Violation::NoMoment { first: 0 }));
    let torn_list = followed_by(&[begin(1), collect(1, &[5, 6], &[7, 0]), abort(1)]);
    assert_eq!(violation(&torn_list), Some(Violation::NoMoment { first: 4 }));
}

#[test]
fn a_moment_before_the_begin_does_not_count() {
    let history = followed_by(&[begin(1), read(1, 5, 0), abort(1)]);
    assert_eq!(violation(&history), Some(Violation::NoMoment { first: 4 }));
}

#[test]
fn a_moment_after_the_last_call_does_not_count() {
    let history = [begin(1), read(1, 5, 7), begin(0), write(0, 5, 7), commit(0)];
    assert_eq!(violation(&history), Some(Violation::NoMoment { first: 0 }));
}

#[test]
fn a_pending_value_needs_no_moment() {
    let history = [begin(0), write(0, 5, 7), read(0, 5, 7), abort(0)];
    assert_eq!(violation(&history), None);
}

#[test]
fn a_refusal_alone_has_no_rival() {
    let alone = [begin(0), refused(0, Action::Read(5), 20)];
    assert_eq!(violation(&alone), Some(Violation::NoRival { call: 1 }));
    let after_another = followed_by(&[begin(1), refused(1, Action::Read(5), 20)]);
    assert_eq!(violation(&after_another), Some(Violation::NoRival { call: 5 }));
}

#[test]
fn a_rival_has_touched_what_is_disputed() {
    let other_variable = [begin(0), write(0, 6, 1), begin(1), refused(1, Action::Write(5, 1), 21)];
    assert_eq!(violation(&other_variable), Some(Violation::NoRival { call: 3 }));
    let same_variable = [begin(0), read(0, 5, 0), begin(1), refused(1, Action::Write(5, 1), 21)];
    assert_eq!(violation(&same_variable), None);
    let too_late =
        [begin(0), begin(1), refused(1, Action::Write(5, 1), 21), write(0, 5, 1), commit(0)];
    assert_eq!(violation(&too_late), Some(Violation::NoRival { call: 2 }));
}

#[test]
fn a_refused_commit_needs_a_rival_for_what_it_read() {
    let run = |seen: u8| {
        let write_over = [begin(1), write(1, 5, 7), commit(1)];
        let start = [begin(0), read(0, seen, 0), write(0, 8, 1)];
        [&start[..], &write_over, &[refused(0, Action::Commit, 22)]].concat()
    };
    assert_eq!(violation(&run(5)), None);
    assert_eq!(violation(&run(6)), Some(Violation::NoRival { call: 6 }));
}

#[test]
fn a_task_is_no_rival_of_its_own() {
    let history =
        [begin(0), write(0, 5, 1), abort(0), begin(0), refused(0, Action::Read(5), 20), begin(1)];
    assert_eq!(violation(&history), Some(Violation::NoRival { call: 4 }));
}

#[test]
fn what_a_refused_list_passed_counts_as_read() {
    let list = || Action::Snapshot(vec![4, 9]);
    let touched = |variable| vec![begin(0), write(0, variable, 1), refused_at(1, list(), 20, 1)];
    assert_eq!(violation(&touched(9)), None);
    assert_eq!(violation(&touched(4)), None);
    assert_eq!(violation(&touched(3)), Some(Violation::NoRival { call: 2 }));
    let not_reached = [begin(0), write(0, 9, 1), refused_at(1, list(), 20, 0)];
    assert_eq!(violation(&not_reached), Some(Violation::NoRival { call: 2 }));
}

#[test]
fn answers_that_no_table_gives_are_stray() {
    let stray = |history: &[Event], call| {
        assert_eq!(violation(history), Some(Violation::Stray { call }));
    };
    stray(&[read(0, 5, 0)], 0);
    stray(&[begin(0), begin(0)], 1);
    stray(&[commit(3)], 0);
    stray(&[begin(8)], 0);
    stray(&[begin(0), read(0, 64, 0)], 1);
    stray(&[begin(0), collect(0, &[1, 2], &[0])], 1);
    stray(&[begin(0), refused(0, Action::Commit, 21)], 1);
    stray(&[refused(0, Action::Read(5), 20)], 0);
}

#[test]
fn refusals_by_the_table_add_nothing() {
    let history = [
        refused(9, Action::Begin, 1),
        refused(0, Action::Read(5), 11),
        begin(0),
        refused(0, Action::Begin, 10),
        refused(0, Action::Read(64), 2),
        refused(0, Action::Collect(vec![]), 3),
        commit(0),
    ];
    let tally = check(&history, None).unwrap();
    assert_eq!((tally.transactions, tally.committed, tally.refused), (1, 1, 0));
}
