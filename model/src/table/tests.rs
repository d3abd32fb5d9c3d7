use super::*;
use crate::policy::{Clock, Eager, Lock, Own};

const FULL: [i32; 20] = [99; 20];

fn number<T>(outcome: Result<T, Refusal>) -> u8 {
    outcome.err().map_or(0, Refusal::number)
}

fn committed<P: Policy>(table: &mut Table<P>, task: u8, writes: &[(u8, i32)]) {
    table.begin(task).unwrap();
    for &(variable, value) in writes {
        table.write(task, variable, value).unwrap();
    }
    table.commit(task).unwrap();
}

#[test]
fn wrong_calls_are_refused_in_the_order_1_3_4_2() {
    let mut table = Table::new(Lock::new());
    let mut buffer = FULL;
    assert_eq!(number(table.read(8, 64)), 1);
    assert_eq!(number(table.write(0, 64, 1)), 2);
    assert_eq!(number(table.collect(8, &[], &mut buffer)), 1);
    assert_eq!(number(table.collect(0, &[], &mut buffer)), 3);
    assert_eq!(number(table.collect(0, &[64; 17], &mut [])), 3);
    assert_eq!(number(table.collect(0, &[64; 2], &mut buffer[..1])), 4);
    let wrong_place = table.collect(0, &[5, 6, 64, 65], &mut buffer);
    assert_eq!(wrong_place, Err(Refusal::NoSuchVariable { place: Some(2) }));
    assert_eq!(number(table.collect(0, &[5], &mut buffer)), 11);
}

#[test]
fn every_refused_list_clears_the_whole_buffer() {
    let mut table = Table::new(Lock::new());
    table.begin(1).unwrap();
    table.write(1, 5, 7).unwrap();
    let lists: [(u8, &[u8]); 5] = [(8, &[1]), (0, &[]), (0, &[0; 17]), (0, &[64]), (0, &[4, 5])];
    for (task, list) in lists {
        let mut buffer = FULL;
        assert!(table.snapshot(task, list, &mut buffer).is_err());
        assert_eq!(buffer, [0; 20]);
    }
    let mut short = [99; 3];
    assert_eq!(number(table.collect(1, &[1, 2, 3, 4], &mut short)), 4);
    assert_eq!(short, [0; 3]);
}

#[test]
fn untimely_calls() {
    let mut table = Table::new(Own::new());
    let mut buffer = FULL;
    assert_eq!(number(table.read(0, 1)), 11);
    assert_eq!(number(table.write(0, 1, 1)), 11);
    assert_eq!(number(table.commit(0)), 11);
    assert_eq!(number(table.abort(0)), 11);
    table.begin(0).unwrap();
    assert_eq!(number(table.begin(0)), 10);
    assert_eq!(number(table.snapshot(0, &[1], &mut buffer)), 10);
    table.begin(1).unwrap();
    table.write(1, 5, 1).unwrap();
    assert_eq!(number(table.write(0, 5, 1)), 21);
    assert_eq!(number(table.begin(0)), 10);
    assert_eq!(number(table.snapshot(0, &[1], &mut buffer)), 10);
    assert_eq!(number(table.read(0, 1)), 12);
    assert_eq!(number(table.write(0, 1, 1)), 12);
    assert_eq!(number(table.collect(0, &[1], &mut buffer)), 12);
    assert_eq!(number(table.commit(0)), 12);
    assert_eq!(number(table.commit(0)), 11);
}

#[test]
fn an_abort_of_a_broken_task_is_granted() {
    let mut table = Table::new(Lock::new());
    table.begin(0).unwrap();
    table.begin(1).unwrap();
    table.write(0, 5, 1).unwrap();
    assert_eq!(number(table.read(1, 5)), 20);
    assert_eq!(table.abort(1), Ok(()));
    assert_eq!(table.begin(1), Ok(()));
}

#[test]
fn a_wrong_call_of_a_broken_task_leaves_it_broken() {
    let mut table = Table::new(Lock::new());
    table.begin(0).unwrap();
    table.begin(1).unwrap();
    table.write(0, 5, 1).unwrap();
    assert_eq!(number(table.read(1, 5)), 20);
    assert_eq!(number(table.read(1, 64)), 2);
    assert_eq!(number(table.read(1, 6)), 12);
}

#[test]
fn only_the_writer_sees_what_is_pending() {
    let mut table = Table::new(Clock::new(0));
    table.begin(0).unwrap();
    table.write(0, 5, 7).unwrap();
    table.begin(1).unwrap();
    assert_eq!(table.read(0, 5), Ok(7));
    assert_eq!(table.read(1, 5), Ok(0));
    table.abort(0).unwrap();
    table.begin(0).unwrap();
    assert_eq!(table.read(0, 5), Ok(0));
    assert_eq!(table.shared(), &[0; 64]);
}

#[test]
fn a_collect_gives_pending_and_shared_values_in_order() {
    let mut table = Table::new(Own::new());
    committed(&mut table, 3, &[(5, 50), (6, -60)]);
    table.begin(0).unwrap();
    table.write(0, 6, 66).unwrap();
    let mut buffer = FULL;
    assert_eq!(table.collect(0, &[6, 5, 7, 5], &mut buffer), Ok(4));
    assert_eq!(buffer[..5], [66, 50, 0, 50, 0]);
    assert_eq!(buffer[5..], [0; 15]);
}

#[test]
fn a_refused_collect_breaks_the_task_and_drops_its_writes() {
    let mut table = Table::new(Lock::new());
    table.begin(1).unwrap();
    table.write(1, 5, 1).unwrap();
    table.begin(0).unwrap();
    table.write(0, 9, 9).unwrap();
    let mut buffer = FULL;
    let refused = table.collect(0, &[4, 5], &mut buffer);
    let variable = Variable::new(5).unwrap();
    assert_eq!(refused, Err(Refusal::ReadBarred { variable, place: Some(1) }));
    assert_eq!(buffer, [0; 20]);
    assert_eq!(number(table.read(0, 4)), 12);
    assert_eq!(table.write(1, 4, 1), Ok(()), "the lock on 4 is gone");
    assert_eq!(number(table.commit(0)), 12);
    assert_eq!(table.shared()[9], 0);
}

#[test]
fn a_snapshot_leaves_the_task_idle() {
    let mut table = Table::new(Eager::new(Lock::new()));
    committed(&mut table, 3, &[(5, 50)]);
    let mut buffer = FULL;
    assert_eq!(table.snapshot(0, &[5, 5, 6], &mut buffer), Ok(3));
    assert_eq!(buffer[..4], [50, 50, 0, 0]);
    table.begin(1).unwrap();
    table.write(1, 6, 1).unwrap();
    assert_eq!(number(table.snapshot(0, &[5, 6], &mut buffer)), 20);
    assert_eq!(number(table.read(0, 5)), 11);
    assert_eq!(table.write(1, 5, 1), Ok(()), "the lock on 5 is gone");
}

#[test]
fn a_new_table_aborts_what_its_policy_has_open() {
    let mut policy = Lock::new();
    policy.begin(Task::new(4).unwrap());
    policy.write(Task::new(4).unwrap(), Variable::new(5).unwrap()).unwrap();
    let mut table = Table::new(policy);
    table.begin(0).unwrap();
    assert_eq!(table.read(0, 5), Ok(0));
}

#[test]
fn a_strict_policy_refuses_a_read_only_commit_that_is_behind() {
    let mut own = Table::new(Own::new());
    let mut clock = Table::new(Eager::new(Clock::new(0)));
    own.begin(0).unwrap();
    clock.begin(0).unwrap();
    own.read(0, 5).unwrap();
    clock.read(0, 5).unwrap();
    committed(&mut own, 1, &[(5, 7)]);
    committed(&mut clock, 1, &[(5, 7)]);
    assert_eq!(number(own.commit(0)), 22);
    assert_eq!(clock.commit(0), Ok(()));
}

#[test]
fn one_that_is_behind_reads_what_it_wrote() {
    let mut table = Table::new(Eager::new(Own::new()));
    table.begin(0).unwrap();
    table.read(0, 5).unwrap();
    table.write(0, 6, 66).unwrap();
    committed(&mut table, 1, &[(5, 7)]);
    assert_eq!(table.read(0, 6), Ok(66));
    assert_eq!(number(table.write(0, 6, 1)), 21);
}

#[test]
fn the_table_is_small() {
    assert!(size_of::<Table<Eager<Clock>>>() <= 8192);
}
