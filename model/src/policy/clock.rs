//! TL2: a version clock, a version for each variable, a read version for each open task.

use super::Policy;
use crate::limits::{TASKS, Task, VARIABLES, VarSet, Variable};

/// An open transaction.
#[derive(Clone, Copy, Default)]
struct Row {
    is_open: bool,
    read_version: u32,
    reads: VarSet,
    writes: VarSet,
}

pub struct Clock {
    clock: u32,
    versions: [u32; VARIABLES],
    rows: [Row; TASKS],
}

impl Clock {
    pub fn new(start: u32) -> Self {
        Self { clock: start, versions: [0; VARIABLES], rows: [Row::default(); TASKS] }
    }

    pub fn clock(&self) -> u32 {
        self.clock
    }

    fn row(&mut self, task: Task) -> &mut Row {
        &mut self.rows[task.index()]
    }

    /// Raises the clock, and renumbers first if it can't be raised.
    fn tick(&mut self) -> u32 {
        if self.clock == u32::MAX {
            self.renumber();
        }
        self.clock += 1;
        self.clock
    }

    /// Puts in place of each version and read version the count of different read versions below
    /// it, and in place of the clock the count of all of them.
    fn renumber(&mut self) {
        let mut marks: Vec<u32> = self.open_rows().map(|row| row.read_version).collect();
        marks.sort_unstable();
        marks.dedup();
        let below = |number: u32| marks.partition_point(|&mark| mark < number) as u32;
        self.versions.iter_mut().for_each(|version| *version = below(*version));
        self.open_rows().for_each(|row| row.read_version = below(row.read_version));
        self.clock = marks.len() as u32;
    }

    fn open_rows(&mut self) -> impl Iterator<Item = &mut Row> {
        self.rows.iter_mut().filter(|row| row.is_open)
    }
}

impl Policy for Clock {
    const STRICT: bool = false;

    fn writes(&self, task: Task) -> VarSet {
        self.rows[task.index()].writes
    }

    fn is_behind(&self, task: Task) -> bool {
        let reads = self.rows[task.index()].reads;
        reads.into_iter().any(|variable| self.bars_read(task, variable))
    }

    fn bars_read(&self, task: Task, variable: Variable) -> bool {
        self.versions[variable.index()] > self.rows[task.index()].read_version
    }

    fn bars_write(&self, _task: Task, _variable: Variable) -> bool {
        false
    }

    fn begin(&mut self, task: Task) {
        let read_version = self.clock;
        *self.row(task) = Row { is_open: true, read_version, ..Row::default() };
    }

    fn note_read(&mut self, task: Task, variable: Variable) {
        self.row(task).reads.add(variable);
    }

    fn note_write(&mut self, task: Task, variable: Variable) {
        self.row(task).writes.add(variable);
    }

    fn publish(&mut self, task: Task) {
        let written = self.writes(task);
        if !written.is_empty() {
            let version = self.tick();
            for variable in written {
                self.versions[variable.index()] = version;
            }
        }
        self.abort(task);
    }

    fn abort(&mut self, task: Task) {
        *self.row(task) = Row::default();
    }
}

#[cfg(test)]
mod tests {
    use super::*;

    fn task(number: u8) -> Task {
        Task::new(number).unwrap()
    }

    fn variable(number: u8) -> Variable {
        Variable::new(number).unwrap()
    }

    fn commit_write(policy: &mut Clock, writer: u8, written: u8) {
        policy.begin(task(writer));
        policy.write(task(writer), variable(written)).unwrap();
        policy.commit(task(writer)).unwrap();
    }

    /// Tasks 0, 1 and 2 have begun at three different clocks, and 3 at that of task 2.
    fn at_the_end() -> Clock {
        let mut policy = Clock::new(u32::MAX - 2);
        policy.begin(task(0));
        commit_write(&mut policy, 7, 10);
        policy.begin(task(1));
        commit_write(&mut policy, 7, 11);
        policy.begin(task(2));
        policy.begin(task(3));
        assert_eq!(policy.clock(), u32::MAX);
        policy
    }

    #[test]
    fn renumbering_counts_the_different_read_versions_below() {
        let mut policy = at_the_end();
        policy.renumber();
        assert_eq!(policy.clock, 3);
        assert_eq!(policy.versions[10], 1);
        assert_eq!(policy.versions[11], 2);
        assert_eq!(policy.versions[12], 0);
        assert_eq!(
            policy.rows[..4].iter().map(|row| row.read_version).collect::<Vec<_>>(),
            [0, 1, 2, 2]
        );
    }

    #[test]
    fn renumbering_changes_no_fact() {
        let mut policy = at_the_end();
        policy.read(task(1), variable(10)).unwrap();
        let facts = |policy: &Clock| -> Vec<bool> {
            let barred = |t| (0..64).map(move |v| policy.bars_read(task(t), variable(v)));
            (0..4).flat_map(|t| barred(t).chain([policy.is_behind(task(t))])).collect()
        };
        let before = facts(&policy);
        policy.renumber();
        assert_eq!(facts(&policy), before);
    }

    #[test]
    fn the_committing_task_still_counts_as_open() {
        let mut policy = at_the_end();
        policy.abort(task(0));
        policy.abort(task(1));
        policy.abort(task(3));
        policy.write(task(2), variable(5)).unwrap();
        policy.commit(task(2)).unwrap();
        assert_eq!(policy.clock, 2);
        assert_eq!(policy.versions[5], 2);
    }

    #[test]
    fn a_commit_that_wrote_nothing_leaves_the_clock_at_its_end() {
        let mut policy = at_the_end();
        policy.read(task(2), variable(5)).unwrap();
        policy.commit(task(2)).unwrap();
        assert_eq!(policy.clock, u32::MAX);
    }
}
