//! Two-phase locking: what a task has read or written is locked until the task ends.

use super::{AllSets, Policy, Sets};
use crate::limits::{Task, VarSet, Variable};

#[derive(Default)]
pub struct Lock {
    sets: AllSets,
}

impl Lock {
    pub fn new() -> Self {
        Self::default()
    }

    fn locked_by_other(&self, task: Task, variable: Variable) -> bool {
        task.others().any(|other| {
            let Sets { reads, writes } = self.sets[other.index()];
            reads.has(variable) || writes.has(variable)
        })
    }
}

impl Policy for Lock {
    const STRICT: bool = true;

    fn writes(&self, task: Task) -> VarSet {
        self.sets[task.index()].writes
    }

    fn is_behind(&self, _task: Task) -> bool {
        false
    }

    fn bars_read(&self, task: Task, variable: Variable) -> bool {
        self.locked_by_other(task, variable)
    }

    fn bars_write(&self, task: Task, variable: Variable) -> bool {
        self.locked_by_other(task, variable)
    }

    fn begin(&mut self, _task: Task) {}

    fn note_read(&mut self, task: Task, variable: Variable) {
        self.sets[task.index()].reads.add(variable);
    }

    fn note_write(&mut self, task: Task, variable: Variable) {
        self.sets[task.index()].writes.add(variable);
    }

    fn publish(&mut self, task: Task) {
        self.abort(task);
    }

    fn abort(&mut self, task: Task) {
        self.sets[task.index()] = Sets::default();
    }
}
