//! DSTM with invisible reads: a task owns what it has written, and falls behind when another
//! commits what it has read.

use super::{AllSets, Policy, Sets};
use crate::limits::{TASKS, Task, VarSet, Variable};

#[derive(Default)]
pub struct Own {
    sets: AllSets,
    behind: [bool; TASKS],
}

impl Own {
    pub fn new() -> Self {
        Self::default()
    }
}

impl Policy for Own {
    const STRICT: bool = true;

    fn writes(&self, task: Task) -> VarSet {
        self.sets[task.index()].writes
    }

    fn is_behind(&self, task: Task) -> bool {
        self.behind[task.index()]
    }

    fn bars_read(&self, task: Task, _variable: Variable) -> bool {
        self.is_behind(task)
    }

    fn bars_write(&self, task: Task, variable: Variable) -> bool {
        task.others().any(|other| self.writes(other).has(variable))
    }

    fn begin(&mut self, task: Task) {
        self.behind[task.index()] = false;
    }

    fn note_read(&mut self, task: Task, variable: Variable) {
        self.sets[task.index()].reads.add(variable);
    }

    fn note_write(&mut self, task: Task, variable: Variable) {
        self.sets[task.index()].writes.add(variable);
    }

    fn publish(&mut self, task: Task) {
        let written = self.writes(task);
        for other in task.others() {
            self.behind[other.index()] |= self.sets[other.index()].reads.meets(written);
        }
        self.abort(task);
    }

    fn abort(&mut self, task: Task) {
        self.sets[task.index()] = Sets::default();
    }
}
