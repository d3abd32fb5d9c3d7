//! A layer over a policy: a task that is behind is refused at its next access.

use super::Policy;
use crate::limits::{Task, VarSet, Variable};

pub struct Eager<P>(P);

impl<P> Eager<P> {
    pub fn new(below: P) -> Self {
        Self(below)
    }
}

impl<P: Policy> Policy for Eager<P> {
    const STRICT: bool = P::STRICT;

    fn writes(&self, task: Task) -> VarSet {
        self.0.writes(task)
    }

    fn is_behind(&self, task: Task) -> bool {
        self.0.is_behind(task)
    }

    fn bars_read(&self, task: Task, variable: Variable) -> bool {
        self.0.bars_read(task, variable) || self.is_behind(task)
    }

    fn bars_write(&self, task: Task, variable: Variable) -> bool {
        self.0.bars_write(task, variable) || self.is_behind(task)
    }

    fn begin(&mut self, task: Task) {
        self.0.begin(task);
    }

    fn note_read(&mut self, task: Task, variable: Variable) {
        self.0.note_read(task, variable);
    }

    fn note_write(&mut self, task: Task, variable: Variable) {
        self.0.note_write(task, variable);
    }

    fn publish(&mut self, task: Task) {
        self.0.publish(task);
    }

    fn abort(&mut self, task: Task) {
        self.0.abort(task);
    }
}
