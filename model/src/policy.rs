//! Policies: which accesses of a transaction are granted. A policy holds no values.

mod clock;
mod eager;
mod lock;
mod own;

pub use clock::Clock;
pub use eager::Eager;
pub use lock::Lock;
pub use own::Own;

use crate::limits::{TASKS, Task, VarSet, Variable};

/// The policy refused, and has ended the task's transaction.
#[derive(Clone, Copy, PartialEq, Eq, Debug)]
pub struct Barred;

/// The facts of a policy and what changes them, and from these the calls.
///
/// A call is made only where it is fit: a begin of a task that isn't open, any other of one that is.
pub trait Policy {
    /// Whether a task that is behind may not commit even if it has written nothing.
    const STRICT: bool;

    fn writes(&self, task: Task) -> VarSet;
    fn is_behind(&self, task: Task) -> bool;
    /// Whether the variable is in the task's no-read set.
    fn bars_read(&self, task: Task, variable: Variable) -> bool;
    /// Whether the variable is in the task's no-write set.
    fn bars_write(&self, task: Task, variable: Variable) -> bool;

    fn begin(&mut self, task: Task);
    fn note_read(&mut self, task: Task, variable: Variable);
    fn note_write(&mut self, task: Task, variable: Variable);
    /// A granted commit.
    fn publish(&mut self, task: Task);
    /// The end of a transaction that shares nothing. Does nothing to a task that isn't open.
    fn abort(&mut self, task: Task);

    fn read(&mut self, task: Task, variable: Variable) -> Result<(), Barred> {
        if self.writes(task).has(variable) {
            return Ok(());
        }
        if self.bars_read(task, variable) {
            self.abort(task);
            return Err(Barred);
        }
        self.note_read(task, variable);
        Ok(())
    }

    fn write(&mut self, task: Task, variable: Variable) -> Result<(), Barred> {
        if self.bars_write(task, variable) {
            self.abort(task);
            return Err(Barred);
        }
        self.note_write(task, variable);
        Ok(())
    }

    fn commit(&mut self, task: Task) -> Result<(), Barred> {
        if (Self::STRICT || !self.writes(task).is_empty()) && self.is_behind(task) {
            self.abort(task);
            return Err(Barred);
        }
        self.publish(task);
        Ok(())
    }
}

/// The read set and the write set of a transaction.
#[derive(Clone, Copy, Default)]
struct Sets {
    reads: VarSet,
    writes: VarSet,
}

/// The sets of all tasks. Those of a task that isn't open are empty.
type AllSets = [Sets; TASKS];
