//! The table: 8 tasks share 64 numbers, and a policy grants or refuses.

use crate::limits::{TASKS, Task, VARIABLES, VarSet, Variable};
use crate::policy::Policy;
use crate::refusal::Refusal;

/// The longest list of a collect or a snapshot.
pub const LIST_LIMIT: usize = 16;

#[derive(Clone, Copy, PartialEq, Eq)]
enum Stage {
    Idle,
    Open,
    Broken,
}

/// What a task has written and not yet committed. Only the values of written variables count.
#[derive(Clone, Copy)]
struct Pending {
    written: VarSet,
    values: [i32; VARIABLES],
}

impl Pending {
    const NONE: Self = Self { written: VarSet::EMPTY, values: [0; VARIABLES] };

    fn get(&self, variable: Variable) -> Option<i32> {
        self.written.has(variable).then(|| self.values[variable.index()])
    }

    fn set(&mut self, variable: Variable, value: i32) {
        self.written.add(variable);
        self.values[variable.index()] = value;
    }

    fn drop_all(&mut self) {
        self.written = VarSet::EMPTY;
    }
}

pub struct Table<P> {
    policy: P,
    stages: [Stage; TASKS],
    pending: [Pending; TASKS],
    shared: [i32; VARIABLES],
}

impl<P: Policy> Table<P> {
    /// A table of zeros. Aborts every task that the policy has open.
    pub fn new(mut policy: P) -> Self {
        Task::all().for_each(|task| policy.abort(task));
        Self {
            policy,
            stages: [Stage::Idle; TASKS],
            pending: [Pending::NONE; TASKS],
            shared: [0; VARIABLES],
        }
    }

    pub fn shared(&self) -> &[i32; VARIABLES] {
        &self.shared
    }

    pub fn policy(&self) -> &P {
        &self.policy
    }

    pub fn begin(&mut self, task: u8) -> Result<(), Refusal> {
        let task = known_task(task)?;
        self.require_idle(task)?;
        self.policy.begin(task);
        self.stages[task.index()] = Stage::Open;
        Ok(())
    }

    pub fn read(&mut self, task: u8, variable: u8) -> Result<i32, Refusal> {
        let task = known_task(task)?;
        let variable = known_variable(variable)?;
        self.require_open(task)?;
        if self.policy.read(task, variable).is_err() {
            self.leave(task, Stage::Broken);
            return Err(Refusal::ReadBarred { variable, place: None });
        }
        Ok(self.value(task, variable))
    }

    pub fn write(&mut self, task: u8, variable: u8, value: i32) -> Result<(), Refusal> {
        let task = known_task(task)?;
        let variable = known_variable(variable)?;
        self.require_open(task)?;
        if self.policy.write(task, variable).is_err() {
            self.leave(task, Stage::Broken);
            return Err(Refusal::WriteBarred { variable });
        }
        self.pending[task.index()].set(variable, value);
        Ok(())
    }

    /// Reads a list of variables into `reply`, and zeros behind them. Answers how many reads it
    /// made of the policy.
    pub fn collect(&mut self, task: u8, list: &[u8], reply: &mut [i32]) -> Result<usize, Refusal> {
        let outcome = self.collect_open(task, list, reply);
        clear_behind(reply, outcome)
    }

    /// Begin, collect and commit of an idle task in one call.
    pub fn snapshot(&mut self, task: u8, list: &[u8], reply: &mut [i32]) -> Result<usize, Refusal> {
        let outcome = self.snapshot_idle(task, list, reply);
        clear_behind(reply, outcome)
    }

    pub fn commit(&mut self, task: u8) -> Result<(), Refusal> {
        let task = known_task(task)?;
        match self.stages[task.index()] {
            Stage::Idle => Err(Refusal::Idle),
            Stage::Broken => {
                self.leave(task, Stage::Idle);
                Err(Refusal::Broken)
            }
            Stage::Open => self.commit_open(task),
        }
    }

    pub fn abort(&mut self, task: u8) -> Result<(), Refusal> {
        let task = known_task(task)?;
        match self.stages[task.index()] {
            Stage::Idle => return Err(Refusal::Idle),
            Stage::Broken => {}
            Stage::Open => self.policy.abort(task),
        }
        self.leave(task, Stage::Idle);
        Ok(())
    }

    fn collect_open(&mut self, task: u8, list: &[u8], reply: &mut [i32]) -> Result<usize, Refusal> {
        let task = known_task(task)?;
        check_list(list, reply)?;
        self.require_open(task)?;
        let reads = self.read_list(task, list, reply);
        if reads.is_err() {
            self.leave(task, Stage::Broken);
        }
        reads
    }

    fn snapshot_idle(
        &mut self,
        task: u8,
        list: &[u8],
        reply: &mut [i32],
    ) -> Result<usize, Refusal> {
        let task = known_task(task)?;
        check_list(list, reply)?;
        self.require_idle(task)?;
        self.policy.begin(task);
        let reads = self.read_list(task, list, reply)?;
        self.commit_open(task)?;
        Ok(reads)
    }

    fn read_list(&mut self, task: Task, list: &[u8], reply: &mut [i32]) -> Result<usize, Refusal> {
        for (place, (&number, slot)) in list.iter().zip(reply).enumerate() {
            let place = Some(place);
            let variable = Variable::new(number).ok_or(Refusal::NoSuchVariable { place })?;
            if self.policy.read(task, variable).is_err() {
                return Err(Refusal::ReadBarred { variable, place });
            }
            *slot = self.value(task, variable);
        }
        Ok(list.len())
    }

    fn commit_open(&mut self, task: Task) -> Result<(), Refusal> {
        let granted = self.policy.commit(task).is_ok();
        if granted {
            let Pending { written, values } = &self.pending[task.index()];
            for variable in *written {
                self.shared[variable.index()] = values[variable.index()];
            }
        }
        self.leave(task, Stage::Idle);
        granted.then_some(()).ok_or(Refusal::CommitRefused)
    }

    fn value(&self, task: Task, variable: Variable) -> i32 {
        self.pending[task.index()].get(variable).unwrap_or(self.shared[variable.index()])
    }

    /// Ends what the task had: nothing is pending any more.
    fn leave(&mut self, task: Task, stage: Stage) {
        self.pending[task.index()].drop_all();
        self.stages[task.index()] = stage;
    }

    fn require_idle(&self, task: Task) -> Result<(), Refusal> {
        match self.stages[task.index()] {
            Stage::Idle => Ok(()),
            Stage::Open | Stage::Broken => Err(Refusal::NotIdle),
        }
    }

    fn require_open(&self, task: Task) -> Result<(), Refusal> {
        match self.stages[task.index()] {
            Stage::Open => Ok(()),
            Stage::Idle => Err(Refusal::Idle),
            Stage::Broken => Err(Refusal::Broken),
        }
    }
}

fn known_task(number: u8) -> Result<Task, Refusal> {
    Task::new(number).ok_or(Refusal::NoSuchTask)
}

fn known_variable(number: u8) -> Result<Variable, Refusal> {
    Variable::new(number).ok_or(Refusal::NoSuchVariable { place: None })
}

fn check_list(list: &[u8], reply: &[i32]) -> Result<(), Refusal> {
    if list.is_empty() || list.len() > LIST_LIMIT {
        return Err(Refusal::ListLength);
    }
    if reply.len() < list.len() {
        return Err(Refusal::ShortBuffer);
    }
    match list.iter().position(|&number| Variable::new(number).is_none()) {
        Some(place) => Err(Refusal::NoSuchVariable { place: Some(place) }),
        None => Ok(()),
    }
}

/// Zeros behind the values of a granted list, and in the whole buffer after a refusal.
fn clear_behind(reply: &mut [i32], outcome: Result<usize, Refusal>) -> Result<usize, Refusal> {
    let filled = outcome.unwrap_or(0);
    reply[filled..].fill(0);
    outcome
}

#[cfg(test)]
mod tests;
