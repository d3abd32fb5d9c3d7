//! The transactions of a history, and the shared values after each of its calls.

use super::{Action, Answer, Event, Values, Violation};
use crate::limits::{TASKS, VARIABLES, VarSet, Variable};

/// What a transaction did with a variable.
#[derive(Clone, Copy, PartialEq, Eq, Debug)]
pub enum Touch {
    Read(i32),
    /// Read by a collect or a snapshot that was refused further on: no value was answered.
    Passed,
    Wrote(i32),
}

#[derive(Clone, Copy, PartialEq, Eq, Debug)]
pub struct Access {
    pub call: usize,
    pub variable: Variable,
    pub touch: Touch,
}

#[derive(Clone, Copy, PartialEq, Eq, Debug)]
pub enum Outcome {
    Open,
    Committed,
    Aborted,
    /// Refused by the policy, with the variable asked for if there is one.
    Refused(Option<Variable>),
}

#[derive(Clone, PartialEq, Eq, Debug)]
pub struct Transaction {
    pub task: u8,
    pub first: usize,
    /// The last call that was added to it or that ended it.
    pub last: usize,
    pub outcome: Outcome,
    pub accesses: Vec<Access>,
}

impl Transaction {
    fn new(task: u8, first: usize) -> Self {
        Self { task, first, last: first, outcome: Outcome::Open, accesses: Vec::new() }
    }

    /// The accesses to variables that it had not written before.
    fn unwritten(&self) -> impl Iterator<Item = &Access> {
        self.accesses
            .iter()
            .scan(VarSet::EMPTY, |written, access| {
                let fresh = !written.has(access.variable);
                if let Touch::Wrote(_) = access.touch {
                    written.add(access.variable);
                }
                Some(fresh.then_some(access))
            })
            .flatten()
    }

    /// The shared values that it was answered.
    pub fn shared_answers(&self) -> impl Iterator<Item = (Variable, i32)> {
        self.unwritten().filter_map(|access| match access.touch {
            Touch::Read(value) => Some((access.variable, value)),
            Touch::Passed | Touch::Wrote(_) => None,
        })
    }

    /// What it has read and not written before.
    pub fn reads(&self) -> VarSet {
        let read = self.unwritten().filter(|access| !matches!(access.touch, Touch::Wrote(_)));
        read.fold(VarSet::EMPTY, |mut set, access| {
            set.add(access.variable);
            set
        })
    }

    pub fn wrote(&self) -> bool {
        self.accesses.iter().any(|access| matches!(access.touch, Touch::Wrote(_)))
    }

    /// Whether it was open at some call from `first` to `last`.
    pub fn is_open_during(&self, first: usize, last: usize) -> bool {
        self.first <= last && (self.outcome == Outcome::Open || self.last >= first)
    }

    /// Runs it alone on the values. Whether every read gives what it was answered.
    pub fn run_alone(&self, values: &mut Values) -> bool {
        let mut pending = *values;
        for access in &self.accesses {
            let slot = &mut pending[access.variable.index()];
            match access.touch {
                Touch::Read(answered) if *slot != answered => return false,
                Touch::Read(_) | Touch::Passed => {}
                Touch::Wrote(value) => *slot = value,
            }
        }
        *values = pending;
        true
    }

    fn add(&mut self, call: usize, variable: Variable, touch: Touch) {
        self.last = call;
        self.accesses.push(Access { call, variable, touch });
    }

    fn end(&mut self, call: usize, outcome: Outcome) {
        self.last = call;
        self.outcome = outcome;
    }
}

/// What is read off a history.
pub struct Record {
    transactions: Vec<Transaction>,
    /// The open transaction of each task.
    open: [Option<usize>; TASKS],
    /// The shared values at the start and after each commit.
    states: Vec<Values>,
    /// For each call, which of the states stands after it.
    after: Vec<usize>,
}

impl Record {
    pub fn read_off(history: &[Event]) -> Result<Self, Violation> {
        let mut record = Self {
            transactions: Vec::new(),
            open: [None; TASKS],
            states: vec![[0; VARIABLES]],
            after: Vec::with_capacity(history.len()),
        };
        for (call, event) in history.iter().enumerate() {
            record.note(call, event).ok_or(Violation::Stray { call })?;
            record.after.push(record.states.len() - 1);
        }
        Ok(record)
    }

    pub fn transactions(&self) -> &[Transaction] {
        &self.transactions
    }

    pub fn committed(&self) -> impl Iterator<Item = &Transaction> {
        self.transactions.iter().filter(|it| it.outcome == Outcome::Committed)
    }

    pub fn refused(&self) -> impl Iterator<Item = &Transaction> {
        self.transactions.iter().filter(|it| matches!(it.outcome, Outcome::Refused(_)))
    }

    /// The shared values at the end, as the commits give them.
    pub fn end(&self) -> &Values {
        &self.states[self.states.len() - 1]
    }

    /// A call in the life of the transaction after which all shared values that it was answered
    /// stood together.
    pub fn moment(&self, transaction: &Transaction) -> Option<usize> {
        let stood = |state: &Values| {
            transaction.shared_answers().all(|(variable, value)| state[variable.index()] == value)
        };
        let states = self.after[transaction.first]..=self.after[transaction.last];
        let state = states.into_iter().find(|&state| stood(&self.states[state]))?;
        let reached = self.after.partition_point(|&after| after < state);
        Some(reached.max(transaction.first))
    }

    /// Adds an event. Nothing if the answer doesn't fit the call or the task.
    fn note(&mut self, call: usize, event: &Event) -> Option<()> {
        if let Answer::Refused { number, place } = event.answer {
            return self.note_refusal(call, event, number, place);
        }
        let task = event.task;
        match (&event.action, &event.answer) {
            (Action::Begin, Answer::Done) => self.begin(task, call),
            (Action::Read(variable), Answer::Value(value)) => {
                self.add(task, call, *variable, Touch::Read(*value))
            }
            (Action::Write(variable, value), Answer::Done) => {
                self.add(task, call, *variable, Touch::Wrote(*value))
            }
            (Action::Collect(list), Answer::Values(values)) => {
                self.add_list(task, call, list, values)
            }
            (Action::Snapshot(list), Answer::Values(values)) => {
                self.begin(task, call)?;
                self.add_list(task, call, list, values)?;
                self.end_open(task, call, Outcome::Committed)
            }
            (Action::Commit, Answer::Done) => self.commit(task, call),
            (Action::Abort, Answer::Done) => {
                // A broken task's transaction has ended before.
                let _ = self.end_open(task, call, Outcome::Aborted);
                Some(())
            }
            _ => None,
        }
    }

    /// Only a refusal by the policy adds anything.
    fn note_refusal(&mut self, call: usize, event: &Event, number: u8, place: usize) -> Option<()> {
        let task = event.task;
        let asked = match (number, &event.action) {
            (20, Action::Read(variable)) | (21, Action::Write(variable, _)) => Some(*variable),
            (20, Action::Collect(list)) => Some(self.pass(task, call, list, place)?),
            (20, Action::Snapshot(list)) => {
                self.begin(task, call)?;
                Some(self.pass(task, call, list, place)?)
            }
            (22, Action::Commit) => None,
            (20..=22, _) => return None,
            _ => return Some(()),
        };
        let asked = match asked {
            Some(number) => Some(Variable::new(number)?),
            None => None,
        };
        self.end_open(task, call, Outcome::Refused(asked))
    }

    fn begin(&mut self, task: u8, call: usize) -> Option<()> {
        let slot = self.open.get_mut(usize::from(task))?;
        if slot.is_some() {
            return None;
        }
        *slot = Some(self.transactions.len());
        self.transactions.push(Transaction::new(task, call));
        Some(())
    }

    fn add(&mut self, task: u8, call: usize, variable: u8, touch: Touch) -> Option<()> {
        let variable = Variable::new(variable)?;
        let place = (*self.open.get(usize::from(task))?)?;
        self.transactions[place].add(call, variable, touch);
        Some(())
    }

    fn add_list(&mut self, task: u8, call: usize, list: &[u8], values: &[i32]) -> Option<()> {
        if list.len() != values.len() {
            return None;
        }
        let mut pairs = list.iter().zip(values);
        pairs.try_for_each(|(&variable, &value)| self.add(task, call, variable, Touch::Read(value)))
    }

    /// Adds what a refused list had passed, and answers the variable at which it was refused.
    fn pass(&mut self, task: u8, call: usize, list: &[u8], place: usize) -> Option<u8> {
        let asked = *list.get(place)?;
        list[..place].iter().try_for_each(|&passed| self.add(task, call, passed, Touch::Passed))?;
        Some(asked)
    }

    fn commit(&mut self, task: u8, call: usize) -> Option<()> {
        let place = (*self.open.get(usize::from(task))?)?;
        let mut shared = *self.end();
        for access in &self.transactions[place].accesses {
            if let Touch::Wrote(value) = access.touch {
                shared[access.variable.index()] = value;
            }
        }
        if shared != *self.end() {
            self.states.push(shared);
        }
        self.end_open(task, call, Outcome::Committed)
    }

    fn end_open(&mut self, task: u8, call: usize, outcome: Outcome) -> Option<()> {
        let place = self.open.get_mut(usize::from(task))?.take()?;
        self.transactions[place].end(call, outcome);
        Some(())
    }
}
