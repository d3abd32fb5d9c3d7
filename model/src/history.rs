//! Histories to be checked: of schedule texts by what was printed of them, and of tables that
//! are driven at random.

use crate::law::{self, Action, Answer, Event, Tally, Values};
use crate::limits::{TASKS, VARIABLES};
use crate::policy::Policy;
use crate::refusal::Refusal;
use crate::rng::Rng;
use crate::table::{LIST_LIMIT, Table};
use crate::text::{Command, TEXT_LIMIT, open, parse};

/// The task that reads all values at the end of a closed text.
const LAST_TASK: u8 = 7;

/// The text with lines behind it that end every task and then read every variable, so that the
/// shared values are seen.
pub fn closed(text: &[u8]) -> Vec<u8> {
    let mut closed = text.to_vec();
    if closed.last().is_some_and(|&byte| byte != b'\n') {
        closed.push(b'\n');
    }
    let aborts = (0..TASKS as u8).map(|task| Command::Abort { task });
    let reads = (0..VARIABLES as u8).map(|variable| Command::Read { task: LAST_TASK, variable });
    for command in aborts.chain([Command::Begin { task: LAST_TASK }]).chain(reads) {
        closed.extend_from_slice(command.to_string().as_bytes());
        closed.push(b'\n');
    }
    closed
}

/// The closed text, or the text itself where that would be too long.
pub fn closed_if_fit(text: &[u8]) -> Vec<u8> {
    let closed = closed(text);
    if closed.len() <= TEXT_LIMIT { closed } else { text.to_vec() }
}

/// Checks the law on what `printed` gives for the text, closed if that fits. Tells what is wrong.
pub fn check_text(
    printed: impl Fn(&[u8]) -> Result<Vec<u8>, i64>,
    text: &[u8],
) -> Result<Tally, String> {
    let whole = closed_if_fit(text);
    let printed = printed(&whole).map_err(|answer| format!("the answer is {answer}"))?;
    let history = of_text(&whole, &printed).ok_or("what is printed has not the form")?;
    let is_closed = whole.len() > text.len();
    let values = values_at_end(&history).filter(|_| is_closed);
    if is_closed && values.is_none() {
        return Err("a task that is alone is refused a read".into());
    }
    law::check(&history, values.as_ref()).map_err(|how| how.to_string())
}

/// The values that the last lines of a closed text read.
pub fn values_at_end(history: &[Event]) -> Option<Values> {
    let reads = history.last_chunk::<VARIABLES>()?;
    let mut values = [0; VARIABLES];
    for (slot, event) in values.iter_mut().zip(reads) {
        let Answer::Value(value) = event.answer else { return None };
        *slot = value;
    }
    Some(values)
}

/// What is printed behind a line's number.
pub fn told(line: &[u8]) -> Option<&str> {
    let line = std::str::from_utf8(line).ok()?;
    line.split_once(' ').map(|(_, told)| told)
}

/// The calls of a text, with the answers that were printed. Nothing if what was printed has not
/// the form of answers to them.
pub fn of_text(text: &[u8], printed: &[u8]) -> Option<Vec<Event>> {
    let (_, lines) = open(text).ok()?;
    let mut printed = printed.strip_suffix(b"\n")?.split(|&byte| byte == b'\n');
    told(printed.next()?).filter(|&told| told == "ok")?;
    let mut history = Vec::new();
    for line in lines {
        let told = told(printed.next()?)?;
        if let Ok(command) = parse(line) {
            let (task, action) = call(command);
            history.push(Event { task, action, answer: answer(told)? });
        }
    }
    printed.next().is_none().then_some(history)
}

fn call(command: Command) -> (u8, Action) {
    match command {
        Command::Begin { task } => (task, Action::Begin),
        Command::Read { task, variable } => (task, Action::Read(variable)),
        Command::Write { task, variable, value } => (task, Action::Write(variable, value)),
        Command::Commit { task } => (task, Action::Commit),
        Command::Abort { task } => (task, Action::Abort),
    }
}

fn answer(told: &str) -> Option<Answer> {
    match told.split_once(' ') {
        None => (told == "ok").then_some(Answer::Done),
        Some(("=", value)) => value.parse().ok().map(Answer::Value),
        Some(("no", number)) => Some(Answer::Refused { number: number.parse().ok()?, place: 0 }),
        Some(_) => None,
    }
}

/// Makes random calls of few tasks and variables on a new table, collects and snapshots among
/// them. Answers the history and the shared values at its end.
pub fn of_table<P: Policy>(policy: P, calls: usize, rng: &mut Rng) -> (Vec<Event>, Values) {
    let mut table = Table::new(policy);
    let mut driver = Driver { variables: rng.between(2, 5), begun: [false; TASKS], written: 0 };
    let tasks = rng.between(2, 5);
    let mut history = Vec::with_capacity(calls);
    for _ in 0..calls {
        let task = rng.below(tasks) as u8;
        let action = driver.action(task, rng);
        let answer = perform(&mut table, task, &action);
        history.push(Event { task, action, answer });
    }
    (history, *table.shared())
}

/// Chooses calls that mostly fit what came before.
struct Driver {
    variables: usize,
    begun: [bool; TASKS],
    written: i32,
}

impl Driver {
    fn action(&mut self, task: u8, rng: &mut Rng) -> Action {
        let begun = &mut self.begun[usize::from(task)];
        if !*begun && rng.percent(85) {
            if rng.percent(20) {
                return Action::Snapshot(self.list(rng));
            }
            *begun = true;
            return Action::Begin;
        }
        match rng.below(100) {
            0..25 => Action::Read(rng.below(self.variables) as u8),
            25..40 => Action::Collect(self.list(rng)),
            40..65 => self.write(rng),
            65..88 => self.end(task, Action::Commit),
            88..94 => self.end(task, Action::Abort),
            94..97 => Action::Begin,
            _ => Action::Snapshot(self.list(rng)),
        }
    }

    fn end(&mut self, task: u8, action: Action) -> Action {
        self.begun[usize::from(task)] = false;
        action
    }

    fn write(&mut self, rng: &mut Rng) -> Action {
        self.written += 1;
        let value = if rng.percent(20) { rng.below(2) as i32 } else { self.written };
        Action::Write(rng.below(self.variables) as u8, value)
    }

    /// Mostly short lists, now and then one that is refused.
    fn list(&self, rng: &mut Rng) -> Vec<u8> {
        let length = if rng.percent(3) { rng.pick(&[0, 15, 16, 17]) } else { rng.between(1, 4) };
        let mut list: Vec<u8> = (0..length).map(|_| rng.below(self.variables) as u8).collect();
        if rng.percent(2) {
            list.push(64);
        }
        list
    }
}

fn perform<P: Policy>(table: &mut Table<P>, task: u8, action: &Action) -> Answer {
    let mut reply = [0; LIST_LIMIT];
    let outcome = match action {
        Action::Begin => table.begin(task).map(|()| Answer::Done),
        Action::Read(variable) => table.read(task, *variable).map(Answer::Value),
        Action::Write(variable, value) => {
            table.write(task, *variable, *value).map(|()| Answer::Done)
        }
        Action::Collect(list) => {
            table.collect(task, list, &mut reply).map(|_| values(list, &reply))
        }
        Action::Snapshot(list) => {
            table.snapshot(task, list, &mut reply).map(|_| values(list, &reply))
        }
        Action::Commit => table.commit(task).map(|()| Answer::Done),
        Action::Abort => table.abort(task).map(|()| Answer::Done),
    };
    outcome.unwrap_or_else(refused)
}

fn values(list: &[u8], reply: &[i32]) -> Answer {
    Answer::Values(reply[..list.len()].to_vec())
}

fn refused(refusal: Refusal) -> Answer {
    let place = match refusal {
        Refusal::ReadBarred { place, .. } => place.unwrap_or(0),
        _ => 0,
    };
    Answer::Refused { number: refusal.number(), place }
}

#[cfg(test)]
mod tests;
