//! Runs a schedule text: text in, printed lines out.

use crate::decimal::Backward;
use crate::policy::{Clock, Eager, Lock, Own, Policy};
use crate::refusal::Refusal;
use crate::table::Table;
use crate::text::{Choice, Command, Lines, TextFault, open, parse};

/// The output doesn't fit the caller's buffer.
#[derive(Clone, Copy, PartialEq, Eq, Debug)]
pub struct NoRoom;

/// What is printed of a line, behind its number.
#[derive(Clone, Copy, PartialEq, Eq, Debug)]
pub enum Answer {
    Granted,
    Value(i32),
    Refused(u8),
}

impl From<Refusal> for Answer {
    fn from(refusal: Refusal) -> Self {
        Self::Refused(refusal.number())
    }
}

/// Where printed bytes go.
trait Sink {
    fn put(&mut self, bytes: &[u8]) -> Result<(), NoRoom>;
}

impl Sink for Vec<u8> {
    fn put(&mut self, bytes: &[u8]) -> Result<(), NoRoom> {
        self.extend_from_slice(bytes);
        Ok(())
    }
}

/// A caller's buffer, filled from its front.
struct Room<'a> {
    bytes: &'a mut [u8],
    used: usize,
}

impl Sink for Room<'_> {
    fn put(&mut self, bytes: &[u8]) -> Result<(), NoRoom> {
        let end = self.used + bytes.len();
        self.bytes.get_mut(self.used..end).ok_or(NoRoom)?.copy_from_slice(bytes);
        self.used = end;
        Ok(())
    }
}

/// What is printed of a text.
pub fn run(text: &[u8]) -> Vec<u8> {
    let mut printed = Vec::new();
    run_to(text, &mut printed).expect("a vector has room");
    printed
}

/// Fills `room` with what is printed of a text and zeros behind it, and answers how long that is.
/// Where it doesn't fit, `room` holds zeros only.
pub fn run_into(text: &[u8], room: &mut [u8]) -> Result<usize, NoRoom> {
    let mut sink = Room { bytes: room, used: 0 };
    let outcome = run_to(text, &mut sink).map(|()| sink.used);
    room[outcome.unwrap_or(0)..].fill(0);
    outcome
}

/// Runs command lines on a new table over `policy` and answers what is printed of them.
pub fn run_over<P: Policy>(policy: P, lines: Lines<'_>) -> Vec<u8> {
    let mut printed = Vec::new();
    play(policy, lines, &mut printed).expect("a vector has room");
    printed
}

fn run_to(text: &[u8], sink: &mut impl Sink) -> Result<(), NoRoom> {
    match open(text) {
        Ok((choice, lines)) => play_choice(choice, lines, sink),
        Err(TextFault::TooLong) => print(0, Answer::Refused(7), sink),
        Err(_) => print(1, Answer::Refused(6), sink),
    }
}

fn play_choice(choice: Choice, lines: Lines<'_>, sink: &mut impl Sink) -> Result<(), NoRoom> {
    match choice {
        Choice::Lock => play(Lock::new(), lines, sink),
        Choice::Own => play(Own::new(), lines, sink),
        Choice::Clock => play(Clock::new(0), lines, sink),
        Choice::EagerLock => play(Eager::new(Lock::new()), lines, sink),
        Choice::EagerOwn => play(Eager::new(Own::new()), lines, sink),
        Choice::EagerClock => play(Eager::new(Clock::new(0)), lines, sink),
    }
}

/// The first line has named the policy; `lines` are those behind it.
fn play<P: Policy>(policy: P, lines: Lines<'_>, sink: &mut impl Sink) -> Result<(), NoRoom> {
    let mut table = Table::new(policy);
    print(1, Answer::Granted, sink)?;
    (2..).zip(lines).try_for_each(|(number, line)| print(number, obey(&mut table, line), sink))
}

fn obey<P: Policy>(table: &mut Table<P>, line: &[u8]) -> Answer {
    match parse(line) {
        Ok(command) => perform(table, command).unwrap_or_else(Answer::from),
        Err(_) => Answer::Refused(5),
    }
}

/// Makes the one call that a command is.
pub fn perform<P: Policy>(table: &mut Table<P>, command: Command) -> Result<Answer, Refusal> {
    match command {
        Command::Begin { task } => table.begin(task)?,
        Command::Read { task, variable } => return table.read(task, variable).map(Answer::Value),
        Command::Write { task, variable, value } => table.write(task, variable, value)?,
        Command::Commit { task } => table.commit(task)?,
        Command::Abort { task } => table.abort(task)?,
    }
    Ok(Answer::Granted)
}

/// The most bytes of a printed line: two numbers and what stands around them.
const LONGEST: usize = 32;

fn print(number: u32, answer: Answer, sink: &mut impl Sink) -> Result<(), NoRoom> {
    let mut line = Backward::<LONGEST>::new();
    line.put(b"\n");
    match answer {
        Answer::Granted => line.put(b" ok"),
        Answer::Value(value) => {
            line.put_signed(value);
            line.put(b" = ");
        }
        Answer::Refused(refusal) => {
            line.put_unsigned(refusal.into());
            line.put(b" no ");
        }
    }
    line.put_unsigned(number);
    sink.put(line.written())
}

#[cfg(test)]
mod tests;
