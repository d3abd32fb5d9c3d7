//! Lines that have the form.

use super::head;
use crate::limits::{TASKS, VARIABLES};
use crate::rng::Rng;
use crate::text::Command;

/// Which tasks and variables take part.
pub struct Cast {
    tasks: Vec<u8>,
    variables: Vec<u8>,
}

impl Cast {
    /// 2 to 4 tasks and 2 to 4 variables.
    pub fn few(rng: &mut Rng) -> Self {
        Self { tasks: some(TASKS, rng), variables: some(VARIABLES, rng) }
    }

    /// Every task and variable, and some that there aren't.
    pub fn wide() -> Self {
        let repeat = |count: usize, times| (0..count as u8).cycle().take(count * times);
        let no_task = [8, 9, 10, 63, 99, 100, 254, 255];
        let no_variable = [64, 65, 99, 100, 127, 128, 254, 255];
        Self {
            tasks: repeat(TASKS, 12).chain(no_task).collect(),
            variables: repeat(VARIABLES, 2)
                .chain([0; 24])
                .chain([63; 8])
                .chain(no_variable)
                .collect(),
        }
    }

    pub fn of(tasks: Vec<u8>, variables: Vec<u8>) -> Self {
        Self { tasks, variables }
    }
}

/// 2 to 4 different numbers below `count`.
fn some(count: usize, rng: &mut Rng) -> Vec<u8> {
    let first = rng.below(count);
    let step = rng.pick(&[1, 3, 5, 7]);
    (0..rng.between(2, 4)).map(|place| ((first + place * step) % count) as u8).collect()
}

/// Writes commands that mostly fit what came before.
pub struct Script {
    cast: Cast,
    begun: [bool; 256],
    written: i32,
}

impl Script {
    pub fn new(cast: Cast) -> Self {
        Self { cast, begun: [false; 256], written: 0 }
    }

    pub fn next(&mut self, rng: &mut Rng) -> Command {
        let task = rng.pick(&self.cast.tasks);
        let begun = self.begun[usize::from(task)];
        let command = if begun || rng.percent(12) {
            self.going_on(task, rng)
        } else {
            Command::Begin { task }
        };
        match command {
            Command::Begin { .. } => self.begun[usize::from(task)] = true,
            Command::Commit { .. } | Command::Abort { .. } => self.begun[usize::from(task)] = false,
            Command::Read { .. } | Command::Write { .. } => {}
        }
        command
    }

    fn going_on(&mut self, task: u8, rng: &mut Rng) -> Command {
        let variable = rng.pick(&self.cast.variables);
        match rng.below(100) {
            0..40 => Command::Read { task, variable },
            40..68 => Command::Write { task, variable, value: self.value(rng) },
            68..90 => Command::Commit { task },
            90..96 => Command::Abort { task },
            _ => Command::Begin { task },
        }
    }

    /// Mostly values that tell one write from another.
    fn value(&mut self, rng: &mut Rng) -> i32 {
        self.written += 1;
        match rng.below(10) {
            0 => rng.pick(&[0, -1, 1, i32::MIN, i32::MAX, i32::MIN + 1, i32::MAX - 1]),
            1 => rng.draw() as i32,
            2 => rng.below(3) as i32,
            3 => -self.written,
            _ => self.written,
        }
    }
}

/// A text with that many command lines.
pub fn lines(cast: Cast, count: usize, rng: &mut Rng) -> Vec<u8> {
    let mut text = head(rng);
    let mut script = Script::new(cast);
    for _ in 0..count {
        push(&mut text, script.next(rng));
    }
    text
}

pub fn push(text: &mut Vec<u8>, command: Command) {
    text.extend_from_slice(command.to_string().as_bytes());
    text.push(b'\n');
}

/// The longest and the shortest last line, without its LF, that `fill` makes.
const LAST_LINE: std::ops::RangeInclusive<usize> = 7..=15;

/// Fills a text with command lines to exactly `size` bytes, with an LF at its end or without.
pub fn fill(text: &mut Vec<u8>, size: usize, rng: &mut Rng) {
    let line_feed = rng.percent(50);
    let end = size - usize::from(line_feed);
    let mut script = Script::new(Cast::few(rng));
    while end - text.len() > *LAST_LINE.end() {
        let line = script.next(rng).to_string() + "\n";
        let left = (end - text.len()).checked_sub(line.len());
        let fits = left.is_some_and(|left| left >= *LAST_LINE.start());
        text.extend_from_slice(if fits { line.as_bytes() } else { b"B 0\n" });
    }
    text.extend_from_slice(b"W 0 5 1");
    text.resize(end, b'0');
    text.resize(size, b'\n');
}
