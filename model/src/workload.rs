//! Texts near 60,000 bytes to measure speed with.

use crate::generate::{Cast, Script};
use crate::rng::Rng;
use crate::text::{Choice, Command, TEXT_LIMIT};

#[derive(Clone, Copy, PartialEq, Eq, Debug)]
pub enum Workload {
    /// Lines that lack the form in each field, long numbers, calls that are refused at once.
    Parse,
    /// Transactions of many reads that don't meet.
    Read,
    /// Short transactions with one or two writes.
    Commit,
    /// Four tasks and four variables.
    Conflict,
}

impl Workload {
    pub const ALL: [Self; 4] = [Self::Parse, Self::Read, Self::Commit, Self::Conflict];

    pub fn name(self) -> &'static str {
        match self {
            Self::Parse => "parse",
            Self::Read => "read",
            Self::Commit => "commit",
            Self::Conflict => "conflict",
        }
    }

    /// The same text each time.
    pub fn text(self, choice: Choice) -> Vec<u8> {
        let mut rng = Rng::new(1);
        let mut script = Script::new(Cast::of(vec![0, 2, 5, 7], vec![0, 9, 33, 63]));
        let mut text = format!("{}\n", choice.name()).into_bytes();
        for round in 0.. {
            let part = match self {
                Self::Parse => wrong_line(round, &mut rng),
                Self::Read => reader(round, &mut rng),
                Self::Commit => short_writer(round, &mut rng),
                Self::Conflict => format!("{}\n", script.next(&mut rng)),
            };
            if text.len() + part.len() > TEXT_LIMIT {
                break;
            }
            text.extend_from_slice(part.as_bytes());
        }
        text
    }
}

fn wrong_line(round: usize, rng: &mut Rng) -> String {
    let value = rng.draw() as i32;
    let digits = "9876543210".repeat(rng.between(1, 6));
    match round % 12 {
        0 => format!("w 1 2 {value}\n"),
        1 => format!("R 3 {digits}\n"),
        2 => format!("W 7 63 {digits}\n"),
        3 => format!("W 255 255 {value}\n"),
        4 => format!("W 3 200 {value}\n"),
        5 => format!("W 3 20 {value} \n"),
        6 => format!("W 3 20  {value}\n"),
        7 => format!("W 3 20 {value}\n"),
        8 => format!("W 3 20 0{digits}\n"),
        9 => "R 256 1\n".into(),
        10 => "\n".into(),
        _ => format!("W 3 20 -{digits}\r\n"),
    }
}

/// Four tasks take turns, each with variables of its own.
fn reader(round: usize, rng: &mut Rng) -> String {
    let task = (round % 4) as u8;
    let command = match round / 4 % 26 {
        0 => Command::Begin { task },
        25 => Command::Commit { task },
        _ => Command::Read { task, variable: task * 16 + rng.below(16) as u8 },
    };
    format!("{command}\n")
}

fn short_writer(round: usize, rng: &mut Rng) -> String {
    let task = (round % 8) as u8;
    let variable = rng.below(64) as u8;
    let value = rng.below(1_000) as i32;
    let mut commands = vec![Command::Begin { task }, Command::Write { task, variable, value }];
    if round.is_multiple_of(2) {
        let variable = rng.below(64) as u8;
        commands.push(Command::Write { task, variable, value: -value });
    }
    commands.push(Command::Commit { task });
    commands.iter().map(|command| format!("{command}\n")).collect()
}

#[cfg(test)]
mod tests {
    use super::*;
    use crate::runner::run;
    use crate::text::Lines;

    /// How many of the printed lines end so, in a hundred.
    fn share(workload: Workload, choice: Choice, is: impl Fn(&str) -> bool) -> usize {
        let printed = String::from_utf8(run(&workload.text(choice))).unwrap();
        let behind = |line: &str| line.split_once(' ').is_some_and(|(_, told)| is(told));
        printed.lines().filter(|line| behind(line)).count() * 100 / printed.lines().count()
    }

    #[test]
    fn the_texts_are_near_the_longest() {
        for workload in Workload::ALL {
            for choice in Choice::ALL {
                let text = workload.text(choice);
                assert!((TEXT_LIMIT - 100..=TEXT_LIMIT).contains(&text.len()));
                assert!(Lines::new(&text).count() > 1_000);
            }
        }
    }

    #[test]
    fn the_texts_do_what_they_are_for() {
        for choice in Choice::ALL {
            assert!(share(Workload::Parse, choice, |told| told == "no 5") > 60);
            assert!(share(Workload::Read, choice, |told| told.starts_with('=')) > 90);
            assert!(share(Workload::Commit, choice, |told| told == "ok") > 99);
            assert!(share(Workload::Conflict, choice, |told| told.starts_with("no")) > 10);
        }
    }
}
