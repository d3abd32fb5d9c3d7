//! The schedule text: its lines, its first line and its commands.

use std::fmt;

/// A longer text is refused whole.
pub const TEXT_LIMIT: usize = 60_000;

/// The policy that the first line names.
#[derive(Clone, Copy, PartialEq, Eq, Debug)]
pub enum Choice {
    Lock,
    Own,
    Clock,
    EagerLock,
    EagerOwn,
    EagerClock,
}

impl Choice {
    pub const ALL: [Self; 6] =
        [Self::Lock, Self::Own, Self::Clock, Self::EagerLock, Self::EagerOwn, Self::EagerClock];

    pub fn name(self) -> &'static str {
        match self {
            Self::Lock => "lock",
            Self::Own => "own",
            Self::Clock => "clock",
            Self::EagerLock => "eager lock",
            Self::EagerOwn => "eager own",
            Self::EagerClock => "eager clock",
        }
    }

    pub fn named(line: &[u8]) -> Option<Self> {
        Self::ALL.into_iter().find(|choice| choice.name().as_bytes() == line)
    }
}

#[derive(Clone, Copy, PartialEq, Eq, Debug)]
pub enum Command {
    Begin { task: u8 },
    Read { task: u8, variable: u8 },
    Write { task: u8, variable: u8, value: i32 },
    Commit { task: u8 },
    Abort { task: u8 },
}

/// The written form of a command.
impl fmt::Display for Command {
    fn fmt(&self, form: &mut fmt::Formatter<'_>) -> fmt::Result {
        match self {
            Self::Begin { task } => write!(form, "B {task}"),
            Self::Read { task, variable } => write!(form, "R {task} {variable}"),
            Self::Write { task, variable, value } => write!(form, "W {task} {variable} {value}"),
            Self::Commit { task } => write!(form, "C {task}"),
            Self::Abort { task } => write!(form, "A {task}"),
        }
    }
}

/// A line lacks the form: the first field that is missing, wrong or too many, counted from 1.
#[derive(Clone, Copy, PartialEq, Eq, Debug)]
pub struct FormFault {
    pub field: u8,
}

/// What is wrong with a text, or with one of its lines.
#[derive(Clone, Copy, PartialEq, Eq, Debug)]
pub enum TextFault {
    TooLong,
    NoPolicy,
    Form { line: usize, field: u8 },
}

/// The lines of a text. A last LF ends a line and begins none.
#[derive(Clone)]
pub struct Lines<'a> {
    rest: &'a [u8],
}

impl<'a> Lines<'a> {
    pub fn new(text: &'a [u8]) -> Self {
        Self { rest: text }
    }
}

impl<'a> Iterator for Lines<'a> {
    type Item = &'a [u8];

    fn next(&mut self) -> Option<&'a [u8]> {
        if self.rest.is_empty() {
            return None;
        }
        match self.rest.iter().position(|&byte| byte == b'\n') {
            Some(end) => {
                let line = &self.rest[..end];
                self.rest = &self.rest[end + 1..];
                Some(line)
            }
            None => Some(std::mem::take(&mut self.rest)),
        }
    }
}

/// The policy of a text and its command lines.
pub fn open(text: &[u8]) -> Result<(Choice, Lines<'_>), TextFault> {
    if text.len() > TEXT_LIMIT {
        return Err(TextFault::TooLong);
    }
    let mut lines = Lines::new(text);
    let choice = lines.next().and_then(Choice::named).ok_or(TextFault::NoPolicy)?;
    Ok((choice, lines))
}

/// The faults of form of a text, as far as a run meets them.
pub fn faults(text: &[u8]) -> Vec<TextFault> {
    match open(text) {
        Err(fault) => vec![fault],
        Ok((_, lines)) => (2..)
            .zip(lines)
            .filter_map(|(line, bytes)| {
                let FormFault { field } = parse(bytes).err()?;
                Some(TextFault::Form { line, field })
            })
            .collect(),
    }
}

pub fn parse(line: &[u8]) -> Result<Command, FormFault> {
    let mut fields = Fields { rest: Some(line), field: 0 };
    let letter = fields.next_by(letter)?;
    let task = fields.next_by(small)?;
    let command = match letter {
        Letter::Begin => Command::Begin { task },
        Letter::Read => Command::Read { task, variable: fields.next_by(small)? },
        Letter::Write => {
            Command::Write { task, variable: fields.next_by(small)?, value: fields.next_by(value)? }
        }
        Letter::Commit => Command::Commit { task },
        Letter::Abort => Command::Abort { task },
    };
    fields.end().map(|()| command)
}

/// What stands between the spaces of a line.
struct Fields<'a> {
    rest: Option<&'a [u8]>,
    field: u8,
}

impl<'a> Fields<'a> {
    /// The next field, which has to be there and to be read by `read`.
    fn next_by<T>(&mut self, read: impl FnOnce(&[u8]) -> Option<T>) -> Result<T, FormFault> {
        self.field += 1;
        self.take().and_then(read).ok_or(FormFault { field: self.field })
    }

    fn end(&self) -> Result<(), FormFault> {
        match self.rest {
            None => Ok(()),
            Some(_) => Err(FormFault { field: self.field + 1 }),
        }
    }

    fn take(&mut self) -> Option<&'a [u8]> {
        let rest = self.rest?;
        match rest.iter().position(|&byte| byte == b' ') {
            Some(end) => {
                self.rest = Some(&rest[end + 1..]);
                Some(&rest[..end])
            }
            None => self.rest.take(),
        }
    }
}

enum Letter {
    Begin,
    Read,
    Write,
    Commit,
    Abort,
}

fn letter(field: &[u8]) -> Option<Letter> {
    match field {
        b"B" => Some(Letter::Begin),
        b"R" => Some(Letter::Read),
        b"W" => Some(Letter::Write),
        b"C" => Some(Letter::Commit),
        b"A" => Some(Letter::Abort),
        _ => None,
    }
}

/// A task or a variable: 0 to 255.
fn small(field: &[u8]) -> Option<u8> {
    natural(field)?.try_into().ok()
}

/// A value: -2147483648 to 2147483647, and no `-0`.
fn value(field: &[u8]) -> Option<i32> {
    match field {
        [b'-', digits @ ..] => match natural(digits)? {
            0 => None,
            size => 0_i32.checked_sub_unsigned(size),
        },
        digits => natural(digits)?.try_into().ok(),
    }
}

/// A decimal number without leading zeros that fits 32 bits.
fn natural(digits: &[u8]) -> Option<u32> {
    match digits {
        [] | [b'0', _, ..] => None,
        _ => digits.iter().try_fold(0_u32, |number, &digit| {
            let digit = digit.wrapping_sub(b'0');
            if digit > 9 {
                return None;
            }
            number.checked_mul(10)?.checked_add(digit.into())
        }),
    }
}

#[cfg(test)]
mod tests;
