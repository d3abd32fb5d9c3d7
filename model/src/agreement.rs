//! Compares the proved function with the model on one text.

use crate::proved::NO_ROOM;
use crate::runner;
use crate::text::TEXT_LIMIT;
use std::fmt;

/// Fills a buffer with what is printed of a text, as `polungaw_run` does.
pub trait Filler: Fn(&[u8], &mut [u8]) -> i64 {}

impl<F: Fn(&[u8], &mut [u8]) -> i64> Filler for F {}

/// What stands in a buffer and around it before a call.
const MARK: u8 = 0xa5;

/// How many bytes around a buffer are watched.
const GUARD: usize = 64;

/// How far the two differ on a text.
#[derive(Clone, PartialEq, Eq, Debug)]
pub enum Difference {
    /// The lengths of buffer that are said to suffice.
    Room { proved: usize, documented: usize },
    /// What a call with a buffer of that length answered and left, and what it should.
    Buffer { length: usize, expected: Filled, found: Filled },
    /// Bytes outside of a buffer of that length were written.
    Outside { length: usize },
}

/// What a call answered, and the whole buffer after it.
#[derive(Clone, PartialEq, Eq, Debug)]
pub struct Filled {
    pub answer: i64,
    pub bytes: Vec<u8>,
}

impl fmt::Display for Filled {
    fn fmt(&self, form: &mut fmt::Formatter<'_>) -> fmt::Result {
        let filled = self.bytes.iter().rposition(|&byte| byte != 0).map_or(0, |last| last + 1);
        let (front, zeros) = self.bytes.split_at(filled);
        write!(form, "answer {}, \"{}\" and {} zeros", self.answer, shown(front), zeros.len())
    }
}

impl fmt::Display for Difference {
    fn fmt(&self, form: &mut fmt::Formatter<'_>) -> fmt::Result {
        match self {
            Self::Room { proved, documented } => {
                write!(form, "room that suffices\n  proved: {proved}\n  model:  {documented}")
            }
            Self::Buffer { length, expected, found } => {
                write!(form, "a buffer of {length} bytes\n  proved: {found}\n  model:  {expected}")
            }
            Self::Outside { length } => {
                write!(form, "bytes outside of a buffer of {length} bytes were written")
            }
        }
    }
}

/// How many bytes of a long text are shown at each of its ends.
const SHOWN: usize = 2_000;

/// Bytes for a reader, escaped. The middle of long ones is left out.
pub fn shown(bytes: &[u8]) -> String {
    if bytes.len() <= 2 * SHOWN {
        return bytes.escape_ascii().to_string();
    }
    let (front, rest) = bytes.split_at(SHOWN);
    let (middle, end) = rest.split_at(rest.len() - SHOWN);
    format!("{}[{} bytes]{}", front.escape_ascii(), middle.len(), end.escape_ascii())
}

/// The length of buffer that suffices for any text of that length.
pub fn documented_room(text_len: usize) -> usize {
    35 * (text_len.min(TEXT_LIMIT) + 1)
}

/// Compares the lengths that are said to suffice.
pub fn room_difference(proved: usize, text_len: usize) -> Option<Difference> {
    let documented = documented_room(text_len);
    (proved != documented).then_some(Difference::Room { proved, documented })
}

/// Compares what `proved` does with what the model prints: with a buffer that suffices for any
/// such text, one just long enough, longer ones and ones that are too short.
pub fn difference(proved: impl Filler, text: &[u8]) -> Option<Difference> {
    let printed = runner::run(text);
    let exact = printed.len();
    let enough = documented_room(text.len());
    let lengths = [enough, exact, exact - 1, exact + 1, exact + 77, 0, exact / 2];
    lengths.into_iter().find_map(|length| buffer_difference(&proved, text, &printed, length))
}

fn buffer_difference(
    proved: impl Filler,
    text: &[u8],
    printed: &[u8],
    length: usize,
) -> Option<Difference> {
    let mut memory = vec![MARK; length + 2 * GUARD];
    let answer = proved(text, &mut memory[GUARD..GUARD + length]);
    if is_touched_outside(&memory, length) {
        return Some(Difference::Outside { length });
    }
    let bytes = &memory[GUARD..GUARD + length];
    if is_as_printed(printed, answer, bytes) {
        return None;
    }
    let found = Filled { answer, bytes: bytes.to_vec() };
    Some(Difference::Buffer { length, expected: expected(printed, length), found })
}

/// Whether a byte around the buffer of that length has changed.
fn is_touched_outside(memory: &[u8], length: usize) -> bool {
    let (before, behind) = (&memory[..GUARD], &memory[GUARD + length..]);
    before.iter().chain(behind).any(|&byte| byte != MARK)
}

fn is_as_printed(printed: &[u8], answer: i64, bytes: &[u8]) -> bool {
    let is_zeros = |bytes: &[u8]| bytes.iter().all(|&byte| byte == 0);
    match bytes.split_at_checked(printed.len()) {
        Some((front, rest)) => answer == printed.len() as i64 && front == printed && is_zeros(rest),
        None => answer == NO_ROOM && is_zeros(bytes),
    }
}

fn expected(printed: &[u8], length: usize) -> Filled {
    if length < printed.len() {
        return Filled { answer: NO_ROOM, bytes: vec![0; length] };
    }
    let mut bytes = printed.to_vec();
    bytes.resize(length, 0);
    Filled { answer: printed.len() as i64, bytes }
}

#[cfg(test)]
mod tests;
