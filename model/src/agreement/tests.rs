use super::*;
use crate::generate::{self, Kind};
use crate::limits::{Task, VarSet, Variable};
use crate::policy::{Own, Policy};
use crate::proved;
use crate::reduce::reduce;
use crate::rng::Rng;
use crate::text::{Choice, Lines, open};

/// Ownership with a wrong rule: one that is behind may commit if it has written nothing.
struct Lax(Own);

impl Policy for Lax {
    const STRICT: bool = false;

    fn writes(&self, task: Task) -> VarSet {
        self.0.writes(task)
    }

    fn is_behind(&self, task: Task) -> bool {
        self.0.is_behind(task)
    }

    fn bars_read(&self, task: Task, variable: Variable) -> bool {
        self.0.bars_read(task, variable)
    }

    fn bars_write(&self, task: Task, variable: Variable) -> bool {
        self.0.bars_write(task, variable)
    }

    fn begin(&mut self, task: Task) {
        self.0.begin(task);
    }

    fn note_read(&mut self, task: Task, variable: Variable) {
        self.0.note_read(task, variable);
    }

    fn note_write(&mut self, task: Task, variable: Variable) {
        self.0.note_write(task, variable);
    }

    fn publish(&mut self, task: Task) {
        self.0.publish(task);
    }

    fn abort(&mut self, task: Task) {
        self.0.abort(task);
    }
}

fn fill(printed: &[u8], room: &mut [u8]) -> i64 {
    room.fill(0);
    match room.get_mut(..printed.len()) {
        Some(front) => {
            front.copy_from_slice(printed);
            printed.len() as i64
        }
        None => NO_ROOM,
    }
}

fn right(text: &[u8], room: &mut [u8]) -> i64 {
    fill(&runner::run(text), room)
}

fn lax(text: &[u8], room: &mut [u8]) -> i64 {
    match open(text) {
        Ok((Choice::Own, lines)) => fill(&runner::run_over(Lax(Own::new()), lines), room),
        _ => right(text, room),
    }
}

#[test]
fn a_wrong_rule_is_found_and_made_small() {
    let mut rng = Rng::new(1);
    let texts = std::iter::from_fn(|| Some(generate::text(Kind::Conflict, &mut rng)));
    let found = texts.take(2_000).find(|text| difference(lax, text).is_some());
    let small =
        reduce(&found.expect("a text tells them apart"), |text| difference(lax, text).is_some());
    let shown = small.escape_ascii().to_string();
    assert!(difference(lax, &small).is_some(), "{shown}");
    // A policy, two begins, a read, a write and two commits.
    assert_eq!(Lines::new(&small).count(), 7, "{shown}");
    assert!(small.len() <= 40, "{shown}");
}

#[test]
fn a_right_filler_differs_nowhere() {
    for text in [&b""[..], b"lock", b"own\nB 0\nX", &[b'x'; 60_001]] {
        assert_eq!(difference(right, text), None);
        assert_eq!(difference(proved::run, text), None);
        assert_eq!(room_difference(proved::room(text.len()), text.len()), None);
    }
}

#[test]
fn wrong_buffers_are_found() {
    let text = b"lock\nB 0\n";
    let dirty_behind = |text: &[u8], room: &mut [u8]| {
        let answer = right(text, room);
        if answer != NO_ROOM && room.len() as i64 > answer {
            *room.last_mut().unwrap() = 1;
        }
        answer
    };
    let dirty_refusal = |text: &[u8], room: &mut [u8]| {
        let answer = right(text, room);
        if answer == NO_ROOM && !room.is_empty() {
            room[0] = b'1';
        }
        answer
    };
    let wrong_answer = |text: &[u8], room: &mut [u8]| right(text, room).min(3);
    let length = |filler: &dyn Fn(&[u8], &mut [u8]) -> i64| match difference(filler, text) {
        Some(Difference::Buffer { length, .. }) => Some(length),
        _ => None,
    };
    assert_eq!(length(&dirty_behind), Some(350));
    assert_eq!(length(&dirty_refusal), Some(9));
    assert_eq!(length(&wrong_answer), Some(350));
}

#[test]
fn long_bytes_are_shown_in_part() {
    assert_eq!(shown(b"B 0\n"), "B 0\\n");
    let long = [vec![b'a'; 5_000], vec![b'b'; 5_000]].concat();
    assert_eq!(shown(&long), format!("{}[6000 bytes]{}", "a".repeat(2_000), "b".repeat(2_000)));
}

#[test]
fn writes_outside_are_found() {
    let length = 10;
    let mut memory = vec![MARK; length + 2 * GUARD];
    memory[GUARD..GUARD + length].fill(0);
    assert!(!is_touched_outside(&memory, length));
    for place in [0, GUARD - 1, GUARD + length, memory.len() - 1] {
        let mut memory = memory.clone();
        memory[place] = 0;
        assert!(is_touched_outside(&memory, length), "{place}");
    }
}
