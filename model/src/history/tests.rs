use super::*;
use crate::generate::{self, Kind};
use crate::law::Violation;
use crate::law::{Tally, check};
use crate::limits::{Task, VarSet, Variable};
use crate::policy::{Clock, Eager, Lock, Own};
use crate::reduce::reduce;
use crate::{proved, runner};

#[test]
fn a_closed_text_shows_the_shared_values() {
    let text = closed(b"own\nB 7\nW 7 5 -3\nC 7\nB 2\nW 2 6 1");
    let history = of_text(&text, &runner::run(&text)).unwrap();
    let values = values_at_end(&history).unwrap();
    assert_eq!((values[5], values[6]), (-3, 0));
    assert!(check(&history, Some(&values)).is_ok());
}

#[test]
fn lines_without_the_form_are_no_calls() {
    let text = b"lock\nB 0\nB\nR 0 1\n";
    let history = of_text(text, &runner::run(text)).unwrap();
    assert_eq!(history.len(), 2);
}

#[test]
fn what_is_not_printed_so_gives_no_history() {
    let text = b"lock\nB 0\n";
    for wrong in [
        &b""[..],
        b"1 ok\n",
        b"1 ok\n2 ok",
        b"1 no 6\n2 ok\n",
        b"1 ok\n2 ko\n",
        b"1 ok\n2 ok\n3 ok\n",
    ] {
        assert_eq!(of_text(text, wrong), None);
    }
}

#[test]
fn runs_of_the_proved_function_are_lawful() {
    let mut rng = Rng::new(11);
    for kind in [Kind::Conflict, Kind::Wide] {
        for _ in 0..300 {
            let text = generate::text(kind, &mut rng);
            let verdict = check_text(proved::printed, &text);
            assert!(verdict.is_ok(), "{verdict:?}\n{}", text.escape_ascii());
        }
    }
}

fn lawful<P: Policy>(policy: impl Fn(usize) -> P) {
    let mut rng = Rng::new(12);
    let mut total = Tally::default();
    for run in 0..300 {
        let calls = rng.pick(&[15, 30, 60, 200]);
        let (history, shared) = of_table(policy(run), calls, &mut rng);
        let verdict = check(&history, Some(&shared));
        assert!(verdict.is_ok(), "{verdict:?}\n{history:#?}");
        total.add(verdict.unwrap());
    }
    assert!(total.committed > 1_000 && total.refused > 300 && total.tried > 50, "{total:?}");
}

/// Starts of the clock that are near its end, so that it is renumbered.
fn late_clock(run: usize) -> Clock {
    Clock::new(u32::MAX - (run % 7) as u32)
}

#[test]
fn runs_of_the_model_over_lock_are_lawful() {
    lawful(|_| Lock::new());
    lawful(|_| Eager::new(Lock::new()));
}

#[test]
fn runs_of_the_model_over_own_are_lawful() {
    lawful(|_| Own::new());
    lawful(|_| Eager::new(Own::new()));
}

#[test]
fn runs_of_the_model_over_clock_are_lawful() {
    lawful(|_| Clock::new(0));
    lawful(late_clock);
    lawful(|run| Eager::new(late_clock(run)));
}

/// A policy that grants everything, or that refuses some writes for no reason.
struct Careless {
    writes: [VarSet; TASKS],
    barred: Option<u8>,
}

impl Policy for Careless {
    const STRICT: bool = false;

    fn writes(&self, task: Task) -> VarSet {
        self.writes[task.index()]
    }

    fn is_behind(&self, _task: Task) -> bool {
        false
    }

    fn bars_read(&self, _task: Task, _variable: Variable) -> bool {
        false
    }

    fn bars_write(&self, _task: Task, variable: Variable) -> bool {
        self.barred == Some(variable.number())
    }

    fn begin(&mut self, _task: Task) {}

    fn note_read(&mut self, _task: Task, _variable: Variable) {}

    fn note_write(&mut self, task: Task, variable: Variable) {
        self.writes[task.index()].add(variable);
    }

    fn publish(&mut self, task: Task) {
        self.abort(task);
    }

    fn abort(&mut self, task: Task) {
        self.writes[task.index()] = VarSet::EMPTY;
    }
}

/// How often runs over a careless policy break the law in each way.
fn violations(barred: Option<u8>) -> Vec<Violation> {
    let mut rng = Rng::new(13);
    let policy = || Careless { writes: [VarSet::EMPTY; TASKS], barred };
    let verdict = |rng: &mut Rng| {
        let (history, shared) = of_table(policy(), 40, rng);
        check(&history, Some(&shared)).err()
    };
    (0..400).filter_map(|_| verdict(&mut rng)).collect()
}

#[test]
fn a_policy_that_grants_everything_is_found_out() {
    let found = violations(None);
    let has = |is: fn(&Violation) -> bool| found.iter().any(is);
    assert!(has(|it| matches!(it, Violation::NoSerialOrder)));
    assert!(has(|it| matches!(it, Violation::NoMoment { .. })));
}

#[test]
fn a_policy_that_refuses_for_no_reason_is_found_out() {
    assert!(violations(Some(1)).iter().any(|it| matches!(it, Violation::NoRival { .. })));
}

/// Runs a text over a policy that grants everything, whichever it names.
fn carelessly(text: &[u8]) -> Result<Vec<u8>, i64> {
    match open(text) {
        Ok((_, lines)) => {
            let policy = Careless { writes: [VarSet::EMPTY; TASKS], barred: None };
            Ok(runner::run_over(policy, lines))
        }
        Err(_) => Ok(runner::run(text)),
    }
}

#[test]
fn a_text_against_the_law_is_made_small() {
    let mut rng = Rng::new(14);
    let is_unlawful = |text: &[u8]| open(text).is_ok() && check_text(carelessly, text).is_err();
    let texts = std::iter::from_fn(|| Some(generate::text(Kind::Conflict, &mut rng)));
    let found = texts.take(500).find(|text| is_unlawful(text)).expect("one is against the law");
    let small = reduce(&found, is_unlawful);
    let shown = small.escape_ascii().to_string();
    assert!(is_unlawful(&small), "{shown}");
    assert!(small.iter().filter(|&&byte| byte == b'\n').count() <= 8, "{shown}");
}
