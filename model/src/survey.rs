//! Counts what the compared texts reach.

use crate::generate::Kind;
use crate::history::told;
use crate::law::Tally;
use crate::text::{Choice, open};
use std::fmt;

/// What is printed behind a line's number, each form of it once.
const ANSWERS: [&str; 13] = [
    "ok", "=", "no 1", "no 2", "no 5", "no 6", "no 7", "no 10", "no 11", "no 12", "no 20", "no 21",
    "no 22",
];

type Counts = [usize; ANSWERS.len()];

#[derive(Default)]
pub struct Survey {
    kinds: [usize; Kind::ALL.len()],
    bytes: usize,
    lines: usize,
    /// The answers under each policy, and those of texts that name none.
    answers: [Counts; Choice::ALL.len()],
    unnamed: Counts,
    other: usize,
    /// Histories of texts, by what the proved function printed.
    pub texts_by_law: Tally,
    /// Histories of the model's table, with collects and snapshots.
    pub tables_by_law: Tally,
}

impl Survey {
    /// Counts a text and what was printed of it.
    pub fn count(&mut self, kind: Kind, text: &[u8], printed: &[u8]) {
        self.kinds[place_of(&Kind::ALL, &kind)] += 1;
        self.bytes += text.len();
        let counts = match open(text) {
            Ok((choice, _)) => &mut self.answers[place_of(&Choice::ALL, &choice)],
            Err(_) => &mut self.unnamed,
        };
        for line in printed.split(|&byte| byte == b'\n').filter(|line| !line.is_empty()) {
            self.lines += 1;
            match told(line).and_then(answer_place) {
                Some(place) => counts[place] += 1,
                None => self.other += 1,
            }
        }
    }

    /// The answers that no line had.
    pub fn unreached(&self) -> Vec<&'static str> {
        let all = || self.answers.iter().chain([&self.unnamed]);
        let is_unreached = |place: usize| all().all(|counts| counts[place] == 0);
        (0..ANSWERS.len())
            .filter(|&place| is_unreached(place))
            .map(|place| ANSWERS[place])
            .collect()
    }
}

fn place_of<T: PartialEq>(all: &[T], one: &T) -> usize {
    all.iter().position(|other| other == one).expect("it is one of all")
}

fn answer_place(told: &str) -> Option<usize> {
    let form = if told.starts_with("= ") { "=" } else { told };
    ANSWERS.iter().position(|&answer| answer == form)
}

impl fmt::Display for Survey {
    fn fmt(&self, form: &mut fmt::Formatter<'_>) -> fmt::Result {
        writeln!(
            form,
            "texts: {}, bytes: {}, lines printed: {}",
            self.kinds.iter().sum::<usize>(),
            self.bytes,
            self.lines
        )?;
        for (kind, count) in Kind::ALL.iter().zip(self.kinds) {
            writeln!(form, "  {:<24}{count:>9}", kind.name())?;
        }
        self.write_answers(form)?;
        writeln!(form, "checked by the law:")?;
        write_tally(form, "texts, as proved", self.texts_by_law)?;
        write_tally(form, "tables of the model", self.tables_by_law)
    }
}

impl Survey {
    fn write_answers(&self, form: &mut fmt::Formatter<'_>) -> fmt::Result {
        write!(form, "answers     ")?;
        ANSWERS.iter().try_for_each(|answer| write!(form, "{answer:>9}"))?;
        writeln!(form)?;
        let named = Choice::ALL.iter().map(|choice| choice.name()).zip(self.answers);
        for (name, counts) in named.chain([("no policy", self.unnamed)]) {
            write!(form, "{name:<12}")?;
            counts.iter().try_for_each(|count| write!(form, "{count:>9}"))?;
            writeln!(form)?;
        }
        if self.other > 0 {
            writeln!(form, "lines of no known form: {}", self.other)?;
        }
        Ok(())
    }
}

fn write_tally(form: &mut fmt::Formatter<'_>, what: &str, tally: Tally) -> fmt::Result {
    let Tally { histories, transactions, committed, refused, tried } = tally;
    writeln!(
        form,
        "  {what:<22}{histories:>8} histories, {transactions} transactions, {committed} committed, \
         {refused} refused by the policy; all orders tried: {tried}"
    )
}

#[cfg(test)]
mod tests {
    use super::*;
    use crate::generate;
    use crate::rng::Rng;
    use crate::runner::run;

    #[test]
    fn the_texts_reach_every_answer() {
        let mut rng = Rng::new(1);
        let mut survey = Survey::default();
        for _ in 0..1_000 {
            let kind = Kind::any(&mut rng);
            let text = generate::text(kind, &mut rng);
            survey.count(kind, &text, &run(&text));
        }
        assert_eq!(survey.unreached(), Vec::<&str>::new());
        assert_eq!(survey.other, 0);
    }
}
