//! Compares the proved function with the model on many texts, and checks the law on their runs.

use polungaw_model::agreement::{difference, room_difference, shown};
use polungaw_model::generate::{self, Kind};
use polungaw_model::history;
use polungaw_model::law::{self, Tally};
use polungaw_model::policy::{Clock, Eager, Lock, Own};
use polungaw_model::proved;
use polungaw_model::reduce::reduce;
use polungaw_model::rng::Rng;
use polungaw_model::runner;
use polungaw_model::survey::Survey;
use polungaw_model::text::{Choice, open};
use std::process::ExitCode;
use std::time::{SystemTime, UNIX_EPOCH};

const USAGE: &str = "usage: agree [--texts COUNT] [--seed NUMBER|random]";

struct Options {
    texts: usize,
    seed: u64,
}

impl Options {
    fn from_args(mut args: impl Iterator<Item = String>) -> Option<Self> {
        let mut options = Self { texts: 20_000, seed: 1 };
        while let Some(name) = args.next() {
            let value = args.next()?;
            match (name.as_str(), value.as_str()) {
                ("--texts", count) => options.texts = count.parse().ok()?,
                ("--seed", "random") => options.seed = seed_of_now(),
                ("--seed", number) => options.seed = number.parse().ok()?,
                _ => return None,
            }
        }
        Some(options)
    }
}

fn seed_of_now() -> u64 {
    let now = SystemTime::now().duration_since(UNIX_EPOCH).unwrap_or_default();
    Rng::new(now.as_nanos() as u64 ^ u64::from(std::process::id())).draw()
}

/// What went wrong, ready to be printed.
struct Fault(String);

fn main() -> ExitCode {
    let Some(options) = Options::from_args(std::env::args().skip(1)) else {
        eprintln!("{USAGE}");
        return ExitCode::from(2);
    };
    println!("seed: {}", options.seed);
    match survey(&options) {
        Ok(survey) => {
            print!("{survey}");
            println!("no difference");
            ExitCode::SUCCESS
        }
        Err(Fault(told)) => {
            println!("{told}");
            ExitCode::FAILURE
        }
    }
}

fn survey(options: &Options) -> Result<Survey, Fault> {
    let mut rng = Rng::new(options.seed);
    let mut survey = Survey::default();
    for number in 0..options.texts {
        let kind = Kind::any(&mut rng);
        let text = generate::text(kind, &mut rng);
        let found = |Fault(told)| Fault(format!("text {number}, {}\n{told}", kind.name()));
        compare(&text).map_err(found)?;
        survey.count(kind, &text, &runner::run(&text));
        if kind.is_well_formed() {
            survey.texts_by_law.add(check_text(&text).map_err(found)?);
        }
        if number % 10 == 0 {
            survey.tables_by_law.add(check_table(&mut rng)?);
        }
    }
    Ok(survey)
}

fn compare(text: &[u8]) -> Result<(), Fault> {
    let differs = |text: &[u8]| {
        room_difference(proved::room(text.len()), text.len())
            .or_else(|| difference(proved::run, text))
    };
    if differs(text).is_none() {
        return Ok(());
    }
    let small = reduce(text, |text| differs(text).is_some());
    let found = differs(&small).map(|found| found.to_string()).unwrap_or_default();
    Err(Fault(format!("DIFFERENCE on \"{}\"\n{found}", shown(&small))))
}

/// Checks the law on what the proved function prints of the text.
fn check_text(text: &[u8]) -> Result<Tally, Fault> {
    let law_of = |text: &[u8]| history::check_text(proved::printed, text);
    law_of(text).map_err(|_| {
        let small = reduce(text, |text| open(text).is_ok() && law_of(text).is_err());
        let found = law_of(&small).err().unwrap_or_default();
        let whole = history::closed_if_fit(&small);
        let printed = proved::printed(&whole).unwrap_or_default();
        let (whole, printed) = (shown(&whole), shown(&printed));
        Fault(format!("AGAINST THE LAW: {found}\n  text:   \"{whole}\"\n  proved: \"{printed}\""))
    })
}

/// Checks the law on a run of the model's table, with collects and snapshots.
fn check_table(rng: &mut Rng) -> Result<Tally, Fault> {
    let calls = rng.pick(&[15, 30, 60, 200]);
    let start = u32::MAX - rng.below(8) as u32;
    let choice = rng.pick(&Choice::ALL);
    let (history, shared) = match choice {
        Choice::Lock => history::of_table(Lock::new(), calls, rng),
        Choice::Own => history::of_table(Own::new(), calls, rng),
        Choice::Clock => history::of_table(Clock::new(start), calls, rng),
        Choice::EagerLock => history::of_table(Eager::new(Lock::new()), calls, rng),
        Choice::EagerOwn => history::of_table(Eager::new(Own::new()), calls, rng),
        Choice::EagerClock => history::of_table(Eager::new(Clock::new(start)), calls, rng),
    };
    law::check(&history, Some(&shared)).map_err(|how| {
        let calls: String = history.iter().map(|event| format!("  {event:?}\n")).collect();
        Fault(format!("AGAINST THE LAW: {how}, in the model over {}\n{calls}", choice.name()))
    })
}
