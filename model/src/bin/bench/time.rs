//! Time: the two sides take turns, and the best pass of each counts.

use super::{Case, SPARE, Side, head};
use std::time::Instant;

pub const ROUNDS: usize = 40;

pub fn report(rounds: usize) -> Result<(), String> {
    println!("{rounds} rounds, the sides taking turns; best pass of each, in ns for each line");
    println!(
        "both fill one buffer that is allocated once and has {SPARE} bytes more than the output; \
         both clear those"
    );
    println!("{}", head("ns"));
    for mut case in Case::all() {
        let (proved, model) = best(&mut case, rounds);
        println!("{}", case.row(proved, model));
    }
    Ok(())
}

/// The nanoseconds of the best pass of each side.
fn best(case: &mut Case, rounds: usize) -> (f64, f64) {
    let start = (f64::INFINITY, f64::INFINITY);
    (0..rounds).fold(start, |(proved, model), _| {
        (proved.min(pass(case, Side::Proved)), model.min(pass(case, Side::Model)))
    })
}

fn pass(case: &mut Case, side: Side) -> f64 {
    let start = Instant::now();
    case.pass(side);
    start.elapsed().as_nanos() as f64
}
