//! Compares the proved library with the Rust text on calls that are done and with the second
//! reading of document 01 on those that are refused.
#![allow(dead_code)]

// The oracle's own modules, as they are.
#[path = "../../src/answer.rs"]
mod answer;
#[path = "../../src/arithmetic.rs"]
mod arithmetic;
#[path = "../../src/calls.rs"]
mod calls;
#[path = "../../src/case.rs"]
mod case;
#[path = "../../src/coordinates.rs"]
mod coordinates;
#[path = "../../src/damage.rs"]
mod damage;
#[path = "../../src/extra.rs"]
mod extra;
#[path = "../../src/made_files.rs"]
mod made_files;
#[path = "../../src/mesh.rs"]
mod mesh;
#[path = "../../src/meshes.rs"]
mod meshes;
#[path = "../../src/operator.rs"]
mod operator;
#[path = "../../src/panel.rs"]
mod panel;
#[path = "../../src/random.rs"]
mod random;
#[path = "../../src/recipe.rs"]
mod recipe;
#[path = "../../src/run_answer.rs"]
mod run_answer;
#[path = "../../src/runs.rs"]
mod runs;
#[path = "../../src/rust_side.rs"]
mod rust_side;
#[path = "../../src/shapes.rs"]
mod shapes;
#[path = "../../src/show.rs"]
mod show;
#[path = "../../src/table.rs"]
mod table;
#[path = "../../src/tally.rs"]
mod tally;

mod by_files;
mod expected;
mod expected_runs;
mod lent;
#[cfg(feature = "linked")]
mod library;
#[cfg(feature = "linked")]
mod library_runs;
mod made;
mod outcome;
mod shrink;

// The library in this process or, where it cannot be linked, through files.
#[cfg(not(feature = "linked"))]
use by_files::outcomes;
#[cfg(feature = "linked")]
use library::outcomes;

use made::{Call, Entry};
use outcome::Outcome;
use random::Random;
use std::collections::BTreeMap;
use std::time::Instant;
use tally::Tally;

const USAGE: &str = "usage: oracle/compare [--files] [--calls N] [--seed S] [--call I]
  N calls (100,000) made from the seed S (1); with I only call I of them, shown;
  with --files the library plays files of calls, as it does where it cannot be linked";

/// So many calls are handed to the library at a time.
const BATCH: usize = 5_000;

struct Options {
    calls: u64,
    seed: u64,
    only: Option<u64>,
}

fn options() -> Result<Options, String> {
    let mut options = Options { calls: 100_000, seed: 1, only: None };
    let mut words = std::env::args().skip(1);
    while let Some(word) = words.next() {
        let number = words
            .next()
            .and_then(|number| number.replace(['_', ','], "").parse().ok())
            .ok_or(USAGE)?;
        match word.as_str() {
            "--calls" => options.calls = number,
            "--seed" => options.seed = number,
            "--call" => options.only = Some(number),
            _ => return Err(USAGE.to_string()),
        }
    }
    Ok(options)
}

/// Call `index` of a seed: each is made from numbers of its own.
fn call(seed: u64, index: u64) -> Call {
    made::call(&mut Random::new(seed.wrapping_shl(40).wrapping_add(index)), index)
}

/// Where the two sides differ, as text.
fn difference(call: &Call) -> Result<Option<String>, String> {
    let given = outcomes(std::slice::from_ref(call))?;
    Ok(outcome::difference(call, &expected::outcome(call), &given[0]))
}

fn report(call: &Call, index: u64, seed: u64) -> String {
    let with = |case: &case::Case| Call { case: case.clone(), ..*call };
    let differs = |case: &case::Case| matches!(difference(&with(case)), Ok(Some(_)));
    let small = with(&shrink::smallest(&call.case, differs));
    let what = difference(&small).map_or_else(|error| error, Option::unwrap_or_default);
    format!(
        "call {index} of seed {seed} differs; the smallest case found:\n{}{what}",
        shown(&small)
    )
}

fn shown(call: &Call) -> String {
    format!("{}{}", heading(call.entry), show::case(&call.case))
}

fn heading(entry: Entry) -> &'static str {
    match entry {
        Entry::Named => "",
        Entry::FileSteps => "the steps of a file:\n",
        Entry::FileWrite => "the writing of a file:\n",
    }
}

/// What was compared.
#[derive(Default)]
struct Compared {
    tallies: BTreeMap<Entry, Tally>,
    done: u64,
    library_seconds: f64,
}

impl Compared {
    fn count(&mut self, call: &Call, outcome: &Outcome) {
        self.done += u64::from(outcome.refusal.is_none());
        self.tallies.entry(call.entry).or_default().count(&call.case, outcome.counted());
    }

    /// Compares the calls from `first` on; an error tells of a difference.
    fn compare(&mut self, calls: &[Call], first: u64, seed: u64) -> Result<(), String> {
        let before = Instant::now();
        let given = outcomes(calls).map_err(|error| {
            format!("{} calls of seed {seed} from {first} on: {error}", calls.len())
        })?;
        self.library_seconds += before.elapsed().as_secs_f64();
        for ((call, given), index) in calls.iter().zip(&given).zip(first..) {
            let expected = expected::outcome(call);
            if outcome::difference(call, &expected, given).is_some() {
                return Err(report(call, index, seed));
            }
            self.count(call, &expected);
        }
        Ok(())
    }
}

fn run() -> Result<(), String> {
    let Options { calls, seed, only } = options()?;
    if let Some(index) = only {
        let call = call(seed, index);
        print!("{}", shown(&call));
        return difference(&call)?.map_or(Ok(()), |_| Err(report(&call, index, seed)));
    }
    let started = Instant::now();
    let mut compared = Compared::default();
    for first in (0..calls).step_by(BATCH) {
        let end = calls.min(first + BATCH as u64);
        let batch: Vec<Call> = (first..end).map(|index| call(seed, index)).collect();
        compared.compare(&batch, first, seed)?;
    }
    let seconds = started.elapsed().as_secs_f64();
    for (entry, tally) in &compared.tallies {
        print!("{}{tally}", heading(*entry));
    }
    let Compared { done, library_seconds, .. } = compared;
    let refused = calls - done;
    println!("{calls} calls ({done} done, {refused} refused), 0 differences, {seconds:.0} s");
    println!("of these {library_seconds:.0} s in the library");
    Ok(())
}

fn main() {
    if let Err(message) = rust_side::with_threads(run) {
        println!("{message}");
        std::process::exit(1);
    }
}
