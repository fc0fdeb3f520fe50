//! Runs the comparisons in turn for a time and says how many of which sort ran.
//! Every case has its own choices, made from the seed and the case's number.
//!
//! differential [--seconds N] [--seed N] [--call NAME] [--cases N] [--case N]
//! With `--call` the cases of one call run alone, with `--cases` at most so many.
//! The last runs one case alone, by the number that a difference was told with.

use cases::rng::Rng;
use cases::rust;
use differential::{Compared, compare};
use std::collections::BTreeMap;
use std::process::ExitCode;
use std::time::{Duration, Instant};

struct Options {
    seconds: u64,
    seed: u64,
    call: Option<usize>,
    cases: u64,
    case: Option<u64>,
}

const USAGE: &str = "differential [--seconds N] [--seed N] [--call NAME] [--cases N] [--case N]";

fn options() -> Option<Options> {
    let mut options = Options {
        seconds: 60,
        seed: 1,
        call: None,
        cases: u64::MAX,
        case: None,
    };
    let mut words = std::env::args().skip(1);
    while let Some(word) = words.next() {
        let value = words.next()?;
        if word == "--call" {
            options.call = Some(compare::ALL.iter().position(|(name, _)| *name == value)?);
            continue;
        }
        let number = value.parse().ok()?;
        match word.as_str() {
            "--seconds" => options.seconds = number,
            "--seed" => options.seed = number,
            "--cases" => options.cases = number,
            "--case" => options.case = Some(number),
            _ => return None,
        }
    }
    Some(options)
}

/// How many inputs of which sort of which call ran; no sort for all.
type Counts = BTreeMap<(&'static str, Option<String>), u64>;

/// Runs case `number`, counts it, and tells whether the two agreed.
fn run(seed: u64, number: u64, counts: &mut Counts) -> bool {
    let (call, compare) = compare::ALL[(number % compare::ALL.len() as u64) as usize];
    let mut rng = Rng::new(seed ^ number.wrapping_mul(0xD1B5_4A32_D192_ED03));
    // A panic of a judge is told like a difference.
    let compared = rust::guarded(|| compare(&mut rng))
        .unwrap_or_else(|message| Compared::different("panicked", message));
    if let Some(difference) = &compared.difference {
        println!("DIFFERENT: {call}: --seed {seed} --case {number}");
        println!("  {difference}");
    }
    *counts.entry((call, None)).or_default() += 1;
    for (sort, count) in compared.sorts {
        *counts.entry((call, Some(sort))).or_default() += count;
    }
    compared.difference.is_none()
}

fn main() -> ExitCode {
    let Some(options) = options() else {
        eprintln!("{USAGE}");
        return ExitCode::from(2);
    };
    let mut counts = Counts::new();
    if let Some(number) = options.case {
        return ExitCode::from(u8::from(!run(options.seed, number, &mut counts)));
    }
    let end = Instant::now() + Duration::from_secs(options.seconds);
    let (mut number, step) = match options.call {
        Some(call) => (call as u64, compare::ALL.len() as u64),
        None => (0, 1),
    };
    let mut done = 0;
    let mut different = 0;
    while Instant::now() < end && done < options.cases && different < 10 {
        different += u32::from(!run(options.seed, number, &mut counts));
        number += step;
        done += 1;
    }
    for ((call, sort), count) in &counts {
        match sort {
            Some(sort) => println!("{count:>10}  {call}: {sort}"),
            None => println!("{count:>10}  {call}"),
        }
    }
    println!(
        "{done:>10}  comparisons with seed {}, {different} different",
        options.seed
    );
    ExitCode::from(u8::from(different > 0))
}
