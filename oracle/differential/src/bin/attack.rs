//! The exported calls of librook_row.a against the model, on slices that end at
//! unreadable pages, for so many calls; says how many of which call and answer.
//!
//! attack [--calls N] [--seed N] [--only CALL] [--round N] [--faults] [--front] [--blocks]
//! With `--only` one call alone is made. `--round` runs the one round that a
//! difference was told with. `--faults` runs the model with one fault after the
//! other, each of which must be found within so many calls, by a difference: where
//! a fault makes the model panic, the round is left. With `--front` slices begin
//! behind unreadable pages instead. `--blocks` is for valgrind: each slice is a
//! block of its own.

use cases::rng::Rng;
use cases::rust;
use differential::attack::judge::{FAULTY, Judge, MODEL};
use differential::attack::{Attack, Call};
use differential::chars::Shown;
use differential::memory::Side;
use std::ffi::{c_int, c_void};
use std::io::Write;
use std::process::ExitCode;
use std::sync::atomic::{AtomicU64, Ordering};
use std::time::Instant;

const USAGE: &str =
    "attack [--calls N] [--seed N] [--only CALL] [--round N] [--faults] [--front] [--blocks]";

#[derive(Clone, Copy)]
struct Options {
    calls: u64,
    seed: u64,
    only: Option<Call>,
    round: Option<u64>,
    faults: bool,
    side: Side,
    blocks: bool,
}

fn options() -> Option<Options> {
    let mut options = Options {
        calls: 10_000_000,
        seed: 1,
        only: None,
        round: None,
        faults: false,
        side: Side::End,
        blocks: false,
    };
    let mut words = std::env::args().skip(1);
    while let Some(word) = words.next() {
        let mut number = || words.next()?.parse().ok();
        match word.as_str() {
            "--calls" => options.calls = number()?,
            "--seed" => options.seed = number()?,
            "--round" => options.round = Some(number()?),
            "--only" => {
                let name = words.next()?;
                let named = |call: &Call| call.name() == name;
                options.only = Some(Call::ALL.into_iter().find(named)?);
            }
            "--faults" => options.faults = true,
            "--front" => options.side = Side::Start,
            "--blocks" => options.blocks = true,
            _ => return None,
        }
    }
    Some(options)
}

/// The seed and the round that runs, for the handler.
static SEED: AtomicU64 = AtomicU64::new(0);
static ROUND: AtomicU64 = AtomicU64::new(0);

const SIGSEGV: c_int = 11;

unsafe extern "C" {
    fn signal(signal: c_int, handler: extern "C" fn(c_int)) -> usize;
    fn write(fd: c_int, bytes: *const c_void, length: usize) -> isize;
    fn _exit(status: c_int) -> !;
}

/// Says in which round a byte was touched that was not lent, or not for writing.
extern "C" fn touched(_: c_int) {
    let mut line = [0; 160];
    let mut rest = &mut line[..];
    let (seed, round) = (SEED.load(Ordering::Relaxed), ROUND.load(Ordering::Relaxed));
    let _ = writeln!(
        rest,
        "DIFFERENT: a byte was touched that was not lent, or not for writing: --seed {seed} --round {round}"
    );
    let length = 160 - rest.len();
    // SAFETY: a line of the stack; nothing else runs after it.
    unsafe {
        write(1, line.as_ptr().cast(), length);
        _exit(3)
    }
}

/// The choices of a round.
fn choices(seed: u64, round: u64) -> Rng {
    Rng::new(seed ^ round.wrapping_mul(0xD1B5_4A32_D192_ED03))
}

/// Runs rounds until so many calls are made or a difference is found.
fn run(judge: &'static Judge, options: &Options) -> (Attack, Option<u64>) {
    SEED.store(options.seed, Ordering::Relaxed);
    let mut attack = Attack::new(judge, options.side, options.blocks);
    attack.whole = options.round.is_some();
    let mut round = options.round.unwrap_or(0);
    loop {
        ROUND.store(round, Ordering::Relaxed);
        let mut rng = choices(options.seed, round);
        let done = rust::guarded(|| attack.round(&mut rng, options.only));
        if let Err(message) = done
            && !options.faults
        {
            attack.difference = Some(format!("panicked: {message}"));
        }
        if attack.difference.is_some() {
            return (attack, Some(round));
        }
        round += 1;
        if attack.counts.calls >= options.calls || options.round.is_some() {
            return (attack, None);
        }
    }
}

fn report(attack: &Attack, options: &Options, different: Option<u64>, seconds: f64) {
    for call in Call::ALL {
        let answers = &attack.counts.answers[call as usize];
        let total: u64 = answers.iter().sum();
        print!("{total:>11}  {:<22}", call.name());
        for (number, count) in answers.iter().enumerate().filter(|(_, count)| **count > 0) {
            print!(" {number}: {count}");
        }
        println!();
    }
    let counts = &attack.counts;
    println!("{:>11}  with a slice of 65,535 bytes or more", counts.large);
    println!(
        "{:>11}  with a slice of 1,048,576 bytes or more",
        counts.largest
    );
    for call in Call::ALL {
        let answers = &counts.long[call as usize];
        let total: u64 = answers.iter().sum();
        if total > 0 {
            print!("{total:>11}  long rows, {:<22}", call.name());
            for (number, count) in answers.iter().enumerate().filter(|(_, count)| **count > 0) {
                print!(" {number}: {count}");
            }
            println!();
        }
    }
    println!("{:>11}  same content of both sorts", counts.mixed);
    println!(
        "{:>11}  made for a schema of 256 columns or more",
        counts.wide
    );
    println!("{:>11}  inputs damaged", counts.damaged);
    for (shown, count) in Shown::ALL.into_iter().zip(counts.shown) {
        println!("{count:>11}  {}", shown.name());
    }
    println!(
        "{:>11}  calls with seed {}, {} different, {:.0} a second",
        counts.calls,
        options.seed,
        u32::from(different.is_some()),
        counts.calls as f64 / seconds
    );
}

/// Each fault must be found, and the model without one must not differ.
fn faults(options: &Options) -> bool {
    let mut found = 0;
    for number in 0..=faulty::FAULTS.len() {
        faulty::plant(number);
        let (attack, different) = run(&FAULTY, options);
        let calls = attack.counts.calls;
        let name = match number {
            0 => "No fault.",
            _ => faulty::FAULTS[number - 1],
        };
        match (number, different) {
            (0, None) => println!("{calls:>11} calls, none different: {name}"),
            (0, Some(_)) => println!("NOT THE MODEL: the copy without a fault differs"),
            (_, Some(_)) => {
                let difference = attack.difference.unwrap_or_default();
                let call = difference.split(',').next().unwrap_or_default();
                println!("{calls:>11} calls, found by {call:<22} {number:>2} {name}");
            }
            (_, None) => println!("NOT FOUND in {calls} calls: {number} {name}"),
        }
        found += usize::from(different.is_some() == (number > 0));
    }
    let all = faulty::FAULTS.len() + 1;
    println!("{} faults, {} found", all - 1, found.saturating_sub(1));
    found == all
}

fn main() -> ExitCode {
    let Some(options) = options() else {
        eprintln!("{USAGE}");
        return ExitCode::from(2);
    };
    // SAFETY: the handler ends the program.
    unsafe { signal(SIGSEGV, touched) };
    if options.faults {
        return ExitCode::from(u8::from(!faults(&options)));
    }
    let start = Instant::now();
    let (attack, different) = run(&MODEL, &options);
    let seconds = start.elapsed().as_secs_f64();
    if let (Some(round), Some(difference)) = (different, &attack.difference) {
        println!("DIFFERENT: --seed {} --round {round}", options.seed);
        println!("  {difference}");
    }
    report(&attack, &options, different, seconds);
    ExitCode::from(u8::from(different.is_some()))
}
