//! The text check against `std::str::from_utf8` and then `chars().count()`, on all cores: every sequence of up to four
//! bytes, and every one of up to three after runs of ASCII. How many of each length are valid must also be what the
//! grammar of RFC 3629 gives, which is computed without std. Exit status 1 and the first difference if there is one.

use rook_row::raw::text_check;
use std::ops::Range;
use std::sync::atomic::{AtomicU64, Ordering};
use std::{process, str, thread};

/// The lengths of the runs of ASCII: those at which a quick way of the check ends, and those one byte short of it.
const FRONTS: [usize; 9] = [3, 7, 8, 15, 16, 63, 64, 127, 128];

/// The sequences that a thread takes at a time.
const SHARE: u64 = 1 << 20;

/// How many characters UTF8-1, UTF8-2, UTF8-3 and UTF8-4 have.
const CHARACTERS: [u64; 4] = [128, 1_920, 61_440, 1_048_576];

/// The place of a sequence among those of its length, and what was answered there.
type Difference = (u64, String);

/// The number of valid sequences of `length` bytes by the grammar: a character, and a valid sequence after it.
fn grammar(length: usize) -> u64 {
    if length == 0 {
        return 1;
    }
    let forms = CHARACTERS.iter().zip(1..=length);
    forms
        .map(|(count, bytes)| count * grammar(length - bytes))
        .sum()
}

/// The number of valid sequences among some of `length` bytes, each after `front` bytes of ASCII.
fn compare(front: usize, length: usize, places: Range<u64>) -> Result<u64, Difference> {
    let mut buffer = [b'x'; 132];
    let mut valid = 0;
    for place in places {
        // The bytes behind the sequence are 0, and must not matter.
        let bytes = (place << (32 - 8 * length)) as u32;
        buffer[front..front + 4].copy_from_slice(&bytes.to_be_bytes());
        let text = &buffer[..front + length];
        let wanted = str::from_utf8(text).map(|text| text.chars().count()).ok();
        let answer = text_check(text);
        if answer != wanted {
            let told = format!("{text:02X?}: std {wanted:?}, ours {answer:?}");
            return Err((place, told));
        }
        valid += u64::from(answer.is_some());
    }
    Ok(valid)
}

/// The work of one thread: share after share, until none is left or there is a difference.
fn shares(front: usize, length: usize, next: &AtomicU64) -> Result<u64, Difference> {
    let total = 1 << (8 * length);
    let mut valid = 0;
    loop {
        let begin = next.fetch_add(SHARE, Ordering::Relaxed);
        if begin >= total {
            return Ok(valid);
        }
        let share = compare(front, length, begin..total.min(begin + SHARE));
        if share.is_err() {
            next.store(total, Ordering::Relaxed);
        }
        valid += share?;
    }
}

/// The number of valid sequences among all of `length` bytes. Shares are handed out in order and always finished, so
/// that the least of the differences is the first.
fn every(front: usize, length: usize) -> Result<u64, Difference> {
    let threads = thread::available_parallelism().map_or(1, usize::from);
    let next = AtomicU64::new(0);
    let mut valid = 0;
    let mut differences = Vec::new();
    thread::scope(|scope| {
        let started: Vec<_> = (0..threads)
            .map(|_| scope.spawn(|| shares(front, length, &next)))
            .collect();
        for thread in started {
            match thread.join().unwrap() {
                Ok(count) => valid += count,
                Err(difference) => differences.push(difference),
            }
        }
    });
    differences.into_iter().min().map_or(Ok(valid), Err)
}

/// The number of sequences of up to `longest` bytes, and of valid ones.
fn up_to(longest: usize, front: usize) -> Result<[u64; 2], String> {
    let mut counts = [0, 0];
    for length in 0..=longest {
        let valid = every(front, length).map_err(|(_, told)| told)?;
        let wanted = grammar(length);
        if valid != wanted {
            let told = format!("{valid} valid, by RFC 3629 {wanted}");
            return Err(format!("{length} bytes after {front} of ASCII: {told}"));
        }
        counts = [counts[0] + (1 << (8 * length)), counts[1] + valid];
    }
    Ok(counts)
}

fn main() {
    let mut total = [0, 0];
    for (longest, front) in [(4, 0)].into_iter().chain(FRONTS.map(|front| (3, front))) {
        let [all, valid] = up_to(longest, front).unwrap_or_else(|told| {
            println!("DIFFERENT: {told}");
            process::exit(1)
        });
        println!("up to {longest} bytes after {front:>3} of ASCII: {all:>10} sequences, {valid:>9} valid");
        total = [total[0] + all, total[1] + valid];
    }
    let [all, valid] = total;
    println!("no difference in {all} sequences, of which {valid} are valid");
}
