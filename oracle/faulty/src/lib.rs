//! The model with one fault of `FAULTS` switched on, or none.

#![forbid(unsafe_code)]
// What the build script writes: each fault in parentheses, whatever it says.
#![allow(unused_parens, clippy::all)]

use std::sync::atomic::{AtomicUsize, Ordering};

include!(concat!(env!("OUT_DIR"), "/model.rs"));

static FAULT: AtomicUsize = AtomicUsize::new(0);

/// Switches on the fault of this number, counted from 1, and all others off.
pub fn plant(number: usize) {
    assert!(number <= FAULTS.len(), "there are {}", FAULTS.len());
    FAULT.store(number, Ordering::Relaxed);
}

fn on(number: usize) -> bool {
    FAULT.load(Ordering::Relaxed) == number
}
