//! The port compared with the Rust. `compare` has a module for each call, with
//! one comparison on one generated input; `port` reaches the port's calls on
//! rows, `probe` its inner functions, `lent` tells what a call left, `memory` is
//! where slices are lent from, `chars` tells what a call shows of kind 16. The
//! program `differential` runs comparisons for a time, the program `record` writes
//! a sample of the Rust's answers to a file. `attack` compares the exported calls
//! with the model alone, many times; the program of that name runs it.
//! `bench_read`, `bench_build`, `bench_edit`, `bench_same` and `bench_print`
//! measure with what `bench` has.

pub mod attack;
pub mod bench;
pub mod chars;
pub mod compare;
pub mod lent;
pub mod memory;
pub mod port;
pub mod probe;
pub mod recorded;

use cases::rng::Rng;
use std::fmt::Debug;

/// A comparison that was run.
pub struct Compared {
    /// The sorts of its inputs, and how many of each it ran.
    pub sorts: Vec<(String, u64)>,
    /// What the two gave, if it is not the same.
    pub difference: Option<String>,
}

impl Compared {
    /// The same answer, or a difference told by `input`.
    pub fn new<T: PartialEq + Debug>(
        sort: impl Debug,
        port: T,
        wanted: T,
        input: impl FnOnce() -> String,
    ) -> Self {
        let difference = (port != wanted)
            .then(|| format!("{}\n  port   {port:?}\n  wanted {wanted:?}", input()));
        Compared {
            sorts: vec![(format!("{sort:?}"), 1)],
            difference,
        }
    }

    /// A difference.
    pub fn different(sort: impl Debug, difference: String) -> Self {
        Compared {
            sorts: vec![(format!("{sort:?}"), 1)],
            difference: Some(difference),
        }
    }
}

/// A call's name, and one comparison of it on an input made from the choices.
pub type Comparison = (&'static str, fn(&mut Rng) -> Compared);

pub fn hex(bytes: &[u8]) -> String {
    bytes.iter().map(|byte| format!("{byte:02X} ")).collect()
}
