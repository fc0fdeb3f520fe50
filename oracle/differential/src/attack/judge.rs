//! Who says what is wanted: the model, or the model with a fault.

use super::handle::{self, Handle};

/// An answer: number, place and what is handed out, which is a length, a flag, the
/// start and the length of a text, or whether bytes are text and its code points.
#[derive(Debug, Clone, Copy, PartialEq, Eq)]
pub struct Told {
    pub number: u32,
    pub place: usize,
    pub handed: [usize; 2],
}

impl Told {
    /// Number and place.
    pub fn answer(&self) -> (u32, usize) {
        (self.number, self.place)
    }
}

/// An answer of the port or of a judge, by the fields that it hands out.
macro_rules! told {
    ($answer:expr, $first:ident $(, $second:ident)?) => {{
        let answer = $answer;
        $crate::attack::judge::Told {
            number: answer.number,
            place: answer.place,
            handed: [answer.$first, 0 $(+ answer.$second)?],
        }
    }};
}
pub(super) use told;

/// The answer of a text check, which refuses nothing.
pub fn checked(valid: u32, points: usize) -> Told {
    Told {
        number: 0,
        place: 0,
        handed: [valid as usize, points],
    }
}

/// A judge's call on the handle that lent bytes are.
macro_rules! on_handle {
    ($lent:expr, |$handle:ident| $call:expr) => {{
        let [length, columns, varchars, fixed, packed, is_long] = handle::numbers($lent);
        let mut own = judge::Handle {
            length,
            columns,
            varchars,
            fixed,
            packed,
            is_long,
        };
        let $handle = &mut own;
        let answer = $call;
        let numbers = [own.length, own.columns, own.varchars, own.fixed];
        let marks = [own.packed, own.is_long];
        let all = [&numbers[..], &marks].concat();
        *$lent = handle::bytes(all.try_into().expect("six numbers"));
        told!(answer, length)
    }};
}

/// What a judge is asked, by a function for each call, and the two judges. In what a
/// function answers, `judge` is the crate `model` or `faulty`.
macro_rules! judges {
    ($($call:ident($($given:ident: $type:ty),*) => $answer:expr,)*) => {
        pub struct Judge {
            $(pub $call: fn($($type),*) -> Told,)*
        }

        pub static MODEL: Judge = {
            use model as judge;
            Judge { $($call: |$($given: $type),*| $answer,)* }
        };

        /// `faulty::plant` says which fault.
        pub static FAULTY: Judge = {
            use faulty as judge;
            Judge { $($call: |$($given: $type),*| $answer,)* }
        };
    };
}

judges! {
    fresh(schema: &[u8], is_long: bool, out: &mut [u8]) => {
        told!(judge::fresh(schema, judge::Sort::ALL[usize::from(is_long)], out), length)
    },
    build(schema: &[u8], is_long: bool, values: &[u8], text: &[u8], out: &mut [u8], counts: &mut [u32]) => {
        let sort = judge::Sort::ALL[usize::from(is_long)];
        told!(judge::build(schema, sort, values, text, out, counts), length)
    },
    read(schema: &[u8], row: &[u8], wanted: &[u16], out: &mut [u8], counts: &mut [u32]) => {
        told!(judge::read(schema, row, wanted, out, counts), length)
    },
    set(schema: &[u8], buffer: &mut [u8], length: usize, column: usize, values: &[u8], text: &[u8]) => {
        told!(judge::set(schema, buffer, length, column, values, text), length)
    },
    set_null(schema: &[u8], buffer: &mut [u8], length: usize, column: usize) => {
        told!(judge::set_null(schema, buffer, length, column), length)
    },
    handle_set(lent: &mut Handle, schema: &[u8], buffer: &mut [u8], column: usize, values: &[u8], text: &[u8]) => {
        on_handle!(lent, |handle| judge::handle_set(handle, schema, buffer, column, values, text))
    },
    handle_set_null(lent: &mut Handle, schema: &[u8], buffer: &mut [u8], column: usize) => {
        on_handle!(lent, |handle| judge::handle_set_null(handle, schema, buffer, column))
    },
    text(schema: &[u8], row: &[u8], column: usize) => {
        told!(judge::text(schema, row, column), start, length)
    },
    same_content(schema: &[u8], a: &[u8], b: &[u8]) => told!(judge::same_content(schema, a, b), flag),
    is_null(row: &[u8], column: usize) => told!(judge::is_null(row, column), flag),
    text_check(text: &[u8]) => {
        let answer = judge::text_check(text);
        checked(answer.valid, answer.points)
    },
    occupations_print(list: &[u8], out: &mut [u8]) => told!(judge::occupations_print(list, out), length),
}
