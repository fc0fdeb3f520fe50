//! The port's calls on rows, by librook_row.a, with every number that they hand
//! back: the functions of `rook_row::raw` leave out what is 0 by 01. What a call only
//! reads is lent for writing all the same, so that a fault is no undefined behaviour
//! here, and is seen.

use model::{CheckAnswer, FlagAnswer, RowAnswer, Sort, TextAnswer};
use rook_row::raw::sys;

/// Functions that make a call of `sys` and tell its answer as the model does.
macro_rules! calls {
    ($(
        $(#[$about:meta])*
        fn $name:ident($($lent:ident: $type:ty),*) = $call:ident -> $answer:ident($($part:ident),*);
    )*) => {$(
        $(#[$about])*
        pub fn $name($($lent: $type),*) -> $answer {
            let answer = sys::$call($($lent),*);
            $answer { $($part: answer.$part),* }
        }
    )*};
}

/// What is lent to a call.
type Bytes<'a> = &'a mut [u8];

calls! {
    /// The row of nulls, in `out`.
    fn fresh(schema: Bytes, is_long: bool, out: Bytes)
        = rook_row_fresh -> RowAnswer(number, place, length);

    /// The row of a value list, in `out`, and the code points of its texts, in `counts`.
    fn build(schema: Bytes, is_long: bool, values: Bytes, text: Bytes, out: Bytes, counts: &mut [u32])
        = rook_row_build -> RowAnswer(number, place, length);

    /// The wanted columns of a row, as a value list in `out`, and the code points of
    /// their texts, in `counts`.
    fn read(schema: Bytes, row: Bytes, wanted: &mut [u16], out: Bytes, counts: &mut [u32])
        = rook_row_read -> RowAnswer(number, place, length);

    /// A column of the row that the buffer begins with, set to a value.
    fn set(schema: Bytes, buffer: Bytes, row_length: usize, column: usize, values: Bytes, text: Bytes)
        = rook_row_set -> RowAnswer(number, place, length);

    /// A column of the row that the buffer begins with, set to null.
    fn set_null(schema: Bytes, buffer: Bytes, row_length: usize, column: usize)
        = rook_row_set_null -> RowAnswer(number, place, length);

    /// The text of a column, as a part of the row.
    fn text(schema: Bytes, row: Bytes, column: usize)
        = rook_row_text -> TextAnswer(number, place, start, length);

    /// Whether two rows have the same content.
    fn same_content(schema: Bytes, a: Bytes, b: Bytes)
        = rook_row_same_content -> FlagAnswer(number, place, flag);

    /// Whether a column is null, by the row's own header and bitmap.
    fn is_null(row: Bytes, column: usize)
        = rook_row_is_null -> FlagAnswer(number, place, flag);

    /// Whether bytes are text, and its code points.
    fn text_check(text: Bytes) = rook_text_check -> CheckAnswer(valid, points);

    /// The lines of a row list of platform occupations, in `out`.
    fn occupations_print(list: Bytes, out: Bytes)
        = rook_occupations_print -> RowAnswer(number, place, length);
}

/// A sort as the calls are told it.
pub fn is_long(sort: Sort) -> bool {
    sort == Sort::Long
}
