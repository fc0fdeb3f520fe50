//! The library's calls as include/rook_row.h declares them: each once, for this crate and for the tests that compare
//! the library with something else. [`raw`](super) has them for everybody, with results.
//!
//! A declaration says what a call reads (`&[u8]`), what it writes to (`&mut [u8]`) and which numbers it gets. Of it
//! `calls!` makes the declaration of the C function, to which a slice passes as a pointer and a length, and a function
//! of the same name, to which slices or other [memory](Memory) are lent.
use super::{answer, Handle, Refusal};
use core::ops::Range;

/// What is lent to a call for reading.
///
/// # Safety
/// The pointer is aligned, not null, and that of so many items, which may be read while a call runs that gets it.
pub unsafe trait In<T> {
    /// Pointer and length.
    fn pair(self) -> (*const T, usize);
}

/// What is lent to a call for writing.
///
/// # Safety
/// As for [`In`]; the items may be written to as well, and nothing else uses them meanwhile.
pub unsafe trait Out<T> {
    /// Pointer and length.
    fn pair(self) -> (*mut T, usize);
}

// SAFETY: the slice is borrowed for the call.
unsafe impl<T> In<T> for &[T] {
    #[inline(always)]
    fn pair(self) -> (*const T, usize) {
        (self.as_ptr(), self.len())
    }
}

// SAFETY: as above. A test lends so what it then looks at: should the call write there, it sees it.
unsafe impl<T> In<T> for &mut [T] {
    #[inline(always)]
    fn pair(self) -> (*const T, usize) {
        (self.as_mut_ptr(), self.len())
    }
}

// SAFETY: the slice is borrowed for the call, alone.
unsafe impl<T> Out<T> for &mut [T] {
    #[inline(always)]
    fn pair(self) -> (*mut T, usize) {
        (self.as_mut_ptr(), self.len())
    }
}

/// Memory that is no slice, for tests that lend pages which may not be written to.
#[derive(Debug)]
pub struct Memory<T>(*mut T, usize);

impl<T> Memory<T> {
    /// So many items from this address on.
    ///
    /// # Safety
    /// As for [`In`], and where it is lent for writing as for [`Out`].
    pub const unsafe fn new(pointer: *mut T, length: usize) -> Memory<T> {
        Memory(pointer, length)
    }
}

// SAFETY: that of `new`.
unsafe impl<T> In<T> for Memory<T> {
    fn pair(self) -> (*const T, usize) {
        (self.0, self.1)
    }
}

// SAFETY: that of `new`.
unsafe impl<T> Out<T> for Memory<T> {
    fn pair(self) -> (*mut T, usize) {
        (self.0, self.1)
    }
}

/// The answer of a call that writes a row, a list or lines.
#[repr(C)]
#[derive(Debug, Clone, Copy, PartialEq, Eq)]
pub struct RowAnswer {
    /// 0 for done, else that of the refusal.
    pub number: u32,
    /// What goes with the number.
    pub place: usize,
    /// Of what was written; for an edit the row's.
    pub length: usize,
}

/// The answer of a call that says whether something is so.
#[repr(C)]
#[derive(Debug, Clone, Copy, PartialEq, Eq)]
pub struct FlagAnswer {
    /// 0 for done, else that of the refusal.
    pub number: u32,
    /// What goes with the number.
    pub place: usize,
    /// 0 or 1.
    pub flag: usize,
}

/// The answer of a call that finds a text.
#[repr(C)]
#[derive(Debug, Clone, Copy, PartialEq, Eq)]
pub struct TextAnswer {
    /// 0 for done, else that of the refusal.
    pub number: u32,
    /// What goes with the number.
    pub place: usize,
    /// Of the text in the row.
    pub start: usize,
    /// Of the text.
    pub length: usize,
}

/// The answer of the text check.
#[repr(C)]
#[derive(Debug, Clone, Copy, PartialEq, Eq)]
pub struct CheckAnswer {
    /// 1 for text, else 0.
    pub valid: u32,
    /// The code points of the text; 0 if it is none.
    pub points: usize,
}

impl RowAnswer {
    /// The length, if the call was done.
    #[inline]
    pub fn result(self) -> Result<usize, Refusal> {
        done(self.number, self.place, self.length)
    }
}

impl FlagAnswer {
    /// The flag, if the call was done.
    #[inline]
    pub fn result(self) -> Result<bool, Refusal> {
        done(self.number, self.place, self.flag == 1)
    }
}

impl TextAnswer {
    /// Where the text stands, if the call was done.
    #[inline]
    pub fn result(self) -> Result<Range<usize>, Refusal> {
        done(
            self.number,
            self.place,
            self.start..self.start + self.length,
        )
    }
}

impl CheckAnswer {
    /// The code points of a text.
    #[inline]
    pub fn result(self) -> Option<usize> {
        (self.valid == 1).then_some(self.points)
    }
}

fn done<T>(number: u32, place: usize, result: T) -> Result<T, Refusal> {
    match number {
        answer::DONE => Ok(result),
        _ => Err(Refusal { number, place }),
    }
}

/// Takes what is lent to a call one by one, and collects the parameters of the function that is made, those of the C
/// function, how a pair is taken of each slice, and what is passed on.
macro_rules! call {
    (
        $name:ident $answer:ty; [$($own:tt)*] [$($c:tt)*] [$($pairs:tt)*] [$($passed:tt)*];
        $lent:ident: &[$item:ty], $($rest:tt)*
    ) => {
        call!($name $answer;
            [$($own)* $lent: impl In<$item>,] [$($c)* $lent: *const $item, _: usize,]
            [$($pairs)* let $lent = $lent.pair();] [$($passed)* $lent.0, $lent.1,]; $($rest)*);
    };
    (
        $name:ident $answer:ty; [$($own:tt)*] [$($c:tt)*] [$($pairs:tt)*] [$($passed:tt)*];
        $lent:ident: &mut [$item:ty], $($rest:tt)*
    ) => {
        call!($name $answer;
            [$($own)* $lent: impl Out<$item>,] [$($c)* $lent: *mut $item, _: usize,]
            [$($pairs)* let $lent = $lent.pair();] [$($passed)* $lent.0, $lent.1,]; $($rest)*);
    };
    (
        $name:ident $answer:ty; [$($own:tt)*] [$($c:tt)*] [$($pairs:tt)*] [$($passed:tt)*];
        $lent:ident: $type:ty, $($rest:tt)*
    ) => {
        call!($name $answer;
            [$($own)* $lent: $type,] [$($c)* $lent: $type,]
            [$($pairs)*] [$($passed)* $lent,]; $($rest)*);
    };
    ($name:ident $answer:ty; [$($own:tt)*] [$($c:tt)*] [$($pairs:tt)*] [$($passed:tt)*]; $(,)?) => {
        #[doc = concat!("`", stringify!($name), "` of include/rook_row.h.")]
        #[inline(always)]
        pub fn $name($($own)*) -> $answer {
            extern "C" {
                fn $name($($c)*) -> $answer;
            }
            $($pairs)*
            // SAFETY: each pointer and length is that of memory which the call may read or write for as long as it
            // runs, as the declaration says. By its contract it touches nothing else.
            unsafe { $name($($passed)*) }
        }
    };
}

macro_rules! calls {
    ($(fn $name:ident($($lent:tt)*) -> $answer:ty;)*) => {
        $(call!($name $answer; [] [] [] []; $($lent)*,);)*

        /// Name, what is lent, and answer of each call, for a test that compares them with the header.
        pub const CALLS: &[[&str; 3]] =
            &[$([stringify!($name), stringify!($($lent)*), stringify!($answer)]),*];
    };
}

calls! {
    fn rook_row_fresh(schema: &[u8], is_long: bool, out: &mut [u8]) -> RowAnswer;
    fn rook_row_build(
        schema: &[u8], is_long: bool, values: &[u8], text: &[u8], out: &mut [u8], counts: &mut [u32]
    ) -> RowAnswer;
    fn rook_row_read(schema: &[u8], row: &[u8], wanted: &[u16], out: &mut [u8], counts: &mut [u32]) -> RowAnswer;
    fn rook_row_set(
        schema: &[u8], buf: &mut [u8], row_length: usize, column: usize, values: &[u8], text: &[u8]
    ) -> RowAnswer;
    fn rook_row_set_null(schema: &[u8], buf: &mut [u8], row_length: usize, column: usize) -> RowAnswer;
    fn rook_row_handle_set(
        handle: &mut Handle, schema: &[u8], buf: &mut [u8], column: usize, values: &[u8], text: &[u8]
    ) -> RowAnswer;
    fn rook_row_handle_set_null(handle: &mut Handle, schema: &[u8], buf: &mut [u8], column: usize) -> RowAnswer;
    fn rook_row_text(schema: &[u8], row: &[u8], column: usize) -> TextAnswer;
    fn rook_row_same_content(schema: &[u8], a: &[u8], b: &[u8]) -> FlagAnswer;
    fn rook_row_is_null(row: &[u8], column: usize) -> FlagAnswer;
    fn rook_text_check(text: &[u8]) -> CheckAnswer;
    fn rook_occupations_print(list: &[u8], out: &mut [u8]) -> RowAnswer;
    fn rook_row_version() -> u32;
}
