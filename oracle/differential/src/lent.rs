//! What is lent to a call of the port, and what is left of it.

use crate::hex;
use crate::memory::{Lending, Part, Shape, Side, Slot};
use cases::rng::Rng;
use cases::{LIMIT, RowSort};
use std::cell::RefCell;
use std::fmt;

/// What is left of a call: its answer, the output, the list of counts if it is lent
/// one, and whether the other lent bytes and the marks before each slice are as
/// before.
#[derive(PartialEq, Eq)]
pub struct After<A> {
    pub answer: A,
    pub output: Vec<u8>,
    pub counts: Vec<u32>,
    pub kept: bool,
}

impl<A: fmt::Debug> fmt::Debug for After<A> {
    fn fmt(&self, f: &mut fmt::Formatter<'_>) -> fmt::Result {
        let bytes = hex(&self.output);
        write!(f, "{:?}, kept {}, {bytes}", self.answer, self.kept)?;
        match self.counts[..] {
            [] => Ok(()),
            _ => write!(f, ", counts {:X?}", self.counts),
        }
    }
}

/// The length of an output, or of a list of counts, beside that of the result.
#[derive(Debug, Clone, Copy)]
pub enum Room {
    Longer,
    Equal,
    OneShort,
    Shorter,
    Empty,
}

/// An output for a result of this length, with room or not.
pub fn any_output(rng: &mut Rng, needed: usize) -> (Room, Vec<u8>) {
    let (room, length) = match rng.below(16) {
        0..=3 if needed > 0 => (Room::OneShort, needed - 1),
        4 if needed > 1 => (Room::Shorter, rng.between(1, needed - 1)),
        5 if needed > 1 => (Room::Empty, 0),
        6..=10 => (Room::Equal, needed),
        _ => (Room::Longer, needed + rng.between(1, 40)),
    };
    (room, rng.bytes(length))
}

/// A list of numbers for so many columns, mostly with one for each.
pub fn any_counts(rng: &mut Rng, columns: usize) -> (Room, Vec<u32>) {
    let (room, length) = match rng.below(16) {
        0 if columns > 0 => (Room::OneShort, columns - 1),
        1 if columns > 1 => (Room::Shorter, rng.between(1, columns - 1)),
        2 if columns > 1 => (Room::Empty, 0),
        3..=9 => (Room::Equal, columns),
        _ => (Room::Longer, columns + rng.between(1, 9)),
    };
    let number = |bytes: &[u8]| u32::from_le_bytes(bytes.try_into().expect("four bytes"));
    let numbers = rng.bytes(4 * length).chunks(4).map(number).collect();
    (room, numbers)
}

/// No comparison lends more bytes at a time: a long row with room behind it. A list of
/// whole numbers is aligned where its end is.
fn shape() -> Shape {
    Shape {
        size: RowSort::Long.limit() + 3 * LIMIT,
        alignment: 1,
    }
}

thread_local! {
    /// What slices are lent from, by as many as a call needs.
    static SLOTS: RefCell<Vec<Slot>> = const { RefCell::new(Vec::new()) };
}

/// The call on this output and these inputs, each at the end of pages of its own.
/// The inputs are lent for writing too, so that a byte which the call changed is
/// seen.
pub fn called<A, const N: usize>(
    output: &[u8],
    inputs: [&[u8]; N],
    call: impl FnOnce([&mut [u8]; N], &mut [u8]) -> A,
) -> After<A> {
    called_with(output, &[], inputs, |lent, out, _| call(lent, out))
}

/// As `called`, with a list of counts, which has pages of its own too.
pub fn called_with<A, const N: usize>(
    output: &[u8],
    counts: &[u32],
    inputs: [&[u8]; N],
    call: impl FnOnce([&mut [u8]; N], &mut [u8], &mut [u32]) -> A,
) -> After<A> {
    SLOTS.with_borrow_mut(|slots| {
        slots.resize_with(slots.len().max(N + 2), || {
            Slot::new(Lending::ToWrite, Side::End, shape())
        });
        let ([out, list], slots) = slots.split_first_chunk_mut().expect("two slots");
        let lent = std::array::from_fn(|i| slice(slots[i].put(inputs[i])));
        let bytes: Vec<u8> = counts.iter().flat_map(|n| n.to_ne_bytes()).collect();
        let numbers = numbers(slice(list.put(&bytes)));
        let answer = call(lent, slice(out.put(output)), numbers);
        let kept = inputs
            .iter()
            .zip(slots)
            .all(|(input, slot)| slot.holds(input));
        let number = |bytes: &[u8]| u32::from_ne_bytes(bytes.try_into().expect("four bytes"));
        After {
            answer,
            output: out.bytes().to_vec(),
            counts: list.bytes().chunks(4).map(number).collect(),
            kept: kept && out.marked() && list.marked(),
        }
    })
}

/// A part that is lent and not looked at otherwise until it is given back.
fn slice<'a>(part: Part) -> &'a mut [u8] {
    // SAFETY: the part's slot stays, and is used again after the call only.
    unsafe { std::slice::from_raw_parts_mut(part.pointer, part.length) }
}

/// A whole number.
///
/// # Safety
/// Any bytes of its length are such a number.
pub unsafe trait Number {}
// SAFETY: they are.
unsafe impl Number for u16 {}
unsafe impl Number for u32 {}

/// The numbers that lent bytes hold.
pub fn numbers<N: Number>(bytes: &mut [u8]) -> &mut [N] {
    // SAFETY: any bytes are numbers.
    let (before, numbers, after) = unsafe { bytes.align_to_mut() };
    assert!(before.is_empty() && after.is_empty(), "whole numbers");
    numbers
}

/// What a call leaves that writes to its output alone, and only reads the rest.
pub fn written<A>(output: &[u8], call: impl FnOnce(&mut [u8]) -> A) -> After<A> {
    written_with(output, &[], |out, _| call(out))
}

/// As `written`, with a list of counts.
pub fn written_with<A>(
    output: &[u8],
    counts: &[u32],
    call: impl FnOnce(&mut [u8], &mut [u32]) -> A,
) -> After<A> {
    let (mut output, mut counts) = (output.to_vec(), counts.to_vec());
    After {
        answer: call(&mut output, &mut counts),
        output,
        counts,
        kept: true,
    }
}

/// A call that has no output.
pub fn asked<A, const N: usize>(
    inputs: [&[u8]; N],
    call: impl FnOnce([&mut [u8]; N]) -> A,
) -> After<A> {
    called(&[], inputs, |lent, _| call(lent))
}

/// What a call without an output leaves that answers so.
pub fn told<A>(answer: A) -> After<A> {
    After {
        answer,
        output: vec![],
        counts: vec![],
        kept: true,
    }
}

#[cfg(test)]
mod tests {
    use super::{asked, called, called_with, numbers};

    const OUTPUT: [u8; 4] = [0xAA; 4];

    #[test]
    fn a_changed_byte_is_seen() {
        assert!(called(&OUTPUT, [&[1, 2], &[3]], |_, out| out[0] = 9).kept);
        assert!(!called(&OUTPUT, [&[1, 2], &[3]], |[a, _], _| a[1] = 9).kept);
        assert!(!asked([&[1, 2], &[3]], |[_, b]| b[0] = 9).kept);
    }

    #[test]
    fn a_mark_is_seen() {
        // SAFETY: the byte before the slice is a mark, of the slot's own memory.
        let before = |slice: &mut [u8]| unsafe { *slice.as_mut_ptr().sub(1) ^= 1 };
        assert!(!called(&OUTPUT, [&[1]], |_, out| before(out)).kept);
        assert!(!called(&OUTPUT, [&[1]], |[a], _| before(a)).kept);
    }

    #[test]
    fn the_output_is_handed_back() {
        let after = called(&OUTPUT, [&[]], |_, out| out[1..].fill(9));
        assert_eq!(after.output, [0xAA, 9, 9, 9]);
        let after = asked([&[1, 0, 2, 1]], |[bytes]| numbers::<u16>(bytes).to_vec());
        assert_eq!(after.answer, [1, 258]);
    }

    #[test]
    fn the_counts_are_handed_back() {
        let after = called_with(&OUTPUT, &[7, 8, 9], [&[1]], |_, _, counts| {
            assert_eq!(counts, [7, 8, 9]);
            counts[1] = 1 << 20;
        });
        assert_eq!((after.counts, after.kept), (vec![7, 1 << 20, 9], true));
        // SAFETY: the bytes before the list are marks, of the slot's own memory.
        let before = |counts: &mut [u32]| unsafe { *counts.as_mut_ptr().sub(1) ^= 1 };
        assert!(!called_with(&OUTPUT, &[7], [&[1]], |_, _, counts| before(counts)).kept);
    }
}
