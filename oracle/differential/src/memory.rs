//! Memory for lent slices. A slice ends exactly at a page that can be neither
//! read nor written, and marks stand before it; or it begins behind such a page
//! and the marks stand behind it. The memory has two addresses: by one it is
//! filled and looked at here, the other is lent, for reading alone if the call may
//! only read. Whoever makes a slot says how long its slices may be and how they are
//! aligned. For a run under valgrind a slice can be a block of its own instead,
//! of which valgrind sees every byte before and behind.

use rook_row::raw::Handle;
use rook_row::raw::sys;
use std::alloc::{self, Layout};
use std::ffi::{c_char, c_int, c_void};
use std::{ptr, slice};

unsafe extern "C" {
    fn memfd_create(name: *const c_char, flags: u32) -> c_int;
    fn ftruncate(fd: c_int, length: i64) -> c_int;
    fn close(fd: c_int) -> c_int;
    fn mmap(
        address: *mut c_void,
        length: usize,
        protection: c_int,
        flags: c_int,
        fd: c_int,
        offset: i64,
    ) -> *mut c_void;
    fn munmap(address: *mut c_void, length: usize) -> c_int;
}

// Linux on x86-64.
const PROT_NONE: c_int = 0;
const PROT_READ: c_int = 1;
const PROT_WRITE: c_int = 2;
const MAP_SHARED: c_int = 0x01;
const MAP_PRIVATE: c_int = 0x02;
const MAP_FIXED: c_int = 0x10;
const MAP_ANONYMOUS: c_int = 0x20;
const PAGE: usize = 4096;

/// The bytes beside a slice, which a call must leave alone.
const MARKS: [u8; 64] = marks();

const fn marks() -> [u8; 64] {
    let mut marks = [0; 64];
    let mut at = 0;
    while at < marks.len() {
        marks[at] = (at as u8).wrapping_mul(37) ^ 0xA5;
        at += 1;
    }
    marks
}

/// A lent slice.
#[derive(Debug, Clone, Copy)]
pub struct Part {
    pub pointer: *mut u8,
    pub length: usize,
}

impl Part {
    /// The slice as a call is lent it: bytes, or numbers.
    ///
    /// # Safety
    /// Its slot stays and holds it; for writing it is lent once, and by a slot for that.
    pub unsafe fn lent<T>(self) -> sys::Memory<T> {
        let pointer = self.pointer.cast();
        // SAFETY: the same.
        unsafe { sys::Memory::new(pointer, self.length / size_of::<T>()) }
    }

    /// The slice as the handle that it holds.
    ///
    /// # Safety
    /// As for `lent`, for writing; and it is a handle's.
    pub unsafe fn handle<'a>(self) -> &'a mut Handle {
        assert_eq!(self.length, size_of::<Handle>());
        // SAFETY: the same; any bytes are a handle.
        unsafe { &mut *self.pointer.cast() }
    }
}

#[derive(Debug, Clone, Copy, PartialEq, Eq)]
pub enum Lending {
    /// The lent address may be read; a store ends the program.
    ToRead,
    ToWrite,
    /// A block of its own, for valgrind.
    Block,
}

/// Which side of a slice is at an unreadable page; the marks are at the other.
#[derive(Debug, Clone, Copy, PartialEq, Eq)]
pub enum Side {
    End,
    Start,
}

/// Which slices a slot is made for.
#[derive(Debug, Clone, Copy, PartialEq, Eq)]
pub struct Shape {
    /// The most bytes of one.
    pub size: usize,
    /// Its address and its length are multiples of this: a list of numbers has the
    /// width of one, plain bytes have 1.
    pub alignment: usize,
}

enum Memory {
    Pages(Pages),
    Block(Block),
}

/// Holds one slice at a time.
pub struct Slot {
    memory: Memory,
    side: Side,
    shape: Shape,
    length: usize,
}

impl Slot {
    pub fn new(lending: Lending, side: Side, shape: Shape) -> Self {
        let Shape { size, alignment } = shape;
        assert!(alignment.is_power_of_two() && alignment <= PAGE);
        let pages = |protection| Memory::Pages(Pages::new(size + MARKS.len(), protection));
        let memory = match lending {
            Lending::ToRead => pages(PROT_READ),
            Lending::ToWrite => pages(PROT_READ | PROT_WRITE),
            Lending::Block => Memory::Block(Block::new(&[], alignment)),
        };
        Slot {
            memory,
            side,
            shape,
            length: 0,
        }
    }

    /// Puts these bytes, and the marks beside them, where they are lent from.
    pub fn put(&mut self, bytes: &[u8]) -> Part {
        let length = bytes.len();
        let Shape { size, alignment } = self.shape;
        assert!(length <= size, "a slice of {length} bytes, not {size}");
        assert!(
            length.is_multiple_of(alignment),
            "a slice of {length} bytes"
        );
        self.length = length;
        let pointer = match &mut self.memory {
            Memory::Block(block) => {
                *block = Block::new(bytes, alignment);
                block.pointer
            }
            Memory::Pages(pages) => {
                let (start, marks) = pages.places(self.side, length);
                // SAFETY: both ranges lie in the pages, whose own address nothing
                // refers to, and so does the part of the lent one.
                unsafe {
                    let own = pages.own;
                    ptr::copy_nonoverlapping(MARKS.as_ptr(), own.add(marks), MARKS.len());
                    ptr::copy_nonoverlapping(bytes.as_ptr(), own.add(start), length);
                    pages.lent.add(start)
                }
            }
        };
        Part { pointer, length }
    }

    /// The bytes that are there now.
    pub fn bytes(&self) -> &[u8] {
        match &self.memory {
            Memory::Block(block) => block.bytes(),
            Memory::Pages(pages) => {
                let (start, _) = pages.places(self.side, self.length);
                // SAFETY: as above; a lent slice is given back before.
                unsafe { slice::from_raw_parts(pages.own.add(start), self.length) }
            }
        }
    }

    /// Whether the marks are as they were put.
    pub fn marked(&self) -> bool {
        match &self.memory {
            Memory::Block(_) => true,
            Memory::Pages(pages) => {
                let (_, marks) = pages.places(self.side, self.length);
                // SAFETY: as above.
                unsafe { slice::from_raw_parts(pages.own.add(marks), MARKS.len()) == MARKS }
            }
        }
    }

    /// Whether it holds these bytes and its marks.
    pub fn holds(&self, bytes: &[u8]) -> bool {
        self.bytes() == bytes && self.marked()
    }
}

/// Whole pages at two addresses, so many bytes by each.
struct Pages {
    own: *mut u8,
    lent: *mut u8,
    length: usize,
}

impl Pages {
    /// For this many bytes; by the lent address they may be used so, and a page that
    /// may not be touched stands before them and another behind.
    fn new(bytes: usize, protection: c_int) -> Self {
        let length = bytes.next_multiple_of(PAGE);
        let both = PROT_READ | PROT_WRITE;
        let nowhere = ptr::null_mut();
        // SAFETY: new mappings, the last over pages that the one before reserved.
        unsafe {
            let fd = memfd_create(c"lent".as_ptr(), 0);
            let made = fd >= 0 && ftruncate(fd, length as i64) == 0;
            assert!(made, "memory to lend");
            let own = mapped(mmap(nowhere, length, both, MAP_SHARED, fd, 0));
            let reserved = MAP_PRIVATE | MAP_ANONYMOUS;
            let around = mmap(nowhere, length + 2 * PAGE, PROT_NONE, reserved, -1, 0);
            let between = mapped(around).add(PAGE).cast();
            let fixed = MAP_SHARED | MAP_FIXED;
            let lent = mapped(mmap(between, length, protection, fixed, fd, 0));
            close(fd);
            Pages { own, lent, length }
        }
    }

    /// Where a slice of this length stands, and where its marks.
    fn places(&self, side: Side, length: usize) -> (usize, usize) {
        let start = self.length - length;
        match side {
            Side::End => (start, start - MARKS.len()),
            Side::Start => (0, length),
        }
    }
}

impl Drop for Pages {
    fn drop(&mut self) {
        // SAFETY: the mappings of `new`, to which nothing refers any more.
        unsafe {
            munmap(self.own.cast(), self.length);
            munmap(self.lent.sub(PAGE).cast(), self.length + 2 * PAGE);
        }
    }
}

fn mapped(address: *mut c_void) -> *mut u8 {
    assert!(address.addr() != usize::MAX, "memory to lend");
    address.cast()
}

/// A block of exactly its bytes.
struct Block {
    pointer: *mut u8,
    layout: Layout,
}

impl Block {
    fn new(bytes: &[u8], alignment: usize) -> Self {
        let layout = Layout::from_size_align(bytes.len(), alignment).expect("a slice");
        if bytes.is_empty() {
            let pointer = ptr::without_provenance_mut(alignment);
            return Block { pointer, layout };
        }
        // SAFETY: the layout is not empty; the block is new and has its length.
        let pointer = unsafe { alloc::alloc(layout) };
        assert!(!pointer.is_null(), "memory to lend");
        unsafe { ptr::copy_nonoverlapping(bytes.as_ptr(), pointer, bytes.len()) };
        Block { pointer, layout }
    }

    fn bytes(&self) -> &[u8] {
        // SAFETY: the block's own bytes; a lent slice is given back before.
        unsafe { slice::from_raw_parts(self.pointer, self.layout.size()) }
    }
}

impl Drop for Block {
    fn drop(&mut self) {
        if self.layout.size() > 0 {
            // SAFETY: the block of `new`, to which nothing refers any more.
            unsafe { alloc::dealloc(self.pointer, self.layout) };
        }
    }
}

#[cfg(test)]
mod tests {
    use super::{Lending, MARKS, Shape, Side, Slot};
    use cases::rust::guarded;
    use std::ffi::{c_int, c_void};
    use std::os::fd::AsRawFd;
    use std::os::unix::net::UnixStream;

    unsafe extern "C" {
        fn read(fd: c_int, to: *mut c_void, length: usize) -> isize;
        fn write(fd: c_int, from: *const c_void, length: usize) -> isize;
    }

    /// Whether the system can take a byte from here, and put one here.
    fn reach(address: *mut u8) -> (bool, bool) {
        let (one, other) = UnixStream::pair().expect("a pair");
        // SAFETY: the system refuses an address that it cannot reach.
        unsafe {
            let readable = write(one.as_raw_fd(), address.cast(), 1) == 1;
            write(other.as_raw_fd(), c"x".as_ptr().cast(), 1);
            (readable, read(one.as_raw_fd(), address.cast(), 1) == 1)
        }
    }

    const fn shape(size: usize, alignment: usize) -> Shape {
        Shape { size, alignment }
    }

    /// Every length up to the whole slot, however its bytes fill the last page.
    #[test]
    fn a_slice_is_at_what_cannot_be_reached() {
        let shapes = [
            (shape(40, 8), vec![0, 8, 40]),
            (shape(4096, 1), vec![0, 1, 2, 4095, 4096]),
            (shape(140_000, 1), vec![0, 1, 2, 4095, 4096, 4097, 140_000]),
            (shape(1_048_576, 4), vec![0, 4, 4096, 4100, 1_048_576]),
        ];
        for (lending, writable) in [(Lending::ToRead, false), (Lending::ToWrite, true)] {
            for (shape, lengths) in &shapes {
                for &length in lengths {
                    let [mut end, mut start] =
                        [Side::End, Side::Start].map(|side| Slot::new(lending, side, *shape));
                    let at = end.put(&vec![7; length]).pointer;
                    assert!(at.addr().is_multiple_of(shape.alignment));
                    assert_eq!(reach(at.wrapping_add(length)), (false, false));
                    assert_eq!(
                        reach(at.wrapping_add(length).wrapping_sub(1)),
                        (true, writable)
                    );
                    assert_eq!(reach(at.wrapping_sub(1)), (true, writable));
                    let at = start.put(&vec![7; length]).pointer;
                    assert!(at.addr().is_multiple_of(shape.alignment));
                    assert_eq!(reach(at.wrapping_sub(1)), (false, false));
                    assert_eq!(reach(at), (true, writable));
                    assert_eq!(reach(at.wrapping_add(length)), (true, writable));
                }
            }
        }
    }

    #[test]
    fn every_byte_is_seen() {
        let bytes: Vec<u8> = (0..40).collect();
        let all = 40 + MARKS.len() as isize;
        for (side, first) in [(Side::End, 40 - all), (Side::Start, 0)] {
            let mut slot = Slot::new(Lending::ToWrite, side, shape(40, 4));
            for at in first..first + all {
                let part = slot.put(&bytes);
                assert!(slot.holds(&bytes));
                // SAFETY: a mark or a byte of the slice.
                unsafe { *part.pointer.offset(at) ^= 1 };
                assert!(!slot.holds(&bytes), "byte {at}");
            }
        }
    }

    #[test]
    fn blocks_are_aligned_and_hold_their_bytes() {
        for alignment in [1, 2, 4, 8] {
            let mut slot = Slot::new(Lending::Block, Side::End, shape(800, alignment));
            assert!(slot.holds(&[]));
            for length in [8, 0, 800, 16] {
                let bytes = vec![length as u8; length];
                let part = slot.put(&bytes);
                assert!(part.pointer.addr().is_multiple_of(alignment));
                assert!(slot.holds(&bytes));
            }
        }
    }

    /// A slice that the slot was not made for is no slice of a call.
    #[test]
    fn other_slices_are_refused() {
        for lending in [Lending::ToRead, Lending::ToWrite, Lending::Block] {
            let fits = |length: usize| {
                let mut slot = Slot::new(lending, Side::End, shape(400, 4));
                guarded(|| slot.put(&vec![0; length])).is_ok()
            };
            assert!(fits(0) && fits(400));
            assert!(!fits(404) && !fits(3) && !fits(398));
        }
    }
}
