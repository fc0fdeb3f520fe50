//! What the attack lends from: a slot for each thing that a call is given.

use super::handle::Handle;
use crate::memory::{Lending, Part, Shape, Side, Slot};
use cases::{LIMIT, RowSort};

/// No slice of a round has more bytes but what long rows need; the longest are wanted
/// columns, and buffers with much room.
const LONGEST: usize = 3 * LIMIT;

/// No slice has more bytes: a long row above its limit, and room behind it.
pub fn longest() -> usize {
    RowSort::Long.limit() + 2 * LIMIT
}

/// No list of counts has more numbers.
pub const MOST_COUNTS: usize = 600;

/// What a lent slice is to a call; a call is given one of each at most.
#[derive(Debug, Clone, Copy, PartialEq, Eq)]
pub enum Role {
    Schema,
    Row,
    /// What a row is compared with.
    OtherRow,
    Values,
    Text,
    /// Column numbers.
    Wanted,
    /// Rows with their lengths.
    RowList,
    /// What a call writes its result to, or the buffer that it edits.
    Output,
    /// Numbers of 32 bits that a call writes.
    Counts,
    Handle,
}

impl Role {
    const ALL: [Role; 10] = [
        Role::Schema,
        Role::Row,
        Role::OtherRow,
        Role::Values,
        Role::Text,
        Role::Wanted,
        Role::RowList,
        Role::Output,
        Role::Counts,
        Role::Handle,
    ];

    fn shape(self) -> Shape {
        let (size, alignment) = match self {
            Role::Wanted => (LONGEST, align_of::<u16>()),
            Role::Counts => (4 * MOST_COUNTS, align_of::<u32>()),
            Role::Handle => (size_of::<Handle>(), align_of::<usize>()),
            _ => (LONGEST, 1),
        };
        Shape { size, alignment }
    }

    /// For the slices of long rows alone: what they touch is not touched by others, which
    /// would be slower for it.
    fn large_shape(self) -> Shape {
        let Shape { size, alignment } = self.shape();
        match self {
            Role::Counts | Role::Handle | Role::Wanted => Shape { size, alignment },
            _ => Shape {
                size: longest(),
                alignment,
            },
        }
    }

    fn lending(self) -> Lending {
        match self {
            Role::Output | Role::Counts | Role::Handle => Lending::ToWrite,
            _ => Lending::ToRead,
        }
    }
}

/// A slice to be lent.
pub type Given<'a> = (Role, &'a [u8]);

/// What is lent of a role now is in the one slot or in the large one.
pub struct Slots {
    usual: [Slot; Role::ALL.len()],
    large: [Slot; Role::ALL.len()],
    is_large: [bool; Role::ALL.len()],
}

impl Slots {
    /// Slices have this side at an unreadable page. With `blocks` they are blocks of
    /// their own, for valgrind.
    pub fn new(side: Side, blocks: bool) -> Self {
        let slot = |role: Role, shape: Shape| {
            let lending = if blocks {
                Lending::Block
            } else {
                role.lending()
            };
            Slot::new(lending, side, shape)
        };
        Slots {
            usual: Role::ALL.map(|role| slot(role, role.shape())),
            large: Role::ALL.map(|role| slot(role, role.large_shape())),
            is_large: [false; Role::ALL.len()],
        }
    }

    /// Lends these.
    pub fn put<const N: usize>(&mut self, given: [Given; N]) -> [Part; N] {
        given.map(|(role, bytes)| {
            let at = role as usize;
            self.is_large[at] = bytes.len() > role.shape().size;
            let slots = match self.is_large[at] {
                true => &mut self.large,
                false => &mut self.usual,
            };
            slots[at].put(bytes)
        })
    }

    /// Where this is lent from now.
    pub fn of(&self, role: Role) -> &Slot {
        let at = role as usize;
        match self.is_large[at] {
            true => &self.large[at],
            false => &self.usual[at],
        }
    }
}
