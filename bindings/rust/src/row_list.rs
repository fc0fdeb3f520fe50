//! Lists of rows as bytes.
use crate::raw::limit;
use crate::{Error, RowListFault, RowRef};
use alloc::vec::Vec;
use core::fmt;
use core::iter::FusedIterator;

/// Rows as bytes, each after its length in two bytes, the low one first: at most 512 rows and 32,768 bytes, the lengths
/// among them. The rows may be of any schema and are not looked at.
///
/// ```
/// use rook_row::{DataType, RowBuf, RowList, Schema};
///
/// let schema = Schema::new([("unit", DataType::Varchar(16))])?;
/// let mut list = RowList::new();
/// for unit in ["T41", "IC 587"] {
///     list.push(RowBuf::build(&schema, &[unit.into()])?)?;
/// }
/// assert_eq!((list.len(), list.as_bytes().len()), (2, 2 + 10 + 2 + 13));
///
/// // Sent somewhere, and taken there.
/// let list = RowList::from_bytes(list.into_bytes())?;
/// for (row, unit) in list.iter().zip(["T41", "IC 587"]) {
///     assert_eq!(row.get::<&str>(&schema, "unit")?, unit);
/// }
/// # Ok::<(), rook_row::Error>(())
/// ```
#[derive(Clone, Default, PartialEq, Eq, Hash)]
pub struct RowList {
    bytes: Vec<u8>,
    rows: usize,
}

impl RowList {
    /// The most rows of a list.
    pub const MAX_ROWS: usize = limit::LIST_ROWS;
    /// The most bytes of a list, the lengths of its rows among them.
    pub const MAX_BYTES: usize = limit::LIST;

    /// The list of no rows.
    pub const fn new() -> RowList {
        let bytes = Vec::new();
        RowList { bytes, rows: 0 }
    }

    /// The list of these bytes. Refuses with 16: they end inside a row or its length, or there are more rows or bytes
    /// than a list may have.
    pub fn from_bytes(bytes: impl Into<Vec<u8>>) -> Result<RowList, Error> {
        let bytes = bytes.into();
        match fault_of(&bytes) {
            Some(fault) => Err(Error::BadRowList { fault }),
            None => Ok(RowList {
                rows: Rows::new(&bytes).count(),
                bytes,
            }),
        }
    }

    /// Adds a row. Refuses with 16, and leaves the list as it was, if it has no room for one more row, or for the row's
    /// bytes.
    pub fn push(&mut self, row: impl AsRef<[u8]>) -> Result<(), Error> {
        let row = row.as_ref();
        let bytes = self.bytes.len() + 2 + row.len();
        let length = u16::try_from(row.len());
        let Some(length) = length.ok().filter(|_| bytes <= RowList::MAX_BYTES) else {
            let fault = RowListFault::TooManyBytes(bytes);
            return Err(Error::BadRowList { fault });
        };
        if self.rows == RowList::MAX_ROWS {
            let fault = RowListFault::TooManyRows;
            return Err(Error::BadRowList { fault });
        }
        self.bytes.extend_from_slice(&length.to_le_bytes());
        self.bytes.extend_from_slice(row);
        self.rows += 1;
        Ok(())
    }

    /// Takes all rows away, and keeps the memory.
    pub fn clear(&mut self) {
        self.bytes.clear();
        self.rows = 0;
    }

    /// How many rows it has.
    pub const fn len(&self) -> usize {
        self.rows
    }

    /// Whether it has no rows.
    pub const fn is_empty(&self) -> bool {
        self.rows == 0
    }

    /// The rows, one after the other.
    pub fn iter(&self) -> Rows<'_> {
        Rows::new(&self.bytes)
    }

    /// The list's bytes.
    pub fn as_bytes(&self) -> &[u8] {
        &self.bytes
    }

    /// The list's bytes, without a copy.
    pub fn into_bytes(self) -> Vec<u8> {
        self.bytes
    }
}

impl fmt::Debug for RowList {
    fn fmt(&self, f: &mut fmt::Formatter<'_>) -> fmt::Result {
        f.debug_list().entries(self).finish()
    }
}

impl AsRef<[u8]> for RowList {
    fn as_ref(&self) -> &[u8] {
        &self.bytes
    }
}

impl<'a> IntoIterator for &'a RowList {
    type Item = RowRef<'a>;
    type IntoIter = Rows<'a>;

    fn into_iter(self) -> Rows<'a> {
        self.iter()
    }
}

/// The rows of a [`RowList`].
#[derive(Debug, Clone)]
pub struct Rows<'a> {
    rest: &'a [u8],
}

impl<'a> Rows<'a> {
    pub(crate) fn new(list: &'a [u8]) -> Rows<'a> {
        Rows { rest: list }
    }

    /// The next row with its length, which is a list of one row; none at the end, and where the list is cut off.
    pub(crate) fn next_listed(&mut self) -> Option<&'a [u8]> {
        let [low, high, ..] = *self.rest else {
            return None;
        };
        let end = 2 + usize::from(u16::from_le_bytes([low, high]));
        let (listed, rest) = self.rest.split_at_checked(end)?;
        self.rest = rest;
        Some(listed)
    }
}

impl<'a> Iterator for Rows<'a> {
    type Item = RowRef<'a>;

    fn next(&mut self) -> Option<RowRef<'a>> {
        self.next_listed().map(|listed| RowRef::new(&listed[2..]))
    }
}

impl FusedIterator for Rows<'_> {}

/// What is wrong with a list, if it is none.
pub(crate) fn fault_of(list: &[u8]) -> Option<RowListFault> {
    if list.len() > RowList::MAX_BYTES {
        return Some(RowListFault::TooManyBytes(list.len()));
    }
    let mut rows = Rows::new(list);
    let whole = rows.by_ref().count();
    match rows.rest {
        _ if whole > RowList::MAX_ROWS => Some(RowListFault::TooManyRows),
        [] => None,
        // The library says the same of a row past the last, cut off or not.
        _ if whole == RowList::MAX_ROWS => Some(RowListFault::TooManyRows),
        _ => Some(RowListFault::CutOff { row: whole }),
    }
}
