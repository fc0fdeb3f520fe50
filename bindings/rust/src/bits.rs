//! Bit strings.
use crate::data_type::padded;
use crate::ParseError;
use alloc::borrow::Cow;
use alloc::boxed::Box;
use alloc::string::String;
use alloc::vec;
use core::cmp::Ordering;
use core::fmt;
use core::str::FromStr;

/// A string of bits, its bytes owned or borrowed: the first bit is the high one of the first byte. It prints as 0s and
/// 1s, and is read from them. What is left of the last byte does not count.
///
/// ```
/// use rook_row::Bits;
///
/// let bits: Bits = "10100101111".parse()?;
/// assert_eq!((bits.len(), bits.get(0), bits.get(1)), (11, Some(true), Some(false)));
/// assert_eq!(bits.as_bytes(), [0xA5, 0xE0]);
/// assert_eq!(bits.to_string(), "10100101111");
/// # Ok::<(), rook_row::ParseError>(())
/// ```
#[derive(Clone)]
pub struct Bits<'a>(Held<'a>);

// With the count in its cases it takes 24 bytes, so that a `Value` of 32 has room for a tag of its own, which is told
// faster than one that hides in a length.
#[derive(Clone)]
enum Held<'a> {
    Borrowed(u16, &'a [u8]),
    Owned(u16, Box<[u8]>),
}

impl<'a> Bits<'a> {
    /// The first `count` bits of these bytes; none if the bytes are not as many as that many bits fill.
    #[inline]
    pub fn new(bytes: impl Into<Cow<'a, [u8]>>, count: u16) -> Option<Bits<'a>> {
        let bytes = bytes.into();
        if bytes.len() != usize::from(count).div_ceil(8) {
            return None;
        }
        Some(Bits(match bytes {
            Cow::Borrowed(bytes) => Held::Borrowed(count, bytes),
            Cow::Owned(bytes) => Held::Owned(count, bytes.into()),
        }))
    }

    /// The bytes in which the bits stand.
    #[inline]
    pub fn as_bytes(&self) -> &[u8] {
        match &self.0 {
            Held::Borrowed(_, bytes) => bytes,
            Held::Owned(_, bytes) => bytes,
        }
    }

    /// The number of bits.
    #[inline]
    pub fn len(&self) -> u16 {
        match self.0 {
            Held::Borrowed(count, _) | Held::Owned(count, _) => count,
        }
    }

    /// Whether there is no bit.
    pub fn is_empty(&self) -> bool {
        self.len() == 0
    }

    /// A bit by its place from 0; none behind the last.
    pub fn get(&self, at: u16) -> Option<bool> {
        let byte = self.as_bytes().get(usize::from(at / 8))?;
        (at < self.len()).then_some(byte >> (7 - at % 8) & 1 == 1)
    }

    /// The bits, from the first on.
    pub fn iter(&self) -> impl Iterator<Item = bool> + '_ {
        (0..self.len()).filter_map(|at| self.get(at))
    }

    /// The same bits with bytes of their own.
    pub fn into_owned(self) -> Bits<'static> {
        Bits(match self.0 {
            Held::Borrowed(count, bytes) => Held::Owned(count, bytes.into()),
            Held::Owned(count, bytes) => Held::Owned(count, bytes),
        })
    }

    /// The same bits, borrowed.
    pub fn borrowed(&self) -> Bits<'_> {
        Bits(Held::Borrowed(self.len(), self.as_bytes()))
    }
}

impl PartialEq for Bits<'_> {
    fn eq(&self, other: &Bits<'_>) -> bool {
        self.len() == other.len() && self.iter().eq(other.iter())
    }
}

impl Eq for Bits<'_> {}

/// Bit strings of one length have an order, from the first bit on.
impl PartialOrd for Bits<'_> {
    fn partial_cmp(&self, other: &Bits<'_>) -> Option<Ordering> {
        (self.len() == other.len()).then(|| self.iter().cmp(other.iter()))
    }
}

impl fmt::Debug for Bits<'_> {
    fn fmt(&self, f: &mut fmt::Formatter<'_>) -> fmt::Result {
        write!(f, "Bits({self})")
    }
}

impl fmt::Display for Bits<'_> {
    fn fmt(&self, f: &mut fmt::Formatter<'_>) -> fmt::Result {
        let digits: String = self.iter().map(|bit| if bit { '1' } else { '0' }).collect();
        padded(f, format_args!("{digits}"))
    }
}

impl FromStr for Bits<'static> {
    type Err = ParseError;

    fn from_str(text: &str) -> Result<Bits<'static>, ParseError> {
        let error = || ParseError::new("bit string", text);
        let count = u16::try_from(text.len()).map_err(|_| error())?;
        let mut bytes = vec![0; text.len().div_ceil(8)];
        for (at, digit) in text.bytes().enumerate() {
            match digit {
                b'0' => (),
                b'1' => bytes[at / 8] |= 0x80 >> (at % 8),
                _ => return Err(error()),
            }
        }
        Ok(Bits(Held::Owned(count, bytes.into())))
    }
}
