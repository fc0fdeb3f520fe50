//! Exact decimals.
use crate::data_type::padded;
use crate::ParseError;
use alloc::string::ToString;
use core::cmp::Ordering;
use core::fmt;
use core::str::FromStr;

/// An exact decimal: a number without its point, and how many of its digits stand behind the point. It prints with
/// its sign and its point, and is read from that.
///
/// ```
/// use rook_row::Numeric;
///
/// assert_eq!(Numeric::new(-56, 2).to_string(), "-0.56");
/// assert_eq!("-0.56".parse(), Ok(Numeric::new(-56, 2)));
/// ```
///
/// As in the format, 1.0 and 1.00 are not equal: a column's type has one scale. Numbers of one scale have an order.
#[derive(Clone, Copy, PartialEq, Eq, Hash)]
pub struct Numeric {
    // Two halves, so that a value needs the alignment of eight bytes alone.
    high: i64,
    low: u64,
    scale: u8,
}

impl Numeric {
    /// The number `unscaled` / 10^`scale`: -12.34 is `Numeric::new(-1234, 2)`.
    #[allow(
        clippy::cast_possible_truncation,
        clippy::cast_sign_loss,
        reason = "it is cut in two halves"
    )]
    pub const fn new(unscaled: i128, scale: u8) -> Numeric {
        Numeric {
            high: (unscaled >> 64) as i64,
            low: unscaled as u64,
            scale,
        }
    }

    /// The number without its point: -1234 for -12.34.
    pub const fn unscaled(self) -> i128 {
        (self.high as i128) << 64 | self.low as i128
    }

    /// The digits behind the point.
    pub const fn scale(self) -> u8 {
        self.scale
    }

    /// How many decimal digits the number has without its point, 1 for 0.
    pub(crate) fn digits(self) -> u32 {
        self.unscaled().unsigned_abs().checked_ilog10().unwrap_or(0) + 1
    }
}

impl PartialOrd for Numeric {
    fn partial_cmp(&self, other: &Numeric) -> Option<Ordering> {
        (self.scale == other.scale).then(|| self.unscaled().cmp(&other.unscaled()))
    }
}

impl fmt::Debug for Numeric {
    fn fmt(&self, f: &mut fmt::Formatter<'_>) -> fmt::Result {
        write!(f, "Numeric({self})")
    }
}

impl fmt::Display for Numeric {
    fn fmt(&self, f: &mut fmt::Formatter<'_>) -> fmt::Result {
        let sign = if self.high < 0 { "-" } else { "" };
        let scale = usize::from(self.scale);
        let digits = self.unscaled().unsigned_abs().to_string();
        if scale == 0 {
            return padded(f, format_args!("{sign}{digits}"));
        }
        let digits = alloc::format!("{digits:0>width$}", width = scale + 1);
        let (whole, behind) = digits.split_at(digits.len() - scale);
        padded(f, format_args!("{sign}{whole}.{behind}"))
    }
}

/// Digits with or without a sign and a point; the scale is the number of digits behind the point.
impl FromStr for Numeric {
    type Err = ParseError;

    fn from_str(text: &str) -> Result<Numeric, ParseError> {
        let error = || ParseError::new("number", text);
        let (negative, digits) = match text.as_bytes().first() {
            Some(b'-') => (true, &text[1..]),
            Some(b'+') => (false, &text[1..]),
            _ => (false, text),
        };
        let (whole, behind) = digits.split_once('.').unwrap_or((digits, ""));
        let scale = u8::try_from(behind.len()).map_err(|_| error())?;
        if whole.is_empty() && behind.is_empty() {
            return Err(error());
        }
        let mut unscaled = 0i128;
        for byte in whole.bytes().chain(behind.bytes()) {
            let digit = (byte as char).to_digit(10).ok_or_else(error)?;
            // Counted below zero, where there is one number more.
            unscaled = unscaled
                .checked_mul(10)
                .and_then(|n| n.checked_sub(i128::from(digit)))
                .ok_or_else(error)?;
        }
        let unscaled = if negative {
            Some(unscaled)
        } else {
            unscaled.checked_neg()
        };
        Ok(Numeric::new(unscaled.ok_or_else(error)?, scale))
    }
}
