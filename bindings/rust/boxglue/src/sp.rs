//! Dimensions.

use crate::{points, Error};
use std::fmt::{Display, Formatter, Result as FormatResult};
use std::ops::{Add, Neg, Sub};
use std::str::FromStr;

/// A dimension in scaled points (sp), of which 65,536 are a point.
///
/// A text is read exactly as a script reads it (docs/FORMATS.md, section 1), and [`Display`] writes the fewest digits that are read as the same number.
/// A dimension *fits* if its absolute value is at most [`Sp::MAX`]. Calls refuse others as [`Error::OutOfRange`] before they send anything.
///
/// # Panics
///
/// Sums and differences overflow as those of `i32` do: they panic in a debug build.
///
/// ```
/// use boxglue::{Error, Sp};
///
/// assert_eq!("6.5in".parse(), Ok(Sp(30_785_863)));
/// assert_eq!(Sp::points(12) + Sp(1), Sp(786_433));
/// assert_eq!(Sp(-98_304).to_string(), "-1.5pt");
/// assert_eq!("1em".parse::<Sp>(), Err(Error::BadDimension));
/// assert_eq!("16384pt".parse::<Sp>(), Err(Error::OutOfRange));
/// ```
#[derive(Clone, Copy, Debug, Default, PartialEq, Eq, PartialOrd, Ord, Hash)]
pub struct Sp(pub i32);

/// The units of scripts but sp, each as a fraction of points.
const UNITS: [(&str, u64, u64); 8] =
    [("pt", 1, 1), ("pc", 12, 1), ("in", 7227, 100), ("bp", 7227, 7200), ("cm", 7227, 254), ("mm", 7227, 2540), ("dd", 1238, 1157), ("cc", 14856, 1157)];
const POINT: u64 = 65_536;
/// More digits of a fraction do not change its nearest number of 65536ths.
const DIGITS: usize = 17;

impl Sp {
    /// The length 0.
    pub const ZERO: Sp = Sp(0);
    /// The greatest dimension that fits.
    pub const MAX: Sp = Sp((1 << 30) - 1);

    /// Makes a dimension of whole points.
    ///
    /// # Panics
    ///
    /// Panics if they do not fit: 16,384 or more, or -16,384 or less.
    pub const fn points(points: i32) -> Sp {
        assert!(-16_384 < points && points < 16_384, "a dimension that does not fit");
        Sp(points * 65_536)
    }

    /// Tells whether the dimension fits.
    pub const fn fits(self) -> bool {
        -Sp::MAX.0 <= self.0 && self.0 <= Sp::MAX.0
    }
}

/// The whole number before the point and the fraction after it, in 65536ths.
fn number(text: &str) -> Option<(u64, u64)> {
    let (whole, digits) = text.split_once('.').unwrap_or((text, ""));
    let is_number = !(whole.is_empty() && digits.is_empty()) && text.bytes().filter(|it| *it != b'.').all(|it| it.is_ascii_digit());
    let whole = whole.trim_start_matches('0');
    if !is_number || digits.contains('.') {
        return None;
    }
    let (digits, whole) = (&digits[..digits.len().min(DIGITS)], if whole.len() > 10 { u64::from(u32::MAX) } else { whole.parse().unwrap_or(0) });
    let one = 10_u128.pow(digits.len() as u32);
    let fraction = (2 * u128::from(POINT) * digits.parse().unwrap_or(0) + one) / (2 * one);
    Some((whole, fraction as u64))
}

impl FromStr for Sp {
    type Err = Error;

    fn from_str(text: &str) -> Result<Sp, Error> {
        let unsigned = text.strip_prefix(['+', '-']).unwrap_or(text);
        let at = unsigned.len().checked_sub(2).filter(|it| unsigned.is_char_boundary(*it)).ok_or(Error::BadDimension)?;
        let (amount, unit) = unsigned.split_at(at);
        let (whole, fraction) = number(amount).ok_or(Error::BadDimension)?;
        let size = match UNITS.iter().find(|it| it.0 == unit) {
            Some((_, num, den)) => (POINT * whole + fraction) * num / den,
            None if unit == "sp" => whole,
            None => return Err(Error::BadDimension),
        };
        let size = i32::try_from(size).map(Sp).ok().filter(|it| it.fits()).ok_or(Error::OutOfRange)?;
        Ok(if text.starts_with('-') { -size } else { size })
    }
}

impl Display for Sp {
    fn fmt(&self, out: &mut Formatter<'_>) -> FormatResult {
        out.pad(&points(self.0))
    }
}

impl Neg for Sp {
    type Output = Sp;

    fn neg(self) -> Sp {
        Sp(-self.0)
    }
}

impl Add for Sp {
    type Output = Sp;

    fn add(self, other: Sp) -> Sp {
        Sp(self.0 + other.0)
    }
}

impl Sub for Sp {
    type Output = Sp;

    fn sub(self, other: Sp) -> Sp {
        Sp(self.0 - other.0)
    }
}
