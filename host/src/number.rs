//! Numeric text.
use crate::ffi;
use crate::refusal::{accepted, compare_interface, present, Answer};
use std::{fmt, str};

/// The widest text of a number.
const MOST_WIDTH: usize = 20;

/// A number as a field has it: a count of units, each 10 to the -decimals. `   2.150` is 2150 units with 3 decimals.
#[derive(Clone, Copy, Debug, PartialEq, Eq, Hash)]
pub struct Decimal {
    units: i64,
    decimals: u32,
}

impl Decimal {
    #[inline]
    pub(crate) fn new(units: i64, decimals: u32) -> Decimal {
        Decimal { units, decimals }
    }

    #[inline]
    pub fn units(self) -> i64 {
        self.units
    }

    #[inline]
    pub fn decimals(self) -> u32 {
        self.decimals
    }
}

/// The number with its point, as the library writes it, without blanks: `0.150` also if it was read from `.150`.
impl fmt::Display for Decimal {
    fn fmt(&self, f: &mut fmt::Formatter) -> fmt::Result {
        let mut text = [0; MOST_WIDTH];
        write_number(&mut text, self.decimals, self.units).map_err(|_| fmt::Error)?;
        let text = str::from_utf8(&text).map_err(|_| fmt::Error)?;
        f.pad(text.trim_start_matches(' '))
    }
}

/// Reads a text as that of an N field of its length; `None` if it is all blanks. The zero before the point may be missing, as in `-.150`, unless all digits
/// are zeros.
#[inline]
pub fn read_number(text: &[u8], decimals: u32) -> Answer<Option<Decimal>> {
    compare_interface();
    let mut units = 0;
    let answer = unsafe { ffi::gl_number_read(text.as_ptr(), text.len(), decimals, &mut units) };
    present(answer, Decimal { units, decimals })
}

/// Writes a count of units, each 10 to the -decimals, as the text of an N field of the buffer's length. The zero before the point is always written, so a
/// number that was read from `-.150` does not fit in its five bytes.
#[inline]
pub fn write_number(text: &mut [u8], decimals: u32, units: i64) -> Answer<()> {
    compare_interface();
    let answer = unsafe { ffi::gl_number_write(text.as_mut_ptr(), text.len(), decimals, units) };
    accepted(answer, ())
}
