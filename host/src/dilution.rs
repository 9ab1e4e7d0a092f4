//! The dilution of a sample.
use crate::ffi;
use crate::index::Index;
use crate::refusal::{accepted, Answer};
use crate::table::Table;

/// What to pipette, in tenths of a microlitre. Both add to the final volume.
#[derive(Clone, Copy, Debug, PartialEq, Eq)]
pub struct Volumes {
    pub sample: u32,
    pub diluent: u32,
}

/// A dilution that is asked for.
#[derive(Clone, Copy, Debug, PartialEq, Eq)]
pub struct Dilution {
    /// The field of the table that the index is for, from 1.
    pub barcode_field: u32,
    /// An N field with three decimals, from 1: nM.
    pub concentration_field: u32,
    /// The target concentration in thousandths of nM, 1 to 1,000,000,000.
    pub target: u64,
    /// The final volume in tenths of a microlitre, 1 to 10,000.
    pub final_volume: u64,
}

impl<B: AsRef<[u8]>> Index<B> {
    /// The volumes for the record with this barcode. If the call refuses, nothing is to be pipetted. Each call makes the match anew.
    pub fn dilute(&self, table: &Table, barcode: &[u8], asked: &Dilution) -> Answer<Volumes> {
        let (table, index) = (table.bytes(), self.lent());
        let (mut sample, mut diluent) = (0, 0);
        let answer = unsafe {
            ffi::gl_dilute(
                table.as_ptr(),
                table.len(),
                index.as_ptr(),
                index.len(),
                asked.barcode_field,
                asked.concentration_field,
                barcode.as_ptr(),
                barcode.len(),
                asked.target,
                asked.final_volume,
                &mut sample,
                &mut diluent,
            )
        };
        accepted(answer, Volumes { sample, diluent })
    }
}
