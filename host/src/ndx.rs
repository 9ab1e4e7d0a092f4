//! The index of dBASE III, read only.
use crate::ffi;
use crate::index::Lookup;
use crate::refusal::{accepted, compare_interface, Answer};

/// An NDX index over bytes that the caller holds.
///
/// ```
/// use gatherloom::{Lookup, NdxIndex};
///
/// // one page besides the header, a lone leaf: keys of 4 bytes, entries of 12, 42 keys per page
/// let mut bytes = vec![0; 1024];
/// (bytes[0], bytes[4], bytes[12], bytes[14], bytes[18]) = (1, 2, 4, 42, 12);
/// bytes[512] = 1;
/// bytes[520] = 7;
/// bytes[524..528].copy_from_slice(b"P001");
/// let index = NdxIndex::over(&bytes);
/// index.audit()?;
/// assert_eq!(index.lookup(b"P001")?, Lookup::Found { record: 7, pages: 1 });
/// assert_eq!(index.lookup(b"P002")?, Lookup::Absent { pages: 1 });
/// # Ok::<(), gatherloom::Refusal>(())
/// ```
#[derive(Clone, Copy, Debug)]
pub struct NdxIndex<'a> {
    bytes: &'a [u8],
}

impl<'a> NdxIndex<'a> {
    /// The index of the bytes. Each call checks what it reads; `audit` checks all.
    pub fn over(bytes: &'a [u8]) -> NdxIndex<'a> {
        compare_interface();
        NdxIndex { bytes }
    }

    /// Whether the index is sound.
    pub fn audit(&self) -> Answer<()> {
        let answer = unsafe { ffi::gl_ndx_audit(self.bytes.as_ptr(), self.bytes.len()) };
        accepted(answer, ())
    }

    /// The record of a key.
    pub fn lookup(&self, key: &[u8]) -> Answer<Lookup> {
        let (mut record, mut pages) = (0, 0);
        let answer = unsafe {
            ffi::gl_ndx_lookup(
                self.bytes.as_ptr(),
                self.bytes.len(),
                key.as_ptr(),
                key.len(),
                &mut record,
                &mut pages,
            )
        };
        match answer {
            ffi::ABSENT => Ok(Lookup::Absent { pages }),
            _ => accepted(answer, Lookup::Found { record, pages }),
        }
    }
}
