//! The index.
use crate::ffi;
use crate::refusal::{accepted, compare_interface, Answer};
use crate::table::Table;

/// An index over bytes that the caller holds: a slice, or a vector. To make one, to insert or to remove, the bytes must be writable.
///
/// ```
/// use gatherloom::{Index, Lookup};
///
/// let mut buffer = vec![0; 4096];
/// let mut index = Index::fresh(&mut buffer[..], 10, 1, b"BARCODE")?;
/// index.insert(b"PLT0000001", 1)?;
/// assert_eq!(index.lookup(b"PLT0000001")?, Lookup::Found { record: 1, pages: 1 });
/// index.remove(b"PLT0000001", 1)?;
/// assert_eq!(index.lookup(b"PLT0000001")?, Lookup::Absent { pages: 1 });
/// Index::over(&buffer).audit()?;
/// # Ok::<(), gatherloom::Refusal>(())
/// ```
#[derive(Clone, Copy, Debug)]
pub struct Index<B> {
    bytes: B,
}

/// What a lookup finds, and how many pages it visits.
#[derive(Clone, Copy, Debug, PartialEq, Eq)]
pub enum Lookup {
    Found { record: u32, pages: u32 },
    Absent { pages: u32 },
}

impl<B: AsRef<[u8]>> Index<B> {
    /// The index of the bytes. Each call checks what it reads; `audit` checks all.
    pub fn over(bytes: B) -> Index<B> {
        compare_interface();
        Index { bytes }
    }

    pub(crate) fn lent(&self) -> &[u8] {
        self.bytes.as_ref()
    }

    /// The bytes back.
    pub fn into_bytes(self) -> B {
        self.bytes
    }

    /// Whether the index is sound.
    pub fn audit(&self) -> Answer<()> {
        let index = self.lent();
        let answer = unsafe { ffi::gl_index_audit(index.as_ptr(), index.len()) };
        accepted(answer, ())
    }

    /// The record of a key, the first if it has several.
    pub fn lookup(&self, key: &[u8]) -> Answer<Lookup> {
        let index = self.lent();
        let (mut record, mut pages) = (0, 0);
        let answer = unsafe {
            ffi::gl_index_lookup(
                index.as_ptr(),
                index.len(),
                key.as_ptr(),
                key.len(),
                &mut record,
                &mut pages,
            )
        };
        match answer {
            ffi::ABSENT => Ok(Lookup::Absent { pages }),
            _ => accepted(answer, Lookup::Found { record, pages }),
        }
    }

    /// All records of a key, in order, into the beginning of a list: how many they are, 0 for none. Entries past them stay, and all of a list that is too
    /// short.
    ///
    /// ```
    /// use gatherloom::{Index, Refusal};
    ///
    /// let mut index = Index::fresh(vec![0; 4096], 8, 0, b"RUN_DATE")?;
    /// index.insert(b"20240301", 7)?;
    /// index.insert(b"20240301", 3)?;
    /// let mut list = [0; 4];
    /// assert_eq!(index.records(b"20240301", &mut list)?, 2);
    /// assert_eq!(list, [3, 7, 0, 0]);
    /// assert_eq!(index.records(b"20240301", &mut list[..1]), Err(Refusal::RecordListTooShort));
    /// # Ok::<(), gatherloom::Refusal>(())
    /// ```
    pub fn records(&self, key: &[u8], list: &mut [u32]) -> Answer<u32> {
        let index = self.lent();
        let mut count = 0;
        let answer = unsafe {
            ffi::gl_index_records(
                index.as_ptr(),
                index.len(),
                key.as_ptr(),
                key.len(),
                list.as_mut_ptr(),
                list.len(),
                &mut count,
            )
        };
        accepted(answer, count)
    }

    /// Whether each record of the table has exactly one entry, its key the record's field, and there are no other entries.
    pub fn matches(&self, table: &Table, field: u32) -> Answer<()> {
        let (table, index) = (table.bytes(), self.lent());
        let answer = unsafe {
            ffi::gl_match(
                table.as_ptr(),
                table.len(),
                index.as_ptr(),
                index.len(),
                field,
            )
        };
        accepted(answer, ())
    }
}

impl<B: AsRef<[u8]> + AsMut<[u8]>> Index<B> {
    /// Makes an index of no keys in the first 1,024 bytes; later bytes stay. With features 1 a key has one record, with features 0 it may have several. The
    /// expression is carried, never evaluated.
    pub fn fresh(
        mut bytes: B,
        key_length: u32,
        features: u32,
        expression: &[u8],
    ) -> Answer<Index<B>> {
        compare_interface();
        let index = bytes.as_mut();
        let answer = unsafe {
            ffi::gl_index_fresh(
                index.as_mut_ptr(),
                index.len(),
                key_length,
                features,
                expression.as_ptr(),
                expression.len(),
            )
        };
        accepted(answer, Index { bytes })
    }

    /// Inserts a key with its record's number; a key with a byte below 0x20 is refused. The bytes past the index are the room that it can grow into.
    pub fn insert(&mut self, key: &[u8], record: u32) -> Answer<()> {
        let index = self.bytes.as_mut();
        let answer = unsafe {
            ffi::gl_index_insert(
                index.as_mut_ptr(),
                index.len(),
                key.as_ptr(),
                key.len(),
                record,
            )
        };
        accepted(answer, ())
    }

    /// Strikes the pair of a key and a record's number off; with features 1 the number isn't looked at. Pages that are emptied are reused by later insertions;
    /// the index never gets shorter, and it loses levels only when its last key goes.
    pub fn remove(&mut self, key: &[u8], record: u32) -> Answer<()> {
        let index = self.bytes.as_mut();
        let answer = unsafe {
            ffi::gl_index_remove(
                index.as_mut_ptr(),
                index.len(),
                key.as_ptr(),
                key.len(),
                record,
            )
        };
        accepted(answer, ())
    }
}
