//! Writing a table, which lies in the first bytes of a buffer.
use crate::ffi;
use crate::refusal::{accepted, compare_interface, Answer};
use crate::table::{Date, Field, Table};
use std::ops::Range;

/// Bytes that a call has written into the buffer, and that the file is still to get.
#[derive(Clone, Copy, Debug, PartialEq, Eq)]
pub struct Store {
    pub place: u64,
    pub length: u64,
}

impl Store {
    /// The bytes' places in the buffer, which are those in the file too.
    pub fn range(self) -> Range<usize> {
        self.place as usize..(self.place + self.length) as usize
    }
}

/// The two stores of an append. The file gets the record's first and makes it durable, then the count's: until then it holds the old table.
#[derive(Clone, Copy, Debug, PartialEq, Eq)]
pub struct Stores {
    /// The record and the end mark.
    pub record: Store,
    /// The four bytes of the count.
    pub count: Store,
}

impl Stores {
    /// Both, in the order in which the file must get them.
    pub fn in_order(self) -> [Store; 2] {
        [self.record, self.count]
    }

    /// The table's length now, with its end mark.
    pub fn table_len(self) -> usize {
        self.record.range().end
    }
}

impl Table<'_> {
    /// Lays out a table of these fields and no records in the buffer's first bytes, the end mark last, and gives its length; later bytes stay. Fields of
    /// another table will do: their numbers and offsets are not looked at. 3 unless it is a date of the years 1900 to 2155, 4 unless there are 1 to 128 fields,
    /// 6 for a bad one, 7 if two have one name, 9 if a record would have more than 4,000 bytes, 30 if the buffer is too short.
    ///
    /// ```
    /// use gatherloom::{Date, Field, Refusal, Table};
    ///
    /// let fields = [Field::new("BARCODE", b'C', 10, 0), Field::new("CONC", b'N', 8, 3)];
    /// let date = Date { year: 2024, month: 2, day: 29 };
    /// let mut buffer = vec![0; 1000];
    /// let empty = Table::lay_out(&mut buffer, &fields, date)?;
    /// let stores = Table::append(&mut buffer, empty, b" PLT0000001   2.150")?;
    /// let comma = Table::append(&mut buffer, stores.table_len(), b" PLT0000002   2,150");
    /// assert_eq!(comma, Err(Refusal::Comma));
    /// let table = Table::new(&buffer[..stores.table_len()])?;
    /// assert_eq!(table.decimal(1, 2)?.unwrap().units(), 2150);
    /// # Ok::<(), Refusal>(())
    /// ```
    pub fn lay_out(buffer: &mut [u8], fields: &[Field], date: Date) -> Answer<usize> {
        compare_interface();
        let entries: Vec<ffi::FieldEntry> = fields.iter().map(Field::entry).collect();
        let answer = unsafe {
            ffi::gl_table_lay_out(
                buffer.as_mut_ptr(),
                buffer.len(),
                entries.as_ptr(),
                entries.len(),
                date.year,
                date.month,
                date.day,
            )
        };
        accepted(answer, 34 + 32 * entries.len())
    }

    /// Appends one record, given as its bytes, to the table in the buffer's first `table_len` bytes. 10 if there are fewer, 1 to 10, 9 if the record has
    /// another length than the table's, 15, then each field's text in order by 16 to 18, 20 or 21, 30 if the table would be longer than the buffer or
    /// than 16,777,216 bytes.
    ///
    /// ```no_run
    /// use gatherloom::Table;
    /// use std::os::unix::fs::FileExt;
    ///
    /// # fn main() -> Result<(), Box<dyn std::error::Error>> {
    /// let file = std::fs::File::options().write(true).open("run.dbf")?;
    /// let mut buffer = std::fs::read("run.dbf")?;
    /// // power may have failed in the last append
    /// buffer.truncate(Table::extent(&buffer)? as usize);
    /// file.set_len(buffer.len() as u64)?;
    /// let table_len = buffer.len();
    /// buffer.resize(table_len + 1000, 0);
    /// let stores = Table::append(&mut buffer, table_len, b" PLT0000001   2.15020240229T")?;
    /// for store in stores.in_order() {
    ///     file.write_all_at(&buffer[store.range()], store.place)?;
    ///     file.sync_all()?;
    /// }
    /// # Ok(())
    /// # }
    /// ```
    pub fn append(buffer: &mut [u8], table_len: usize, record: &[u8]) -> Answer<Stores> {
        compare_interface();
        let none = Store {
            place: 0,
            length: 0,
        };
        let mut stores = Stores {
            record: none,
            count: none,
        };
        let answer = unsafe {
            ffi::gl_table_append(
                buffer.as_mut_ptr(),
                buffer.len(),
                table_len,
                record.as_ptr(),
                record.len(),
                &mut stores.record.place,
                &mut stores.record.length,
                &mut stores.count.place,
                &mut stores.count.length,
            )
        };
        accepted(answer, stores)
    }

    /// Sets the update date of the table in the buffer's first `table_len` bytes: its bytes 1 to 3. 10 if there are fewer, 1 to 10, 3 unless it is a date of
    /// the years 1900 to 2155.
    pub fn set_date(buffer: &mut [u8], table_len: usize, date: Date) -> Answer<()> {
        compare_interface();
        let answer = unsafe {
            ffi::gl_table_set_date(
                buffer.as_mut_ptr(),
                buffer.len(),
                table_len,
                date.year,
                date.month,
                date.day,
            )
        };
        accepted(answer, ())
    }

    /// How much of a file is its table by the table's own count, without an end mark: the length to shorten the file to after a power loss. 1 to 9, 10 if the
    /// file is shorter.
    pub fn extent(file: &[u8]) -> Answer<u64> {
        compare_interface();
        let mut length = 0;
        let answer = unsafe { ffi::gl_table_extent(file.as_ptr(), file.len(), &mut length) };
        accepted(answer, length)
    }
}
