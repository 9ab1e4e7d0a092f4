//! The table: its fields, its records and their values.
use crate::ffi;
use crate::number::Decimal;
use crate::refusal::{accepted, compare_interface, present, Answer};
use std::{iter, str};

/// A good table over bytes that the caller holds, with its memo file if there is one. Records and fields are counted from 1.
///
/// ```no_run
/// # fn main() -> Result<(), Box<dyn std::error::Error>> {
/// let bytes = std::fs::read("run.dbf")?;
/// let table = gatherloom::Table::new(&bytes)?;
/// for record in table.records() {
///     for field in table.fields() {
///         match record.value(field.number) {
///             Ok(value) => println!("{} {} {value:?}", record.number(), field.name()),
///             Err(refusal) => println!("{} {} {refusal}", record.number(), field.name()),
///         }
///     }
/// }
/// # Ok(())
/// # }
/// ```
#[derive(Clone, Debug)]
pub struct Table<'a> {
    bytes: &'a [u8],
    memo: &'a [u8],
    shape: Shape,
    fields: Vec<Field>,
}

#[derive(Clone, Copy, Debug, PartialEq, Eq)]
pub struct Shape {
    pub records: u32,
    pub fields: u32,
    pub record_length: u32,
}

/// A field of a table.
#[derive(Clone, Copy, Debug, PartialEq, Eq)]
pub struct Field {
    /// From 1; 0 for a field of no table yet.
    pub number: u32,
    /// `b'C'`, `b'N'`, `b'D'`, `b'L'` or `b'M'`.
    pub kind: u8,
    pub length: u8,
    pub decimals: u8,
    /// From the record's start, where the deletion byte is: 1 for the first field; 0 for a field of no table yet.
    pub offset: u16,
    name: [u8; 11],
}

impl Field {
    /// A field to lay out a table with. Laying out checks it: a name that an entry has no room for is no name there, and so refused by 6.
    pub fn new(name: &str, kind: u8, length: u8, decimals: u8) -> Field {
        let mut held = [0; 11];
        if name.len() <= held.len() && !name.contains('\0') {
            held[..name.len()].copy_from_slice(name.as_bytes());
        }
        Field {
            number: 0,
            kind,
            length,
            decimals,
            offset: 0,
            name: held,
        }
    }

    /// A good table's: letters A to Z, digits and underscores.
    pub fn name(&self) -> &str {
        let length = self.name.iter().position(|&c| c == 0).unwrap_or(11);
        str::from_utf8(&self.name[..length]).expect("a name is ASCII, or was given as text")
    }

    pub(crate) fn entry(&self) -> ffi::FieldEntry {
        ffi::FieldEntry {
            name: self.name,
            kind: self.kind,
            length: self.length,
            decimals: self.decimals,
            offset: self.offset,
        }
    }
}

#[derive(Clone, Copy, Debug, PartialEq, Eq, Hash)]
pub struct Date {
    pub year: u32,
    pub month: u32,
    pub day: u32,
}

/// A field's value, by the field's type.
#[derive(Clone, Copy, Debug, PartialEq, Eq)]
pub enum Value<'a> {
    /// The bytes of a C field, or of an M field's memo. No code page is guessed.
    Text(&'a [u8]),
    Decimal(Decimal),
    Date(Date),
    Logical(bool),
}

impl<'a> Table<'a> {
    /// Checks a table: 1 to 10. Without a memo file, an M field that is not empty is refused by 22.
    pub fn new(bytes: &'a [u8]) -> Answer<Table<'a>> {
        Table::with_memo(bytes, &[])
    }

    /// The same with a memo file, which is checked whenever an M field is read.
    pub fn with_memo(bytes: &'a [u8], memo: &'a [u8]) -> Answer<Table<'a>> {
        compare_interface();
        let shape = shape(bytes)?;
        let fields = fields(bytes, shape.fields)?;
        Ok(Table {
            bytes,
            memo,
            shape,
            fields,
        })
    }

    /// Whether a table is good: 1 to 10. `new` checks the same.
    pub fn check(bytes: &[u8]) -> Answer<()> {
        compare_interface();
        let answer = unsafe { ffi::gl_table_check(bytes.as_ptr(), bytes.len()) };
        accepted(answer, ())
    }

    pub fn bytes(&self) -> &'a [u8] {
        self.bytes
    }

    pub fn shape(&self) -> Shape {
        self.shape
    }

    /// The fields, in order.
    pub fn fields(&self) -> &[Field] {
        &self.fields
    }

    /// The field of a name.
    pub fn field(&self, name: &str) -> Option<&Field> {
        self.fields.iter().find(|f| f.name() == name)
    }

    /// All records in order, deleted ones too.
    pub fn records(&self) -> Records<'_, 'a> {
        Records {
            table: self,
            position: ffi::Position { passed: 0 },
        }
    }

    /// The numbers of the undeleted records in order; the refusal 15 for each record with a bad deletion byte.
    pub fn live(&self) -> impl Iterator<Item = Answer<u32>> + '_ {
        let mut position = ffi::Position { passed: 0 };
        iter::from_fn(move || walk_live(self.bytes, &mut position).transpose())
    }

    /// The value of a record's field, by the field's type; `None` if the field is empty.
    pub fn value(&self, record: u32, field: u32) -> Answer<Option<Value<'a>>> {
        match self.kind(field) {
            Some(b'C' | b'M') => Ok(self.text(record, field)?.map(Value::Text)),
            Some(b'D') => Ok(self.date(record, field)?.map(Value::Date)),
            Some(b'L') => Ok(self.logical(record, field)?.map(Value::Logical)),
            // a field that the table does not have is refused as such
            _ => Ok(self.decimal(record, field)?.map(Value::Decimal)),
        }
    }

    fn listed(&self, field: u32) -> Option<&Field> {
        self.fields.get((field as usize).wrapping_sub(1))
    }

    fn kind(&self, field: u32) -> Option<u8> {
        self.listed(field).map(|f| f.kind)
    }

    /// An N field's value; `None` if the field is empty.
    pub fn decimal(&self, record: u32, field: u32) -> Answer<Option<Decimal>> {
        let table = self.bytes;
        let mut units = 0;
        let answer =
            unsafe { ffi::gl_read_number(table.as_ptr(), table.len(), record, field, &mut units) };
        let decimals = self.listed(field).map_or(0, |f| f.decimals.into());
        present(answer, Decimal::new(units, decimals))
    }

    /// A D field's day.
    pub fn date(&self, record: u32, field: u32) -> Answer<Option<Date>> {
        let table = self.bytes;
        let (mut year, mut month, mut day) = (0, 0, 0);
        let answer = unsafe {
            ffi::gl_read_date(
                table.as_ptr(),
                table.len(),
                record,
                field,
                &mut year,
                &mut month,
                &mut day,
            )
        };
        present(answer, Date { year, month, day })
    }

    /// An L field's value.
    pub fn logical(&self, record: u32, field: u32) -> Answer<Option<bool>> {
        let table = self.bytes;
        let mut value = 0;
        let answer =
            unsafe { ffi::gl_read_logical(table.as_ptr(), table.len(), record, field, &mut value) };
        present(answer, value == 1)
    }

    /// A C field's part of the table itself, or an M field's part of the memo file itself.
    pub fn text(&self, record: u32, field: u32) -> Answer<Option<&'a [u8]>> {
        let (table, memo) = (self.bytes, self.memo);
        let (mut start, mut length) = (0u64, 0u64);
        let answer = unsafe {
            ffi::gl_text_part(
                table.as_ptr(),
                table.len(),
                memo.as_ptr(),
                memo.len(),
                record,
                field,
                &mut start,
                &mut length,
            )
        };
        let part = present(answer, start as usize..(start + length) as usize)?;
        let file = if self.kind(field) == Some(b'M') {
            memo
        } else {
            table
        };
        Ok(part.map(|part| &file[part]))
    }
}

fn shape(table: &[u8]) -> Answer<Shape> {
    let (mut records, mut fields, mut record_length) = (0, 0, 0);
    let answer = unsafe {
        ffi::gl_table_shape(
            table.as_ptr(),
            table.len(),
            &mut records,
            &mut fields,
            &mut record_length,
        )
    };
    let shape = Shape {
        records,
        fields,
        record_length,
    };
    accepted(answer, shape)
}

fn fields(table: &[u8], count: u32) -> Answer<Vec<Field>> {
    let none = ffi::FieldEntry {
        name: [0; 11],
        kind: 0,
        length: 0,
        decimals: 0,
        offset: 0,
    };
    let mut entries = vec![none; count as usize];
    let answer = unsafe {
        ffi::gl_fields(
            table.as_ptr(),
            table.len(),
            entries.as_mut_ptr(),
            entries.len(),
        )
    };
    let field = |(e, number): (&ffi::FieldEntry, u32)| Field {
        number,
        kind: e.kind,
        length: e.length,
        decimals: e.decimals,
        offset: e.offset,
        name: e.name,
    };
    accepted(answer, entries.iter().zip(1..).map(field).collect())
}

/// The next record's number and whether it is deleted, or `None` if none is left. The position moves, past a bad record too.
fn walk(table: &[u8], position: &mut ffi::Position) -> Answer<Option<(u32, bool)>> {
    let (mut record, mut deleted) = (0, 0);
    let answer = unsafe {
        ffi::gl_walk(
            table.as_ptr(),
            table.len(),
            position,
            &mut record,
            &mut deleted,
        )
    };
    match answer {
        ffi::DONE => Ok(None),
        _ => accepted(answer, Some((record, deleted != 0))),
    }
}

/// The next undeleted record's number, or `None` if none is left. The position moves, past a bad record too.
fn walk_live(table: &[u8], position: &mut ffi::Position) -> Answer<Option<u32>> {
    let mut record = 0;
    let answer = unsafe { ffi::gl_walk_live(table.as_ptr(), table.len(), position, &mut record) };
    match answer {
        ffi::DONE => Ok(None),
        _ => accepted(answer, Some(record)),
    }
}

/// A record of a table.
#[derive(Clone, Copy, Debug)]
pub struct Record<'t, 'a> {
    table: &'t Table<'a>,
    number: u32,
    deleted: Answer<bool>,
}

impl<'a> Record<'_, 'a> {
    /// From 1.
    pub fn number(&self) -> u32 {
        self.number
    }

    /// Whether the record is marked as deleted; 15 if its mark is neither. A deleted record's fields can be read, a bad one's are refused by 15.
    pub fn deleted(&self) -> Answer<bool> {
        self.deleted
    }

    /// The value of a field, by the field's type; `None` if the field is empty.
    pub fn value(&self, field: u32) -> Answer<Option<Value<'a>>> {
        self.table.value(self.number, field)
    }

    /// An N field's value.
    pub fn decimal(&self, field: u32) -> Answer<Option<Decimal>> {
        self.table.decimal(self.number, field)
    }

    /// A D field's day.
    pub fn date(&self, field: u32) -> Answer<Option<Date>> {
        self.table.date(self.number, field)
    }

    /// An L field's value.
    pub fn logical(&self, field: u32) -> Answer<Option<bool>> {
        self.table.logical(self.number, field)
    }

    /// A C field's bytes, or those of an M field's memo.
    pub fn text(&self, field: u32) -> Answer<Option<&'a [u8]>> {
        self.table.text(self.number, field)
    }
}

/// The records of a table, deleted ones too, as the walk hands them out.
#[derive(Clone, Debug)]
pub struct Records<'t, 'a> {
    table: &'t Table<'a>,
    position: ffi::Position,
}

impl<'t, 'a> Iterator for Records<'t, 'a> {
    type Item = Record<'t, 'a>;

    fn next(&mut self) -> Option<Record<'t, 'a>> {
        let (number, deleted) = match walk(self.table.bytes, &mut self.position) {
            Ok(None) => return None,
            Ok(Some((number, deleted))) => (number, Ok(deleted)),
            // the position has moved past the bad record: it is its number
            Err(refusal) => (self.position.passed, Err(refusal)),
        };
        Some(Record {
            table: self.table,
            number,
            deleted,
        })
    }
}
