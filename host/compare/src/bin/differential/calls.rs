//! Each call made both ways: by the library on lent memory that is watched, its out-parameters filled beforehand, and by the plain implementation.
use crate::tally::{Call, Input, Tally};
use gatherloom::ffi::{self, ABSENT, DONE, EMPTY};
use gatherloom_compare::lent::{Lent, Out};
use gatherloom_compare::reference::{self, Looked, Refusal, Step};
use Input::{Bytes, Number};

/// What a reading call is due to answer and to leave in its out-parameters, which held `held`.
fn due<T>(result: Result<Option<T>, Refusal>, held: T) -> (u32, T) {
    match result {
        Ok(Some(value)) => (0, value),
        Ok(None) => (EMPTY, held),
        Err(number) => (number, held),
    }
}

fn number_of<T>(result: Result<T, Refusal>) -> u32 {
    result.err().unwrap_or(0)
}

pub fn table_check(tally: &mut Tally, table: &Lent) {
    let got = unsafe { ffi::gl_table_check(table.place(), table.length()) };
    let due = number_of(reference::check_table(table.was()));
    let inputs = [Bytes("table", table.was())];
    tally.hold(
        Call::TableCheck,
        (got, ()),
        (due, ()),
        table.kept(),
        &inputs,
    );
}

pub fn table_shape(tally: &mut Tally, table: &Lent, held: u32) {
    let (mut records, mut fields, mut length) = (Out::new(held), Out::new(held), Out::new(held));
    let got = unsafe {
        ffi::gl_table_shape(
            table.place(),
            table.length(),
            records.place(),
            fields.place(),
            length.place(),
        )
    };
    let shape = reference::check_table(table.was())
        .map(|s| Some((s.records, s.fields as u32, s.record_length as u32)));
    tally.hold(
        Call::TableShape,
        (got, (records.value(), fields.value(), length.value())),
        due(shape, (held, held, held)),
        table.kept() && records.intact() && fields.intact() && length.intact(),
        &[Bytes("table", table.was())],
    );
}

pub const ENTRY: usize = 16;

/// The list is lent as its bytes, `list`, which has no others around its entries.
pub fn fields(tally: &mut Tally, table: &Lent, list: &Lent) {
    let count = list.length() / ENTRY;
    let got = unsafe { ffi::gl_fields(table.place(), table.length(), list.place().cast(), count) };
    let mut entries: Vec<reference::Field> = list.was().chunks_exact(ENTRY).map(entry).collect();
    let due = number_of(reference::list_fields(table.was(), &mut entries));
    let mut bytes = Vec::with_capacity(list.length());
    for e in &entries {
        bytes.extend_from_slice(&e.name);
        bytes.extend_from_slice(&[e.kind, e.length, e.decimals]);
        bytes.extend_from_slice(&e.offset.to_le_bytes());
    }
    tally.hold(
        Call::Fields,
        (got, ()),
        (due, ()),
        table.kept() && list.holds(&bytes),
        &[Bytes("table", table.was()), Bytes("list", list.was())],
    );
}

fn entry(bytes: &[u8]) -> reference::Field {
    reference::Field {
        name: bytes[..11].try_into().unwrap(),
        kind: bytes[11],
        length: bytes[12],
        decimals: bytes[13],
        offset: u16::from_le_bytes([bytes[14], bytes[15]]),
    }
}

/// A step of the walk over every record; gives the answer and the position that are due.
pub fn walk(tally: &mut Tally, table: &Lent, passed: u32, held: u32, mark: u8) -> (u32, u32) {
    let mut position = Out::new(ffi::Position { passed });
    let mut record = Out::new(held);
    let mut deleted = Out::new(mark);
    let got = unsafe {
        ffi::gl_walk(
            table.place(),
            table.length(),
            position.place(),
            record.place(),
            deleted.place(),
        )
    };
    let mut after = passed;
    let due = match reference::walk(table.was(), &mut after) {
        Step::Record { number, deleted } => (0, (after, number, deleted.into())),
        Step::Done => (DONE, (after, held, mark)),
        Step::Refused(number) => (number, (after, held, mark)),
    };
    tally.hold(
        Call::Walk,
        (
            got,
            (position.value().passed, record.value(), deleted.value()),
        ),
        due,
        table.kept() && position.intact() && record.intact() && deleted.intact(),
        &[
            Bytes("table", table.was()),
            Number("position", passed.into()),
        ],
    );
    (due.0, after)
}

/// A step of the walk that skips deleted records.
pub fn walk_live(tally: &mut Tally, table: &Lent, passed: u32, held: u32) -> (u32, u32) {
    let mut position = Out::new(ffi::Position { passed });
    let mut record = Out::new(held);
    let got = unsafe {
        ffi::gl_walk_live(
            table.place(),
            table.length(),
            position.place(),
            record.place(),
        )
    };
    let mut after = passed;
    let due = match reference::walk_live(table.was(), &mut after) {
        Step::Record { number, .. } => (0, (after, number)),
        Step::Done => (DONE, (after, held)),
        Step::Refused(number) => (number, (after, held)),
    };
    tally.hold(
        Call::WalkLive,
        (got, (position.value().passed, record.value())),
        due,
        table.kept() && position.intact() && record.intact(),
        &[
            Bytes("table", table.was()),
            Number("position", passed.into()),
        ],
    );
    (due.0, after)
}

/// The list is lent as its bytes, `list`.
pub fn lay_out(tally: &mut Tally, buffer: &Lent, list: &Lent, date: [u32; 3]) {
    let count = list.length() / ENTRY;
    let [year, month, day] = date;
    let got = unsafe {
        ffi::gl_table_lay_out(
            buffer.place(),
            buffer.length(),
            list.place().cast(),
            count,
            year,
            month,
            day,
        )
    };
    let entries: Vec<reference::Field> = list.was().chunks_exact(ENTRY).map(entry).collect();
    let mut own = buffer.was().to_vec();
    let due = number_of(reference::lay_out(&mut own, &entries, (year, month, day)));
    tally.hold(
        Call::TableLayOut,
        (got, ()),
        (due, ()),
        buffer.holds(&own) && list.kept(),
        &[
            Bytes("buffer", buffer.was()),
            Bytes("list", list.was()),
            Number("year", year.into()),
            Number("month", month.into()),
            Number("day", day.into()),
        ],
    );
}

/// `own` holds what the lent buffer does, before and after; `before` is room for a copy.
pub fn append(
    tally: &mut Tally,
    buffer: &Lent,
    own: &mut [u8],
    before: &mut Vec<u8>,
    length: usize,
    record: &Lent,
    held: u64,
) -> u32 {
    let mut stores = [held; 4].map(Out::new);
    let [record_place, record_length, count_place, count_length] = &mut stores;
    let got = unsafe {
        ffi::gl_table_append(
            buffer.place(),
            buffer.length(),
            length,
            record.place(),
            record.length(),
            record_place.place(),
            record_length.place(),
            count_place.place(),
            count_length.place(),
        )
    };
    before.clear();
    before.extend_from_slice(own);
    let due = match reference::append(own, length, record.was()) {
        Ok([record, count]) => (0, [record.0, record.1, count.0, count.1]),
        Err(number) => (number, [held; 4]),
    };
    let intact = stores.iter().all(Out::intact);
    tally.hold(
        Call::TableAppend,
        (got, stores.map(|out| out.value())),
        due,
        buffer.holds(own) && record.kept() && intact,
        &[
            Bytes("buffer", before),
            Number("table length", length as i64),
            Bytes("record", record.was()),
        ],
    );
    due.0
}

/// `own` holds what the lent buffer does, before and after; `before` is room for a copy.
pub fn set_date(
    tally: &mut Tally,
    buffer: &Lent,
    own: &mut [u8],
    before: &mut Vec<u8>,
    length: usize,
    date: [u32; 3],
) {
    let [year, month, day] = date;
    let got = unsafe {
        ffi::gl_table_set_date(buffer.place(), buffer.length(), length, year, month, day)
    };
    before.clear();
    before.extend_from_slice(own);
    let due = number_of(reference::set_date(own, length, (year, month, day)));
    tally.hold(
        Call::TableSetDate,
        (got, ()),
        (due, ()),
        buffer.holds(own),
        &[
            Bytes("buffer", before),
            Number("table length", length as i64),
            Number("year", year.into()),
            Number("month", month.into()),
            Number("day", day.into()),
        ],
    );
}

pub fn extent(tally: &mut Tally, file: &Lent, held: u64) {
    let mut length = Out::new(held);
    let got = unsafe { ffi::gl_table_extent(file.place(), file.length(), length.place()) };
    tally.hold(
        Call::TableExtent,
        (got, length.value()),
        due(reference::extent(file.was()).map(Some), held),
        file.kept() && length.intact(),
        &[Bytes("file", file.was())],
    );
}

fn cell_inputs<'a>(table: &'a Lent, record: u32, field: u32) -> [Input<'a>; 3] {
    [
        Bytes("table", table.was()),
        Number("record", record.into()),
        Number("field", field.into()),
    ]
}

pub fn read_number(tally: &mut Tally, table: &Lent, record: u32, field: u32, held: i64) {
    let mut value = Out::new(held);
    let got =
        unsafe { ffi::gl_read_number(table.place(), table.length(), record, field, value.place()) };
    tally.hold(
        Call::ReadNumber,
        (got, value.value()),
        due(reference::read_number(table.was(), record, field), held),
        table.kept() && value.intact(),
        &cell_inputs(table, record, field),
    );
}

pub fn read_date(tally: &mut Tally, table: &Lent, record: u32, field: u32, held: u32) {
    let (mut year, mut month, mut day) = (Out::new(held), Out::new(held), Out::new(held));
    let got = unsafe {
        ffi::gl_read_date(
            table.place(),
            table.length(),
            record,
            field,
            year.place(),
            month.place(),
            day.place(),
        )
    };
    tally.hold(
        Call::ReadDate,
        (got, (year.value(), month.value(), day.value())),
        due(
            reference::read_date(table.was(), record, field),
            (held, held, held),
        ),
        table.kept() && year.intact() && month.intact() && day.intact(),
        &cell_inputs(table, record, field),
    );
}

pub fn read_logical(tally: &mut Tally, table: &Lent, record: u32, field: u32, held: u8) {
    let mut value = Out::new(held);
    let got = unsafe {
        ffi::gl_read_logical(table.place(), table.length(), record, field, value.place())
    };
    let result = reference::read_logical(table.was(), record, field);
    tally.hold(
        Call::ReadLogical,
        (got, value.value()),
        due(result.map(|v| v.map(u8::from)), held),
        table.kept() && value.intact(),
        &cell_inputs(table, record, field),
    );
}

pub fn text_part(tally: &mut Tally, table: &Lent, memo: &Lent, record: u32, field: u32, held: u64) {
    let (mut start, mut length) = (Out::new(held), Out::new(held));
    let got = unsafe {
        ffi::gl_text_part(
            table.place(),
            table.length(),
            memo.place(),
            memo.length(),
            record,
            field,
            start.place(),
            length.place(),
        )
    };
    let result = reference::text_part(table.was(), memo.was(), record, field);
    let [of_table, of_record, of_field] = cell_inputs(table, record, field);
    tally.hold(
        Call::TextPart,
        (got, (start.value(), length.value())),
        due(
            result.map(|p| p.map(|(s, l)| (s as u64, l as u64))),
            (held, held),
        ),
        table.kept() && memo.kept() && start.intact() && length.intact(),
        &[of_table, Bytes("memo", memo.was()), of_record, of_field],
    );
}

pub fn number_read(tally: &mut Tally, text: &Lent, decimals: u32, held: i64) {
    let mut value = Out::new(held);
    let got = unsafe { ffi::gl_number_read(text.place(), text.length(), decimals, value.place()) };
    tally.hold(
        Call::NumberRead,
        (got, value.value()),
        due(reference::number_read(text.was(), decimals), held),
        text.kept() && value.intact(),
        &[
            Bytes("text", text.was()),
            Number("decimals", decimals.into()),
        ],
    );
}

pub fn number_write(tally: &mut Tally, text: &Lent, decimals: u32, value: i64) {
    let got = unsafe { ffi::gl_number_write(text.place(), text.length(), decimals, value) };
    let mut own = [0; 32];
    let own = &mut own[..text.length()];
    own.copy_from_slice(text.was());
    let due = number_of(reference::number_write(own, decimals, value));
    tally.hold(
        Call::NumberWrite,
        (got, ()),
        (due, ()),
        text.holds(own),
        &[
            Number("width", text.length() as i64),
            Number("decimals", decimals.into()),
            Number("value", value),
        ],
    );
}

/// `own` holds what the lent buffer does, before and after.
pub fn fresh(
    tally: &mut Tally,
    index: &Lent,
    own: &mut [u8],
    k: u32,
    features: u32,
    expression: &Lent,
) {
    let got = unsafe {
        ffi::gl_index_fresh(
            index.place(),
            index.length(),
            k,
            features,
            expression.place(),
            expression.length(),
        )
    };
    let due = number_of(reference::fresh(own, k, features, expression.was()));
    tally.hold(
        Call::IndexFresh,
        (got, ()),
        (due, ()),
        index.holds(own) && expression.kept(),
        &[
            Bytes("index", index.was()),
            Number("key length", k.into()),
            Number("features", features.into()),
            Bytes("expression", expression.was()),
        ],
    );
}

/// The calls that both formats of an index have, both ways.
pub struct Format {
    audit: Call,
    lookup: Call,
    library_audit: unsafe extern "C" fn(*const u8, usize) -> u32,
    library_lookup:
        unsafe extern "C" fn(*const u8, usize, *const u8, usize, *mut u32, *mut u32) -> u32,
    plain_audit: fn(&[u8]) -> Result<(), Refusal>,
    plain_lookup: fn(&[u8], &[u8]) -> Looked,
}

pub const IDX: Format = Format {
    audit: Call::IndexAudit,
    lookup: Call::IndexLookup,
    library_audit: ffi::gl_index_audit,
    library_lookup: ffi::gl_index_lookup,
    plain_audit: reference::audit,
    plain_lookup: reference::lookup,
};

pub const NDX: Format = Format {
    audit: Call::NdxAudit,
    lookup: Call::NdxLookup,
    library_audit: ffi::gl_ndx_audit,
    library_lookup: ffi::gl_ndx_lookup,
    plain_audit: reference::ndx::audit,
    plain_lookup: reference::ndx::lookup,
};

/// `own` holds what the lent buffer does.
pub fn audit(tally: &mut Tally, format: &Format, index: &Lent, own: &[u8]) -> u32 {
    let got = unsafe { (format.library_audit)(index.place(), index.length()) };
    let due = number_of((format.plain_audit)(own));
    let inputs = [Bytes("index", own)];
    tally.hold(
        format.audit,
        (got, ()),
        (due, ()),
        index.holds(own),
        &inputs,
    );
    due
}

pub fn lookup(tally: &mut Tally, format: &Format, index: &Lent, own: &[u8], key: &Lent, held: u32) {
    let (mut record, mut pages) = (Out::new(held), Out::new(held));
    let got = unsafe {
        (format.library_lookup)(
            index.place(),
            index.length(),
            key.place(),
            key.length(),
            record.place(),
            pages.place(),
        )
    };
    let due = match (format.plain_lookup)(own, key.was()) {
        Looked::Found(record, pages) => (0, (record, pages)),
        Looked::Absent(pages) => (ABSENT, (held, pages)),
        Looked::Refused(number) => (number, (held, held)),
    };
    tally.hold(
        format.lookup,
        (got, (record.value(), pages.value())),
        due,
        index.holds(own) && key.kept() && record.intact() && pages.intact(),
        &[Bytes("index", own), Bytes("key", key.was())],
    );
}

/// `own` holds what the lent buffer does, before and after; `before` is room for a copy.
pub fn insert(
    tally: &mut Tally,
    index: &Lent,
    own: &mut [u8],
    before: &mut Vec<u8>,
    key: &Lent,
    record: u32,
) -> u32 {
    let got = unsafe {
        ffi::gl_index_insert(
            index.place(),
            index.length(),
            key.place(),
            key.length(),
            record,
        )
    };
    before.clear();
    before.extend_from_slice(own);
    let due = number_of(reference::insert(own, key.was(), record));
    tally.hold(
        Call::IndexInsert,
        (got, ()),
        (due, ()),
        index.holds(own) && key.kept(),
        &[
            Bytes("index", before),
            Bytes("key", key.was()),
            Number("record", record.into()),
        ],
    );
    due
}

/// `own` holds what the lent buffer does, before and after; `before` is room for a copy.
pub fn remove(
    tally: &mut Tally,
    index: &Lent,
    own: &mut [u8],
    before: &mut Vec<u8>,
    key: &Lent,
    record: u32,
) -> u32 {
    let got = unsafe {
        ffi::gl_index_remove(
            index.place(),
            index.length(),
            key.place(),
            key.length(),
            record,
        )
    };
    before.clear();
    before.extend_from_slice(own);
    let due = number_of(reference::remove(own, key.was(), record));
    tally.hold(
        Call::IndexRemove,
        (got, ()),
        (due, ()),
        index.holds(own) && key.kept(),
        &[
            Bytes("index", before),
            Bytes("key", key.was()),
            Number("record", record.into()),
        ],
    );
    due
}

/// All records of a key. `own` holds what the lent buffer does; the list is lent as its bytes.
pub fn records(
    tally: &mut Tally,
    index: &Lent,
    own: &[u8],
    key: &Lent,
    list: &Lent,
    held: u32,
) -> u32 {
    let mut count = Out::new(held);
    let got = unsafe {
        ffi::gl_index_records(
            index.place(),
            index.length(),
            key.place(),
            key.length(),
            list.place().cast(),
            list.length() / 4,
            count.place(),
        )
    };
    let number = |bytes: &[u8]| u32::from_ne_bytes(bytes.try_into().unwrap());
    let mut numbers: Vec<u32> = list.was().chunks_exact(4).map(number).collect();
    let due = due(
        reference::records(own, key.was(), &mut numbers).map(Some),
        held,
    );
    let bytes: Vec<u8> = numbers.iter().flat_map(|n| n.to_ne_bytes()).collect();
    tally.hold(
        Call::IndexRecords,
        (got, count.value()),
        due,
        index.holds(own) && key.kept() && list.holds(&bytes) && count.intact(),
        &[
            Bytes("index", own),
            Bytes("key", key.was()),
            Bytes("list", list.was()),
        ],
    );
    due.1
}

pub fn match_index(tally: &mut Tally, table: &Lent, index: &Lent, field: u32) {
    let got = unsafe {
        ffi::gl_match(
            table.place(),
            table.length(),
            index.place(),
            index.length(),
            field,
        )
    };
    let due = number_of(reference::match_index(table.was(), index.was(), field));
    tally.hold(
        Call::Match,
        (got, ()),
        (due, ()),
        table.kept() && index.kept(),
        &[
            Bytes("table", table.was()),
            Bytes("index", index.was()),
            Number("field", field.into()),
        ],
    );
}

/// What is asked of a dilution beside its table, index and barcode.
pub struct Dilution {
    pub fields: (u32, u32),
    pub target: u64,
    pub volume: u64,
}

pub fn dilute(
    tally: &mut Tally,
    table: &Lent,
    index: &Lent,
    barcode: &Lent,
    asked: &Dilution,
    held: u32,
) {
    let (mut sample, mut diluent) = (Out::new(held), Out::new(held));
    let got = unsafe {
        ffi::gl_dilute(
            table.place(),
            table.length(),
            index.place(),
            index.length(),
            asked.fields.0,
            asked.fields.1,
            barcode.place(),
            barcode.length(),
            asked.target,
            asked.volume,
            sample.place(),
            diluent.place(),
        )
    };
    let volumes = reference::dilute(
        table.was(),
        index.was(),
        asked.fields,
        barcode.was(),
        asked.target,
        asked.volume,
    );
    tally.hold(
        Call::Dilute,
        (got, (sample.value(), diluent.value())),
        due(volumes.map(Some), (held, held)),
        table.kept() && index.kept() && barcode.kept() && sample.intact() && diluent.intact(),
        &[
            Bytes("table", table.was()),
            Bytes("index", index.was()),
            Number("barcode field", asked.fields.0.into()),
            Number("concentration field", asked.fields.1.into()),
            Bytes("barcode", barcode.was()),
            Number("target", asked.target as i64),
            Number("final volume", asked.volume as i64),
        ],
    );
}
