//! Other programs' tables and memo files, through the safe wrapper: what the incident was about, and every call on every field against plain Rust.
use gatherloom::{ffi, Answer, Decimal, Field, Refusal, Table, Value};
use gatherloom_compare::reference;
use std::{fs, path::PathBuf};

fn data() -> PathBuf {
    PathBuf::from(env!("CARGO_MANIFEST_DIR")).join("../../crates/test_samples/data")
}

fn read(name: &str) -> Vec<u8> {
    fs::read(data().join(name)).unwrap()
}

#[test]
fn a_comma_is_never_a_number() {
    let (point, comma) = (read("shp_point.dbf"), read("shp_comma.dbf"));
    let (point, comma) = (Table::new(&point).unwrap(), Table::new(&comma).unwrap());
    let good = point.field("CONC").unwrap().number;
    let value = point.decimal(1, good).unwrap().unwrap();
    assert_eq!((value.units(), value.decimals()), (2150, 3));
    assert_eq!(value.to_string(), "2.150");
    let bad = comma.field("CONC").unwrap().number;
    for record in comma.records() {
        assert_eq!(record.value(bad), Err(Refusal::Comma));
    }
}

fn due<T>(result: Result<T, u32>) -> Answer<T> {
    result.map_err(|number| Refusal::from_code(number).unwrap())
}

#[test]
fn every_field_reads_as_in_plain_rust() {
    for file in fs::read_dir(data()).unwrap() {
        let path = file.unwrap().path();
        if path.extension().is_none_or(|e| e != "dbf") {
            continue;
        }
        let bytes = fs::read(&path).unwrap();
        let memo = fs::read(path.with_extension("fpt")).unwrap_or_default();
        let shape = due(reference::check_table(&bytes));
        assert_eq!(Table::check(&bytes), shape.map(|_| ()));
        let table = Table::with_memo(&bytes, &memo);
        assert_eq!(table.as_ref().err(), shape.err().as_ref());
        let Ok(table) = table else { continue };
        for record in 0..shape.unwrap().records + 2 {
            for field in 0..table.shape().fields + 2 {
                one_field(&table, &memo, record, field);
            }
        }
    }
}

fn one_field(table: &Table, memo: &[u8], record: u32, field: u32) {
    let bytes = table.bytes();
    let units = |value: Answer<Option<Decimal>>| value.map(|v| v.map(Decimal::units));
    assert_eq!(
        units(table.decimal(record, field)),
        due(reference::read_number(bytes, record, field))
    );
    let date = table.date(record, field);
    assert_eq!(
        date.map(|d| d.map(|d| (d.year, d.month, d.day))),
        due(reference::read_date(bytes, record, field))
    );
    assert_eq!(
        table.logical(record, field),
        due(reference::read_logical(bytes, record, field))
    );
    let place = due(reference::text_part(bytes, memo, record, field));
    let kind = bytes.get(32 * field as usize + 11);
    let file = if kind == Some(&b'M') { memo } else { bytes };
    assert_eq!(
        table.text(record, field),
        place.map(|p| p.map(|(start, length)| &file[start..start + length]))
    );
    by_type(table, record, field);
}

/// `value` answers what the field's own call does.
fn by_type(table: &Table, record: u32, field: u32) {
    let listed = table.fields().get((field as usize).wrapping_sub(1));
    let due = match listed.map(|f| f.kind) {
        Some(b'N') => table.decimal(record, field).map(|v| v.map(Value::Decimal)),
        Some(b'D') => table.date(record, field).map(|v| v.map(Value::Date)),
        Some(b'L') => table.logical(record, field).map(|v| v.map(Value::Logical)),
        Some(_) => table.text(record, field).map(|v| v.map(Value::Text)),
        None if (1..=table.shape().records).contains(&record) => Err(Refusal::FieldNumber),
        None => Err(Refusal::RecordNumber),
    };
    assert_eq!(table.value(record, field), due);
}

#[test]
fn fields_are_listed_as_in_plain_rust() {
    for name in ["shp_point.dbf", "xbase_f5.dbf", "fpc_fox.dbf", "k7_k8.dbf"] {
        let bytes = read(name);
        let table = Table::new(&bytes).unwrap();
        let none = reference::Field {
            name: [0; 11],
            kind: 0,
            length: 0,
            decimals: 0,
            offset: 0,
        };
        let mut entries = vec![none; table.fields().len()];
        reference::list_fields(&bytes, &mut entries).unwrap();
        for (field, (entry, number)) in table.fields().iter().zip(entries.iter().zip(1..)) {
            assert_eq!(field.number, number);
            assert_eq!(
                (field.kind, field.length, field.decimals, field.offset),
                (entry.kind, entry.length, entry.decimals, entry.offset)
            );
            assert_eq!(
                field.name().as_bytes(),
                entry.name.split(|&c| c == 0).next().unwrap()
            );
            assert_eq!(table.field(field.name()), Some(field));
        }
    }
}

/// A table whose bytes 12 to 15 of each descriptor mislead, with another program's answers; and no byte there is read.
#[test]
fn offsets_are_worked_out() {
    let mut bytes = read("k7_k8.dbf");
    let listed = |bytes: &[u8]| -> Vec<String> {
        let table = Table::new(bytes).unwrap();
        let line = |f: &Field| {
            let (kind, length, decimals) = (f.kind as char, f.length, f.decimals);
            format!(
                "field {} {} {kind} {length} {decimals} offset {}",
                f.number,
                f.name(),
                f.offset
            )
        };
        table.fields().iter().map(line).collect()
    };
    let due = String::from_utf8(read("k7_k8.expected")).unwrap();
    let due: Vec<&str> = due.lines().filter(|l| l.starts_with("field")).collect();
    assert_eq!(due.len(), 6);
    assert_eq!(listed(&bytes), due);
    for j in 0..due.len() {
        bytes[32 + 32 * j + 12..][..4].fill(0xFF);
        assert_eq!(listed(&bytes), due);
    }
}

/// Each record's mark, by its deletion byte.
fn marks(table: &Table) -> Vec<Answer<bool>> {
    let length = table.shape().record_length as usize;
    let first = 33 + 32 * table.fields().len();
    let mark = |record: usize| match table.bytes()[first + record * length] {
        b' ' => Ok(false),
        b'*' => Ok(true),
        _ => Err(Refusal::DeletionByte),
    };
    (0..table.shape().records as usize).map(mark).collect()
}

/// A table with its marks overwritten, in turn.
fn remarked(name: &str, with: &[u8]) -> Vec<u8> {
    let mut bytes = read(name);
    let (first, length, records) = {
        let table = Table::new(&bytes).unwrap();
        let shape = table.shape();
        (
            33 + 32 * shape.fields as usize,
            shape.record_length as usize,
            shape.records as usize,
        )
    };
    for record in 0..records {
        bytes[first + record * length] = with[record % with.len()];
    }
    bytes
}

#[test]
fn records_have_their_marks() {
    for with in [
        &b" "[..],
        b"*",
        b"x",
        b" *",
        b"* ",
        b"**x",
        b"x* ",
        b" x**",
        b"xx *",
    ] {
        let bytes = remarked("xbase_s20.dbf", with);
        let table = Table::new(&bytes).unwrap();
        let records: Vec<_> = table.records().collect();
        let got: Vec<_> = records.iter().map(|r| r.deleted()).collect();
        assert_eq!(got, marks(&table));
        for (record, number) in records.iter().zip(1..) {
            assert_eq!(record.number(), number);
            assert_eq!(record.value(1), table.value(number, 1));
        }
    }
}

#[test]
fn a_walk_goes_as_in_plain_rust() {
    for with in [&b" "[..], b"*", b"x", b" *", b"**x", b" x**"] {
        let bytes = remarked("xbase_s20.dbf", with);
        let mut passed = 0;
        let step = || match reference::walk_live(&bytes, &mut passed) {
            reference::Step::Record { number, .. } => Some(Ok(number)),
            reference::Step::Done => None,
            reference::Step::Refused(number) => Some(due(Err(number))),
        };
        let want: Vec<_> = std::iter::from_fn(step).collect();
        let got: Vec<_> = Table::new(&bytes).unwrap().live().collect();
        assert_eq!(got, want);
    }
}

/// The steps of the walk over every record until done, as a line of k7_k8.expected has them.
fn walked(table: &[u8], passed: u32) -> Vec<String> {
    let mut position = ffi::Position { passed };
    let mut steps = vec![];
    loop {
        let (mut record, mut deleted) = (0, 0xEE);
        let (bytes, length) = (table.as_ptr(), table.len());
        let answer =
            unsafe { ffi::gl_walk(bytes, length, &mut position, &mut record, &mut deleted) };
        let mark = match deleted {
            0 => "live",
            1 => "deleted",
            _ => "",
        };
        assert_eq!(answer == 0, deleted != 0xEE);
        steps.push(match answer {
            0 => format!("0 {record} {mark} @{}", position.passed),
            _ => format!("{answer} @{}", position.passed),
        });
        if answer == ffi::DONE {
            return steps;
        }
    }
}

/// The steps of the walk that skips deleted records.
fn walked_live(table: &[u8], passed: u32) -> Vec<String> {
    let mut position = ffi::Position { passed };
    let mut steps = vec![];
    loop {
        let mut record = 0;
        let (bytes, length) = (table.as_ptr(), table.len());
        let answer = unsafe { ffi::gl_walk_live(bytes, length, &mut position, &mut record) };
        steps.push(match answer {
            0 => format!("0 {record} @{}", position.passed),
            _ => format!("{answer} @{}", position.passed),
        });
        if answer == ffi::DONE {
            return steps;
        }
    }
}

#[test]
fn both_walks_go_as_another_implementation_says() {
    let table = read("k7_k8.dbf");
    let expected = fs::read_to_string(data().join("k7_k8.expected")).unwrap();
    let mut walks = 0;
    for line in expected.lines().filter(|l| l.starts_with("walk")) {
        let (call, steps) = line.split_once(": ").unwrap();
        let (name, start) = call.split_once(' ').unwrap();
        let start = start.parse().unwrap();
        let got = match name {
            "walk" => walked(&table, start),
            _ => walked_live(&table, start),
        };
        assert_eq!(got.join("; "), steps);
        walks += 1;
    }
    assert_eq!(walks, 16);
}

/// The steps without their positions, and without those that hand out a deleted record.
fn undeleted(steps: Vec<String>) -> Vec<String> {
    let kept = steps.iter().filter(|step| !step.contains("deleted"));
    kept.map(|step| step.split(" @").next().unwrap().replace(" live", ""))
        .collect()
}

#[test]
fn the_two_walks_agree_from_every_position() {
    for with in [&b" "[..], b"*", b"x", b" *", b"**x", b" x**"] {
        let table = remarked("xbase_s20.dbf", with);
        for start in (0..=21).chain([u32::MAX - 1, u32::MAX]) {
            assert_eq!(
                undeleted(walked(&table, start)),
                undeleted(walked_live(&table, start))
            );
        }
    }
}
