//! Writing a table: another program's list of calls, both ways; and what a file holds wherever power fails in an append.
use gatherloom::{Answer, Date, Field, Refusal, Store, Stores, Table};
use gatherloom_compare::reference;
use std::{fs, path::PathBuf};

fn data() -> PathBuf {
    PathBuf::from(env!("CARGO_MANIFEST_DIR")).join("../../crates/test_writing/data")
}

/// The places and lengths of both stores, or the refusal.
type Appended = Result<[u64; 4], u32>;

/// The calls that write, by number as the list has them.
struct Calls {
    lay_out: fn(&mut [u8], &[Field], [u32; 3]) -> u32,
    append: fn(&mut [u8], usize, &[u8]) -> Appended,
    set_date: fn(&mut [u8], usize, [u32; 3]) -> u32,
    extent: fn(&[u8]) -> Result<u64, u32>,
}

const LIBRARY: Calls = Calls {
    lay_out: |buffer, fields, [year, month, day]| {
        let date = Date { year, month, day };
        let length = by_number(Table::lay_out(buffer, fields, date));
        length.map_or_else(
            |n| n,
            |length| {
                assert_eq!(Table::extent(buffer), Ok(length as u64 - 1));
                0
            },
        )
    },
    append: |buffer, table_len, record| {
        let stores = by_number(Table::append(buffer, table_len, record))?.in_order();
        Ok(numbers(stores.map(|s| (s.place, s.length))))
    },
    set_date: |buffer, table_len, [year, month, day]| {
        let date = Date { year, month, day };
        by_number(Table::set_date(buffer, table_len, date)).map_or_else(|n| n, |()| 0)
    },
    extent: |file| by_number(Table::extent(file)),
};

const PLAIN: Calls = Calls {
    lay_out: |buffer, fields, [year, month, day]| {
        let entry = |f: &Field| {
            let mut name = [0; 11];
            name[..f.name().len()].copy_from_slice(f.name().as_bytes());
            reference::Field {
                name,
                kind: f.kind,
                length: f.length,
                decimals: f.decimals,
                offset: f.offset,
            }
        };
        let entries: Vec<reference::Field> = fields.iter().map(entry).collect();
        reference::lay_out(buffer, &entries, (year, month, day)).map_or_else(|n| n, |()| 0)
    },
    append: |buffer, table_len, record| Ok(numbers(reference::append(buffer, table_len, record)?)),
    set_date: |buffer, table_len, [year, month, day]| {
        let date = (year, month, day);
        reference::set_date(buffer, table_len, date).map_or_else(|n| n, |()| 0)
    },
    extent: reference::extent,
};

fn by_number<T>(answer: Answer<T>) -> Result<T, u32> {
    answer.map_err(Refusal::code)
}

fn numbers([record, count]: [(u64, u64); 2]) -> [u64; 4] {
    [record.0, record.1, count.0, count.1]
}

fn bytes(hex: &str) -> Vec<u8> {
    (0..hex.len() / 2)
        .map(|i| u8::from_str_radix(&hex[2 * i..2 * i + 2], 16).unwrap())
        .collect()
}

fn number(word: &str) -> u32 {
    word.parse().unwrap()
}

/// A line's own answer and stores, as an append gives them.
fn listed(words: &[&str]) -> Appended {
    match words[0] {
        "0" => {
            let stores: Vec<u64> = words[1..].iter().map(|w| w.parse().unwrap()).collect();
            Ok(stores.try_into().unwrap())
        }
        refusal => Err(number(refusal)),
    }
}

fn fields(word: &str) -> Vec<Field> {
    let field = |word: &str| {
        let parts: Vec<&str> = word.split(':').collect();
        let [length, decimals] = [parts[2], parts[3]].map(|n| n.parse().unwrap());
        Field::new(parts[0], parts[1].as_bytes()[0], length, decimals)
    };
    match word {
        "-" => Vec::new(),
        _ => word.split(',').map(field).collect(),
    }
}

/// Lays out a table in a buffer of bytes 0xEE, and gives the buffer if it is accepted: the table is then the file that its room names.
fn laid_out(calls: &Calls, line: &str, words: &[&str]) -> Option<Vec<u8>> {
    let mut buffer = vec![0xEE; words[4].parse().unwrap()];
    let mut want = buffer.clone();
    let date = [1, 2, 3].map(|i| number(words[i]));
    let answer = (calls.lay_out)(&mut buffer, &fields(words[5]), date);
    assert_eq!(answer, number(words[6]), "{line}");
    if answer == 0 {
        let table = fs::read(data().join(words[4])).unwrap();
        want[..table.len()].copy_from_slice(&table);
    }
    assert_eq!(buffer, want, "{line}");
    (answer == 0).then_some(buffer)
}

fn replay(calls: &Calls) {
    let list = fs::read_to_string(data().join("k3_writing.calls")).unwrap();
    let mut buffer = Vec::new();
    for line in list.lines() {
        let words: Vec<&str> = line.split(' ').collect();
        if words[0] == "lay_out" {
            buffer = laid_out(calls, line, &words).unwrap_or(buffer);
            continue;
        }
        let table_len = (calls.extent)(&buffer).unwrap() as usize + 1;
        let (before, room) = (buffer.clone(), buffer.len());
        let answer = match words[0] {
            "append" | "append_longer" => {
                let longer = words[0] == "append_longer";
                let length = if longer { room + 1 } else { table_len };
                let got = (calls.append)(&mut buffer, length, &bytes(words[1]));
                assert_eq!(got, listed(&words[2..]), "{line}");
                got.err().unwrap_or(0)
            }
            "date" => {
                let date = [1, 2, 3].map(|i| number(words[i]));
                let got = (calls.set_date)(&mut buffer, table_len, date);
                assert_eq!(got, number(words[4]), "{line}");
                got
            }
            "image" => {
                let image = fs::read(data().join(words[1])).unwrap();
                assert_eq!(table_len as u32, number(words[2]), "{line}");
                assert_eq!(buffer[..table_len], image, "{line}");
                0
            }
            other => panic!("no call: {other}"),
        };
        assert!(answer == 0 || buffer == before, "{line}: a refusal writes");
    }
}

#[test]
fn the_library_writes_as_the_other_program() {
    replay(&LIBRARY);
}

#[test]
fn plain_rust_writes_as_the_other_program() {
    replay(&PLAIN);
}

/// A name that an entry has no room for, or with a zero in it, is not taken for another.
#[test]
fn a_name_is_laid_out_whole_or_not_at_all() {
    let date = Date {
        year: 2024,
        month: 2,
        day: 29,
    };
    let mut buffer = [0xEE; 66];
    for name in [
        "",
        "ABCDEFGHIJK",
        "ABCDEFGHIJKL",
        "A\0",
        "ABCDEFGHIJ\0",
        "ABCDEFGHIJ\0K",
        "É",
    ] {
        let got = Table::lay_out(&mut buffer, &[Field::new(name, b'L', 1, 0)], date);
        assert_eq!(got, Err(Refusal::FieldDescriptor), "{name:?}");
        assert_eq!(buffer, [0xEE; 66]);
    }
    let fields = [Field::new("ABCDEFGHIJ", b'L', 1, 0)];
    assert_eq!(Table::lay_out(&mut buffer, &fields, date), Ok(66));
    let table = Table::new(&buffer).unwrap();
    assert_eq!(table.fields()[0].name(), "ABCDEFGHIJ");
    assert_eq!((fields[0].offset, table.fields()[0].offset), (0, 1));
    // fields of a table lay out another, whatever their offsets
    let mut other = [0; 66];
    assert_eq!(Table::lay_out(&mut other, table.fields(), date), Ok(66));
    assert_eq!(other, buffer);
}

/// A number without its zero before the point is appended, and its field keeps that text.
#[test]
fn a_dropped_zero_is_kept() {
    let date = Date {
        year: 2024,
        month: 2,
        day: 29,
    };
    let fields = [Field::new("CONC", b'N', 5, 3)];
    for calls in [LIBRARY, PLAIN] {
        let mut buffer = [0xEE; 66 + 6 + 6];
        let end = Table::lay_out(&mut buffer, &fields, date).unwrap();
        assert_eq!((calls.append)(&mut buffer, end, b" -.000"), Err(17));
        assert_eq!(
            (calls.append)(&mut buffer, end, b" -.150"),
            Ok([65, 7, 4, 4])
        );
        assert_eq!(&buffer[65..72], b" -.150\x1A");
        let value = Table::new(&buffer[..72]).unwrap().decimal(1, 1).unwrap();
        assert_eq!(value.unwrap().units(), -150);
    }
}

/// A file's bytes with a store, or some of it, made.
fn made(file: &[u8], buffer: &[u8], store: Store, bytes: usize) -> Vec<u8> {
    let mut file = file.to_vec();
    let place = store.place as usize;
    file.resize(file.len().max(place + bytes), 0);
    file[place..place + bytes].copy_from_slice(&buffer[place..place + bytes]);
    file
}

/// A file as the host finds it after a power loss, shortened to its extent.
fn shortened(mut file: Vec<u8>) -> Vec<u8> {
    let extent = Table::extent(&file).unwrap();
    assert_eq!(reference::extent(&file), Ok(extent));
    file.truncate(extent as usize);
    file
}

fn loses_power(old_file: &[u8], buffer: &[u8], stores: Stores) {
    let [record, count] = stores.in_order();
    let old = &old_file[..record.place as usize];
    for bytes in 0..=record.length as usize {
        // with the old end mark still behind a store that is not whole, and without
        let torn = made(old_file, buffer, record, bytes);
        assert_eq!(shortened(torn), old);
        assert_eq!(shortened(made(old, buffer, record, bytes)), old);
    }
    let first = made(old_file, buffer, record, record.length as usize);
    assert_eq!(Table::check(&first), Err(Refusal::TableLength));
    let both = made(&first, buffer, count, count.length as usize);
    assert_eq!(both, buffer[..stores.table_len()]);
    assert_eq!(Table::check(&both), Ok(()));
    let new = shortened(both);
    assert_eq!(new, buffer[..stores.table_len() - 1]);
    assert_eq!(Table::new(&new).unwrap().shape().records, 1 + records(old));
}

fn records(table: &[u8]) -> u32 {
    Table::new(table).unwrap().shape().records
}

/// Appends each record of another program's table to the table itself, with and without its end mark.
#[test]
fn a_file_is_the_old_table_or_the_new_one() {
    let samples = data().join("../../test_samples/data");
    for name in ["shp_point.dbf", "xbase_f5.dbf", "pydbf_db3.dbf"] {
        let mut file = fs::read(samples.join(name)).unwrap();
        let size = Table::new(&file).unwrap().shape().record_length as usize;
        let first = Table::extent(&file).unwrap() as usize - records(&file) as usize * size;
        let old: Vec<Vec<u8>> = file[first..]
            .chunks_exact(size)
            .map(<[u8]>::to_vec)
            .collect();
        let mut appended = 0;
        for record in old {
            let mut buffer = file.clone();
            buffer.resize(file.len() + 2 * size, 0xEE);
            let before = buffer.clone();
            match Table::append(&mut buffer, file.len(), &record) {
                Err(_) => assert_eq!(buffer, before),
                Ok(stores) => {
                    loses_power(&file, &buffer, stores);
                    assert_eq!(buffer[stores.table_len()..], before[stores.table_len()..]);
                    let with_mark = stores.table_len() - appended % 2;
                    file = buffer[..with_mark].to_vec();
                    appended += 1;
                }
            }
        }
        assert!(appended > 2, "{name}");
    }
}

/// A table of blank records of `record` bytes with `fields` C fields whose new end mark, if one is appended, is the last byte of `end` bytes.
fn nearly(end: usize, fields: usize, record: usize) -> Vec<u8> {
    let header = 33 + 32 * fields;
    let count = (end - 1 - header) / record - 1;
    assert_eq!(header + (count + 1) * record + 1, end);
    let mut table = vec![0; header];
    table[..4].copy_from_slice(&[0x03, 124, 2, 29]);
    table[4..8].copy_from_slice(&(count as u32).to_le_bytes());
    table[8..10].copy_from_slice(&(header as u16).to_le_bytes());
    table[10] = record as u8;
    for j in 0..fields {
        table[32 + 32 * j] = b'A' + j as u8;
        table[32 + 32 * j + 11] = b'C';
        table[32 + 32 * j + 16] = ((record - 1) / fields) as u8;
    }
    table[header - 1] = 0x0D;
    table.resize(header + count * record, b' ');
    table
}

#[test]
fn a_table_ends_at_the_buffer_and_at_16_777_216_bytes() {
    for (end, fields, record, limit) in [
        (16_777_216, 1, 5, true),
        (16_777_217, 2, 3, false),
        (1066, 1, 10, true),
    ] {
        let table = nearly(end, fields, record);
        for (room, good) in [(end - 1, false), (end, limit), (end + 9, limit)] {
            let mut buffer = table.clone();
            buffer.resize(room, b' ');
            let before = buffer.clone();
            let got = Table::append(&mut buffer, table.len(), &vec![b'x'; record]);
            assert_eq!(got, Err(Refusal::DeletionByte));
            let got = Table::append(&mut buffer, table.len(), &vec![b' '; record]);
            if good {
                assert_eq!(got.unwrap().table_len(), end);
            } else {
                assert_eq!(got, Err(Refusal::NoRoom));
                assert!(buffer == before, "a refusal writes");
            }
        }
    }
}
