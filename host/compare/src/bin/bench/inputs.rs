//! The benchmark's inputs.
use gatherloom_compare::generate::{
    index::{self, Entry, Fill},
    ndx::{self, Form, Shape},
    table::{self, Column},
};
use gatherloom_compare::random::Random;
use gatherloom_compare::reference;

/// Values with at most so many digits, as texts of one format.
pub fn texts(r: &mut Random, width: usize, decimals: u32, digits: u32) -> Vec<Vec<u8>> {
    values(r, digits)
        .into_iter()
        .map(|v| {
            let mut text = vec![b' '; width];
            reference::number_write(&mut text, decimals, v).expect("the format has room");
            text
        })
        .collect()
}

/// Values below one, as texts of one format without the zero before the point.
pub fn short_texts(r: &mut Random, width: usize, decimals: u32) -> Vec<Vec<u8>> {
    let digits = decimals as usize;
    values(r, decimals)
        .into_iter()
        .map(|v| format!("{:>width$}", format!(".{:0digits$}", v.max(1))).into_bytes())
        .collect()
}

pub fn values(r: &mut Random, digits: u32) -> Vec<i64> {
    let size = 10u64.pow(digits);
    (0..256).map(|_| (r.bits() % size) as i64).collect()
}

/// A table of a lab's shape: barcode, concentration, date, mark and well, over and over.
pub fn table(r: &mut Random, fields: usize, records: usize) -> Vec<u8> {
    let column = |kind, length, decimals| Column {
        kind,
        length,
        decimals,
    };
    let five = [
        column(b'C', 10, 0),
        column(b'N', 8, 3),
        column(b'D', 8, 0),
        column(b'L', 1, 0),
        column(b'N', 4, 0),
    ];
    let columns: Vec<Column> = five.iter().copied().cycle().take(fields).collect();
    let mut t = table::blank(&columns, 0x03, records, 2);
    let mut at = 33 + 32 * fields;
    for _ in 0..records {
        t[at] = if r.one_in(10) { b'*' } else { b' ' };
        at += 1;
        for c in &columns {
            let cell = &mut t[at..at + c.length as usize];
            match c.kind {
                b'C' => cell.fill_with(|| b'0' + r.below(10) as u8),
                b'N' => reference::number_write(cell, c.decimals as u32, r.below(9999) as i64)
                    .expect("there is room"),
                b'D' => cell.copy_from_slice(b"20240229"),
                _ => cell[0] = b'T',
            }
            at += c.length as usize;
        }
    }
    t
}

/// An index of so many pages at most, each with so many entries, its keys random but for so many bytes at their start, and without control bytes.
pub fn index(
    r: &mut Random,
    k: usize,
    per_page: usize,
    pages: usize,
    alike: usize,
) -> (Vec<u8>, Vec<Entry>) {
    let leaves = index::leaves_for(pages, per_page);
    let mut entries = index::entries(r, k - alike, leaves * per_page, 4);
    for e in &mut entries {
        e.0.splice(0..0, std::iter::repeat_n(b'S', alike));
    }
    let bytes = index::tree(r, k, &entries, Fill::Exactly(per_page), 1);
    (bytes, entries)
}

/// Such an index with features 0, whose keys have `run` records each, the even numbers from 2 on.
pub fn several(
    r: &mut Random,
    k: usize,
    per_page: usize,
    pages: usize,
    alike: usize,
    run: usize,
) -> (Vec<u8>, Vec<Entry>) {
    let leaves = index::leaves_for(pages, per_page);
    let keys = index::entries(r, k - alike, leaves * per_page / run, 4);
    let mut entries = Vec::with_capacity(keys.len() * run);
    for (end, _) in keys {
        let key = [vec![b'S'; alike], end].concat();
        entries.extend((1..=run as u32).map(|i| (key.clone(), 2 * i)));
    }
    let mut bytes = index::tree(r, k, &entries, Fill::Exactly(per_page), 1);
    bytes[14] = 0;
    assert_eq!(reference::audit(&bytes), Ok(()));
    (bytes, entries)
}

/// An NDX index of about so many full pages besides the header, its keys random and without control bytes. A full page of n keys stands over n + 1 others.
pub fn ndx(r: &mut Random, k: usize, pages: usize) -> (Vec<u8>, Vec<Entry>) {
    let form = Form::full(k);
    let leaves = (pages * form.most).div_ceil(form.most + 1);
    filled(r, form, leaves * form.most * 127 / 128)
}

/// An NDX index of 15 levels of one key a page, which fill 16 MiB.
pub fn deepest_ndx(r: &mut Random) -> (Vec<u8>, Vec<Entry>) {
    filled(r, Form { k: 5, most: 1 }, 16_500)
}

fn filled(r: &mut Random, form: Form, draws: usize) -> (Vec<u8>, Vec<Entry>) {
    let entries = index::entries(r, form.k, draws, 4);
    let shape = Shape {
        full: true,
        raised: false,
        scattered: true,
    };
    let (bytes, entries) = ndx::tree(r, form, &entries, shape);
    let (bytes, entries) = (bytes, entries.to_vec());
    assert_eq!(reference::ndx::audit(&bytes), Ok(()));
    (bytes, entries)
}

/// Keys that are not in the index: those that are, with their last byte changed.
pub fn absent(keys: &[Vec<u8>], entries: &[Entry]) -> Vec<Vec<u8>> {
    keys.iter()
        .map(|key| {
            let mut key = key.clone();
            *key.last_mut().unwrap() ^= 1;
            key
        })
        .filter(|key| entries.binary_search_by(|e| e.0.cmp(key)).is_err())
        .collect()
}

/// A table with distinct barcodes, and the index on them.
pub fn matching(r: &mut Random, records: usize) -> (Vec<u8>, Vec<u8>) {
    let mut t = table(r, 5, records);
    let record = 32;
    let mut entries: Vec<Entry> = Vec::with_capacity(records);
    for i in 0..records {
        let at = 33 + 32 * 5 + i * record + 1;
        let number = format!("{:010}", i * 7919 % 1_000_003 * 4099);
        t[at..at + 10].copy_from_slice(&number.as_bytes()[..10]);
        entries.push((t[at..at + 10].to_vec(), i as u32 + 1));
    }
    entries.sort();
    let index = index::tree(r, 10, &entries, Fill::Exactly(24), 1);
    (t, index)
}

/// A table of one field of one character.
pub fn blank_records(records: usize) -> Vec<u8> {
    let column = Column {
        kind: b'C',
        length: 1,
        decimals: 0,
    };
    table::blank(&[column], 0x03, records, 0)
}
